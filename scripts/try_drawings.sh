#!/usr/bin/env bash
# try_drawings.sh PREFIX     lets the minorder-diagram of an installation draw all examples under the orders of minorder's reports
set -euo pipefail
unset CDPATH
[ $# = 1 ] || { echo "usage: scripts/try_drawings.sh PREFIX" >&2; exit 1; }
here=$(cd -- "$(dirname -- "${BASH_SOURCE[0]}")" && pwd)
prefix=$1
made=$(mktemp -d)
trap 'rm -rf "$made"' EXIT
fail() { echo "$*" >&2; exit 1; }
draw() { "$prefix/bin/minorder-diagram" "$@"; }

# refused STATUS WORD..: a call that has this status, one line on standard error that begins with the name, and writes nothing
refused() {
    local status=0
    draw "${@:2}" > "$made/output" 2> "$made/errors" || status=$?
    [[ $status = "$1" && ! -s $made/output && $(wc -l < "$made/errors") = 1 ]] || fail "minorder-diagram ${*:2}: status $status, $(cat "$made/errors")"
    grep -q '^minorder-diagram: ' "$made/errors"
    [ -z "$(find "$made" -name 'out.*')" ] || fail "minorder-diagram ${*:2}: it leaves a file"
}

for file in "$here"/../examples/*.pla; do
    "$prefix/bin/minorder" "$file" > "$made/report"
    draw --out "$made/it.json" "$file" < "$made/report"
    # a wrong count is seen
    sed 's/^levels: ./levels: 9/; s/^nodes: .*/nodes: 9/' "$made/report" > "$made/wrong"
    refused 3 --out "$made/out.json" "$file" < "$made/wrong"
done
# a pipe that holds no report is refused, as where minorder has refused its file
{ "$prefix/bin/minorder" "$made/no.pla" 2> /dev/null || true; } | refused 3 --both "$file"
# what is too large for a picture is refused soon
printf '.i 16\n.o 16\n' > "$made/large.pla"
python3 -c 'import random; [print(f"{random.getrandbits(16):016b} {random.getrandbits(16):016b}") for _ in range(3000)]' >> "$made/large.pla"
refused 2 --out "$made/out.svg" "$made/large.pla" < /dev/null
refused 2 --out "$made/out.gif" "$file" < /dev/null
echo "minorder-diagram: the level counts of all examples are those of the reports"
for file in "$here"/../docs/*.svg; do
    { grep -q '<text' "$file" && grep -q '<title>' "$file"; } || fail "$file keeps no text as text, or has no title"
done
if command -v dot > /dev/null; then
    "$prefix/bin/minorder" "$here/../examples/products3.pla" | draw --both --out "$made/it.svg" "$here/../examples/products3.pla"
    [ "$(grep -o '<title>Decision diagram of [^<]*' "$made/it.svg" | head -1)" = "$(grep -o '<title>Decision diagram of [^<]*' "$here/../docs/diagrams.svg" | head -1)" ]
    grep -q '</svg>' "$made/it.svg"
else
    echo "left out: no dot here"
fi
