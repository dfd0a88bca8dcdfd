#!/usr/bin/env bash
# check.sh PREFIX     judges the form of the manual pages, and compares what their EXAMPLES show with what the installed programs print
set -euo pipefail
unset CDPATH
[ $# = 1 ] || { echo "usage: man/check.sh PREFIX" >&2; exit 1; }
prefix=$(cd -- "$1" && pwd)
here=$(cd -- "$(dirname -- "${BASH_SOURCE[0]}")" && pwd)
made=$(mktemp -d)
trap 'rm -rf "$made"' EXIT

has() { command -v "$1" > /dev/null || { echo "left out: no $1 here"; return 1; }; }

if has man && has groff; then
    for page in "$here"/*.[13]; do
        man --warnings -E UTF-8 -l -Tutf8 -Z "$page" 2>&1 > /dev/null | tee -a "$made/warnings"
    done
    [ ! -s "$made/warnings" ]
    echo "man --warnings: nothing"
    # each call that the header has for callers
    for name in $(grep -o 'minorder_[a-z_]*(' "$prefix/include/minorder.h" | tr -d '(' | grep -Ev '_with_(lengths|pairs)$|^minorder_places$' | sort -u); do
        man -M "$prefix/share/man" 3 "$name" > "$made/page" 2> /dev/null || { echo "man $name finds no page" >&2; exit 1; }
        grep -q "RETURN VALUE" "$made/page"
    done
    echo "man: each call of minorder.h has its page"
fi
if has mandoc; then
    mandoc -Tlint -W style "$here"/*.[13]
    echo "mandoc -Tlint: nothing"
fi

# The lines of the examples as the page shows them.
examples() {
    awk '/^\.SH/ { on = /EXAMPLES/ } /^\.EE/ { in_it = 0 } on && in_it; /^\.EX/ { in_it = 1 }' "$1" | sed 's/\\-/-/g; s/\\(aq/'"'"'/g; s/\\e/\\/g'
}

cd "$made"
cp "$prefix"/share/doc/minorder/examples/*.pla .
"$prefix/bin/minorder" --help | grep -q "1 to 64 \[default: 4\]"
pages=(minorder.1 ordercheck.1)
! has python3 || pages+=(minorder-batch.1 minorder-diagram.1 minorder-functions.1 minorder-levels.1 minorder-orders.1 minorder-score.1)
for page in "${pages[@]}"; do
    examples "$here/$page" > "$page.shown"
    while read -r mark command; do
        [ "$mark" != '$' ] || { echo "\$ $command"; PATH=$prefix/bin:$PATH bash -c "$command" || true; }
    done < "$page.shown" > "$page.printed"
    diff "$page.shown" "$page.printed"
    echo "$page: its examples print what it shows"
done
if has "${CC:-cc}"; then
    examples "$here/minorder.3" | sed '/^}/q' > example.c
    examples "$here/minorder.3" | sed '1,/^}/d' > shown
    "${CC:-cc}" -Wall -Werror -I "$prefix/include" example.c "$prefix/lib/libminorder.a" -o example
    ./example | diff shown -
    echo "minorder.3: its example prints what it shows"
fi
