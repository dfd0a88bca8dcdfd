#!/usr/bin/env bash
# try.sh         tries the release that release/release.sh made, from an empty folder: its sums, its names, the programs alone on the path, the
#                library for C by pkg-config, the shared library from Python, the wheel, the crate, the checker proved in Coq, the
#                certificates of the table of optima; the tree of the Debian packages likewise, and what lintian says of them
set -euo pipefail
unset CDPATH
top=$(cd -- "$(dirname -- "${BASH_SOURCE[0]}")/.." && pwd)
version=$(< "$top/VERSION")
made=$(mktemp -d)
trap 'rm -rf "$made"' EXIT
fail() { echo "release/try.sh: $*" >&2; exit 1; }
has() { command -v "$1" > /dev/null || { echo "left out: no $1 here"; return 1; }; }

# run NAME WORD..: a program with nothing else on the path
run() { (PATH=$tree/bin; "$@"); }

programs() {
    local file count=0
    for file in "$tree"/share/doc/minorder/examples/*.pla; do
        run minorder "$file" | cmp - "${file%.pla}.report" || fail "$file: another report"
        run minorder --cert "$made/cert" "$file" > "$made/report"
        [ "$(run ordercheck "$file" "$made/cert")" = "valid $(sed -n 's/^nodes: //p' "$made/report")" ] || fail "$file: the certificate isn't valid"
        count=$((count + 1))
    done
    for file in "$tree"/share/doc/minorder/examples/*.cert; do
        run ordercheck "${file%.cert}.pla" "$file" > /dev/null || fail "$file isn't valid"
    done
    ((count > 0)) || fail "no examples"
    echo "$count examples: reports and certificates as they are to be"
}

# The C program that the page on C shows, with the shared library and with the archive.
c_example() {
    if ! has pkg-config || ! has "${CC:-cc}"; then return; fi
    sed -n '/^```c$/,/^```$/{/^```$/q;/^```c/d;p}' "$tree/share/doc/minorder/bindings/c/README.md" > "$made/example.c"
    local flags
    read -ra flags < <(PKG_CONFIG_PATH=$libraries/pkgconfig pkg-config --cflags --libs minorder)
    "${CC:-cc}" "$made/example.c" "${flags[@]}" -o "$made/example"
    [ "$(LD_LIBRARY_PATH=$libraries "$made/example")" = "0 3 1 4 2 5 6" ] || fail "the C example prints something else"
    "${CC:-cc}" "$made/example.c" -I "$tree/include" "$libraries/libminorder.a" -o "$made/example"
    [ "$("$made/example")" = "0 3 1 4 2 5 6" ] || fail "the C example prints something else with the archive"
    echo "the C example by pkg-config and with the archive: as the page says"
}

python() {
    has python3 || return 0
    local script='import minorder; print(minorder.exact(lambda a, b, s: b if s else a, 3))'
    [ "$(PYTHONDONTWRITEBYTECODE=1 PYTHONPATH=$modules MINORDER_LIBRARY=$libraries/libminorder.so.1 python3 -c "$script")" = \
        "Result(order=(2, 0, 1), levels=(1, 1, 1), total=3)" ] || fail "Python prints something else"
    local file
    for file in "$tree"/share/doc/minorder/examples/*.cert; do
        [ "$("$tree/share/minorder/check.py" "${file%.cert}.pla" "$file")" = "$(run ordercheck "${file%.cert}.pla" "$file")" ] ||
            fail "$file: check.py has another verdict"
    done
    echo "the shared library from Python and check.py: as they are to be"
    batch
    diagrams
}

# A method of one's own on a family, by the commands on the path.
own_method() {
    has python3 || return 0
    local name score
    "$tree/bin/minorder-functions" "$made/own" "hidden weighted bit" > /dev/null
    for name in "$made"/own/*.pla; do run minorder "$name" | sed -n "s/^sifted order: /$(basename "$name" .pla),/p"; done > "$made/orders"
    score=$(sed '1s/^/name,order\n/' "$made/orders" | MINORDER_LIBRARY=$libraries/libminorder.so.1 "$tree/bin/minorder-score" - "hidden weighted bit")
    row() { grep "^$1 " <<< "$score" | tr -s ' ' | cut -d ' ' -f 3-13; }
    [ "$(row '> results')" = "$(row 'minorder sifting')" ] || fail "sifting's orders have another score than the league's row"
    local rows=$(($(wc -l < "$tree/share/minorder/optima/optima.csv") - 1))
    [ "$(grep -c '^<tr data-name=' "$tree/share/doc/minorder/docs/optima.html")" = "$rows" ] || fail "optima.html has other functions than the table"
    echo "minorder-functions, minorder-score and optima.html: sifting's orders have the league's row"
}

# minorder-batch on the examples and on files that are refused, beside the reports
batch() {
    local examples=$tree/share/doc/minorder/examples
    printf '.i 2\n.o 1\n11 -\n' > "$made/a refused.pla"
    python3 -c '
import json, sys
for line in sys.stdin:
    said = json.loads(line)
    if said["status"] == 0:
        with open(said["file"][:-3] + "report") as file:
            report = dict(line.split(": ", 1) for line in file.read().splitlines())
        for name, words in report.items():
            value = said[name.replace(" ", "_")]
            assert words == (" ".join(map(str, value)) if isinstance(value, list) else str(value)), (said, name)
    print(said["file"].split("/")[-1], said.get("fault", ""), file=sys.stderr)
' < <(MINORDER_LIBRARY=$libraries/libminorder.so.1 PYTHONDONTWRITEBYTECODE=1 PYTHONPATH=$modules "$tree/bin/minorder-batch" \
        "$examples" "$made/a refused.pla" none.pla) 2> "$made/batch" || fail "minorder-batch reports something else"
    [ "$(tail -2 "$made/batch")" = "a refused.pla line 3: DontCare"$'\n'"none.pla Device" ] || fail "minorder-batch has other faults"
    [ "$(wc -l < "$made/batch")" = $(($(find "$examples/" -name '*.pla' | wc -l) + 2)) ] || fail "minorder-batch leaves files out"
    echo "minorder-batch: the reports of the examples, and the faults of others"
}

# minorder-diagram on the examples, with the order of each report
diagrams() {
    local file
    for file in "$tree"/share/doc/minorder/examples/*.pla; do
        MINORDER_LIBRARY=$libraries/libminorder.so.1 PYTHONDONTWRITEBYTECODE=1 PYTHONPATH=$modules "$tree/bin/minorder-diagram" \
            --out "$made/it.json" "$file" < "${file%.pla}.report" || fail "$file: minorder-diagram refuses its report"
        python3 -c 'import json, sys; it = json.load(open(sys.argv[1])); assert len(it["nodes"]) == sum(it["levels"])' "$made/it.json" ||
            fail "$file: another diagram"
    done
    echo "minorder-diagram: the examples under the orders of their reports"
}

# The platform in the wheel's name, beside what objdump reads off the library.
wheel_platform() {
    has objdump || return 0
    local newest
    newest=$(objdump -T "$libraries/libminorder.so.1" | grep -o 'GLIBC_2\.[0-9]*' | sort -uV | tail -1)
    [[ $wheel == *"-manylinux_2_${newest#GLIBC_2.}_x86_64.whl" ]] || fail "$wheel: the library asks for $newest"
}

# The wheel in an empty virtual environment: no network, no prefix, no variable that names the library.
wheel() {
    has python3 || return 0
    local environment=$made/environment examples=$tree/share/doc/minorder/examples wheel command file
    wheel=$(grep -o 'minorder-.*\.whl$' "$top/out/SHA256SUMS")
    wheel_platform
    python3 -m venv "$environment" > /dev/null 2>&1 || { echo "left out: the wheel, since this python3 makes no virtual environment"; return 0; }
    alone() { (cd "$made/alone" && env -i PATH="$environment/bin" "$@"); }
    mkdir "$made/alone"
    alone pip install --quiet --no-index --disable-pip-version-check "$top/out/$wheel"
    alone python -c '
import sys
import minorder
from minorder._library import library

assert library()._name.startswith(sys.prefix), library()
assert minorder.exact(lambda a, b, s: b if s else a, 3) == ((2, 0, 1), (1, 1, 1), 3)
assert [it.total for it in minorder.exact_many([0b0110, 0b1000], inputs=2)] == [3, 2]
for file in sys.argv[1:]:
    with open(file.split("/")[-1], "w") as certificate:
        certificate.write(minorder.certify(minorder.read_pla(file)))
' "$examples"/*.pla || fail "the wheel answers something else"
    for file in "$examples"/*.pla; do
        run minorder --cert "$made/cert" "$file" > /dev/null
        cmp "$made/alone/$(basename "$file")" "$made/cert" || fail "$file: the wheel makes another certificate"
    done
    for command in "$environment"/bin/minorder-*; do alone "$command" --help > /dev/null || fail "$command doesn't run"; done
    [[ $(alone minorder-batch "$examples/mux2.pla") == *'"nodes": 3,'* ]] || fail "the wheel's minorder-batch reports something else"
    [[ $(alone minorder-levels "$examples/adder4.pla" 3,7,2,6,1,5,0,4) == *"nodes: 29" ]] || fail "the wheel's minorder-levels counts something else"
    [[ $(alone minorder-diagram "$examples/mux2.pla" s,a,b) == *"another order: 3 nodes"* ]] || fail "the wheel's minorder-diagram draws something else"
    [[ $(alone minorder-orders "$examples/hwb8.pla") == *"fewest: 44 nodes in 48 orders"* ]] || fail "the wheel's minorder-orders counts something else"
    alone minorder-functions own "hidden weighted bit" > /dev/null
    {
        echo name,order
        for file in "$made"/alone/own/*.pla; do run minorder "$file" | sed -n "s/^order: /$(basename "$file" .pla),/p"; done
    } > "$made/alone/orders"
    [[ $(alone minorder-score orders "hidden weighted bit") == *"mean ratio: 1.000"* ]] || fail "the wheel's minorder-score has another ratio"
    echo "the wheel in an empty environment: answers, commands and certificates as they are to be"
}

# The Rust program that the packed crate's README.md shows first: by cargo with both libraries, and alone with the rpath of that page.
crate() {
    [ -e "$top/out/minorder-$version.crate" ] || { echo "left out: the crate, which the release hasn't"; return 0; }
    has cargo || return 0
    local kind answer="3 7 2 6 1 5 0 4: 29 nodes"
    tar -xzf "$top/out/minorder-$version.crate"
    install -d "$made/adder/src"
    sed -n '/^```rust$/,/^```$/{/^```$/q;/^```/d;p}' "minorder-$version/README.md" > "$made/adder/src/main.rs"
    on_cargo() { (cd "$made/adder" && env -u LD_LIBRARY_PATH MINORDER_LIB_DIR="$libraries" cargo "$1" --offline --quiet); }
    for kind in '"static"' ""; do
        printf '%s\n' '[package]' 'name = "adder"' 'version = "0.1.0"' 'edition = "2021"' '[dependencies]' \
            "minorder = { path = \"../minorder-$version\", features = [$kind] }" > "$made/adder/Cargo.toml"
        [ "$(on_cargo run)" = "$answer" ] || fail "the Rust example prints something else"
    done
    { echo 'fn main() {'; sed -n '/^```rust,no_run$/,/^```$/{/^```/d;p}' "minorder-$version/README.md"; echo '}'; } > "$made/adder/build.rs"
    on_cargo build
    [ "$(env -u LD_LIBRARY_PATH "$made/adder/target/debug/adder")" = "$answer" ] || fail "the Rust example prints something else by its rpath"
    echo "the Rust example with the packed crate: as its page says"
}

# try_tree TREE FOLDER FOLDER: a tree, its folder of libraries and that of Python's modules
try_tree() {
    tree=$1 libraries=$1/$2 modules=$1/$3
    programs
    c_example
    python
    own_method
}

# The static program judges the examples' certificates as ordercheck does.
coq() {
    local folder=minorder-$version-coq file
    [ -e "$top/out/$folder.tar.gz" ] || { echo "left out: the checker proved in Coq, which the release hasn't"; return; }
    tar -xzf "$top/out/$folder.tar.gz"
    for file in "$tree"/share/doc/minorder/examples/*.cert; do
        [ "$(PATH="" "$made/$folder/ordercheck-coq" "${file%.cert}.pla" "$file")" = "$(run ordercheck "${file%.cert}.pla" "$file")" ] ||
            fail "$file: ordercheck-coq has another verdict"
    done
    echo "the checker proved in Coq: as ordercheck on the examples"
}

# Each certificate has the sum that the table says, and is judged with its file.
certificates() {
    has xz || return 0
    [ -e "$top/out/minorder-$version-certificates.tar.xz" ] || { echo "left out: the certificates of the table of optima, which the release hasn't"; return; }
    local file count=0
    tar -xJf "$top/out/minorder-$version-certificates.tar.xz"
    cd "minorder-$version-certificates"
    sha256sum --quiet -c SHA256SUMS
    cmp optima.csv "$top/optima/optima.csv"
    for file in *.cert; do
        [[ $(run ordercheck "${file%.cert}.pla" "$file") == "valid "* ]] || fail "$file isn't valid"
        count=$((count + 1))
    done
    cd "$made"
    echo "$count certificates of the table of optima: valid"
}

# What a licence would need is not asked for: none has been chosen yet.
lint() {
    has lintian || return 0
    lintian --allow-root --fail-on error,warning --suppress-tags copyright-without-copyright-notice "$@" || fail "lintian has complaints"
    echo "lintian: nothing but what a licence would need"
}

# The next release removes all files of this one, so nothing lies in out/ beside these.
names() {
    local files
    mkdir "$made/out"
    mapfile -t files < <(sed 's/^[0-9a-f]*  //' "$top/out/SHA256SUMS")
    (cd "$made/out" && touch SHA256SUMS "${files[@]}")
    "$top/release/earlier.sh" "$made/out"
    [ -z "$(ls -A "$made/out")" ] || fail "the next release would leave $(ls -A "$made/out")"
}

cd "$made"
(cd "$top/out" && sha256sum --quiet -c SHA256SUMS)
names
tar -xzf "$top/out/minorder-$version-linux-x86_64.tar.gz"
tree=$made/minorder-$version-linux-x86_64
(cd "$tree" && sha256sum --quiet -c SHA256SUMS)
cat "$tree/share/doc/minorder/PROVED_WITH"
try_tree "$tree" lib share/minorder/python
wheel
crate
coq
certificates
packages=("$top"/out/{minorder,libminorder1,libminorder-dev}_"$version"_amd64.deb "$top/out/python3-minorder_${version}_all.deb")
if [ -e "${packages[0]}" ] && has dpkg-deb; then
    for package in "${packages[@]}"; do
        dpkg-deb -f "$package" Package Version Depends
        dpkg-deb -x "$package" deb
    done
    try_tree "$made/deb/usr" lib/x86_64-linux-gnu lib/python3/dist-packages
    lint "${packages[@]}"
fi
