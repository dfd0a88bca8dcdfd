#!/usr/bin/env bash
# versions.sh     compares VERSION with each file that names the version
set -euo pipefail
unset CDPATH
cd -- "$(dirname -- "${BASH_SOURCE[0]}")/.."
version=$(< VERSION)
status=0
# has FILE LINE: a line that the file has
has() { grep -qxF -- "$2" "$1" || { echo "$1 is not of version $version: it has no line $2" >&2; status=1; }; }

has CHANGES.md "## $version"
has CITATION.cff "version: $version"
has include/minorder.h "#define MINORDER_VERSION \"$version\""
has bindings/python/minorder/__init__.py "__version__ = \"$version\""
has bindings/rust/Cargo.toml "version = \"$version\""
has coq/main.ml "  | (\"--version\" | \"-V\") :: _ -> print_endline \"ordercheck-coq $version\"; 0"
has scripts/check.py "        print(\"check.py $version\")"
for file in line ordercheck_line; do
    has "crates/command_line/src/$file.rt" "        .version(\"$version\")"
done
for program in minorder ordercheck; do
    has crates/worked_cases/data/command_lines.cases "|$program $version"
done
number=$((${version%%.*} * 10000 + $(cut -d. -f2 VERSION) * 100 + ${version##*.}))
has crates/minorder_c/src/version.rt "    ${number%???}_${number: -3}"
for page in man/*.[13]; do
    grep -q "^\.TH .* \"minorder $version\"" "$page" || { echo "$page is not of version $version" >&2; status=1; }
done
((status > 0)) || echo "all files are of version $version"
exit $status
