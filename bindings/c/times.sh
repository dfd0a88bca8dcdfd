#!/usr/bin/env bash
# Prints, by inputs, how long each call of the library takes on one thread.
set -euo pipefail
unset CDPATH
here=$(cd -- "$(dirname -- "${BASH_SOURCE[0]}")" && pwd)
. "$here/../../build/tools.sh"
read -ra compiler <<< "${CC:-clang}"
need "${compiler[0]}"
"$here/../../libminorder" > /dev/null
made=$(mktemp -d)
trap 'rm -rf "$made"' EXIT
"${compiler[@]}" -O2 -I "$here/../../include" "$here/times.c" "$here/../../lib/libminorder.a" -o "$made/times"
echo "| Inputs | Outputs | Exact, ms | Calls a second | Exact with diagram, ms | Diagram, ms | Level counts, ms | Sifting, ms | All orders, ms | Fewest nodes | Sifted |"
echo "|---|---|---|---|---|---|---|---|---|---|---|"
for outputs in 1 16; do
    for inputs in 4 6 8 10 12 14 16; do
        "$made/times" "$inputs" "$outputs"
    done
done
