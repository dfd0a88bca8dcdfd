#!/usr/bin/env bash
# Builds test.c with the static library, as it is and under sanitizers where these are at hand, runs it, and compares its exact
# orders with the program's reports on COUNT random functions (200 if left out).
# usage: bindings/c/test.sh [COUNT]
set -euo pipefail
unset CDPATH
here=$(cd -- "$(dirname -- "${BASH_SOURCE[0]}")" && pwd)
top=$here/../..
. "$top/build/tools.sh"
read -ra compiler <<< "${CC:-clang}"
need "${compiler[0]}" nm python3
"$top/libminorder"
! nm -g --defined-only "$top/lib/libminorder.a" | awk 'NF == 3 { print $3 }' | grep -v '^minorder_' ||
    { echo "bindings/c/test.sh: lib/libminorder.a exports these names besides" >&2; exit 1; }
# what the header has inline, other languages find in both libraries
for name in $(sed -n 's/^MINORDER_INLINE .*\(minorder_[a-z_]*\)(.*/\1/p' "$top/include/minorder.h"); do
    { nm -g --defined-only "$top/lib/libminorder.a" && nm -D --defined-only "$top/lib/libminorder.so.1"; } |
        awk -v name="$name" '$3 == name { found++ } END { exit found != 2 }' || { echo "bindings/c/test.sh: $name isn't in both libraries" >&2; exit 1; }
done
# a caller in C++ gets no warning of the header
read -ra cxx <<< "${CXX:-clang++}"
need "${cxx[0]}"
"${cxx[@]}" -std=c++11 -Wall -Wextra -Wold-style-cast -Wno-unused-function -Werror -fsyntax-only -x c++ "$top/include/minorder.h"
made=$(mktemp -d)
trap 'rm -rf "$made"' EXIT
flags=(-std=c11 -D_GNU_SOURCE -O2 -Wall -Wextra -Wno-unused-function -I "$top/include" -Wl,--wrap=malloc,--wrap=realloc,--wrap=free)
build() { "${compiler[@]}" "${flags[@]}" "${@:2}" "$here/test.c" "$top/lib/libminorder.a" -lpthread -o "$1"; }
build "$made/test"
"$made/test"
for sanitizer in address,undefined thread; do
    if build "$made/sanitized" -g "-fsanitize=$sanitizer" 2> "$made/why"; then
        echo "under -fsanitize=$sanitizer:"
        "$made/sanitized"
    else
        echo "no -fsanitize=$sanitizer here: $(head -1 "$made/why")"
    fi
done
python3 "$here/compare.py" "$made/test" "${1:-200}"
