#!/bin/sh
# Builds the native baseline, and CUDD out of the source of Debian's berkeley-abc with its harness, into a folder.
# usage: bench/peers.sh FOLDER      wants rustc, cc, ar, tar, xz, and for CUDD dpkg-dev and an apt with a deb-src line; without that the baseline alone
set -eu
unset CDPATH
[ $# -eq 1 ] || { sed -n 3p "$0"; exit 2; }
for tool in rustc cc ar tar xz; do
    command -v $tool > /dev/null || { echo "peers.sh: not found: $tool" >&2; exit 127; }
done
here=$(cd -- "$(dirname -- "$0")" && pwd)
mkdir -p "$1/objects"
cd -- "$1"
rustc --edition 2021 -O -C target-cpu=native "$here/baseline.rs" -o baseline
if ! ls berkeley-abc_*.orig.tar.* >/dev/null 2>&1; then
    apt-get source --download-only berkeley-abc >/dev/null 2>&1 || { echo "no source of berkeley-abc: the baseline alone was built" >&2; exit 0; }
fi
[ -d abc ] || { mkdir abc && tar xf berkeley-abc_*.orig.tar.* -C abc --strip-components=1; }
flags="-O3 -march=native -w -DLIN64 -DSIZEOF_VOID_P=8 -DSIZEOF_LONG=8 -DSIZEOF_INT=4 -Iabc/src -Iabc/src/bdd/cudd"
if [ ! -f libcudd.a ]; then
    printf '%s\n' abc/src/bdd/cudd/cudd*.c abc/src/bdd/mtr/mtr*.c abc/src/bdd/epd/epd.c abc/src/misc/st/*.c abc/src/misc/util/*.c abc/src/misc/extra/extraUtilUtil.c |
        xargs -P 4 -I{} sh -c "cc $flags -c {} -o objects/\$(basename {} .c).o"
    ar rcs libcudd.a objects/*.o
fi
cc $flags "$here/cudd.c" libcudd.a -lm -lpthread -o cudd
