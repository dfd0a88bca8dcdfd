#!/bin/sh
# Builds the drivers of the league into the folder in which bench/peers.sh has built CUDD.
# usage: optima/league.sh FOLDER      wants cc and Debian's libbdd-dev
set -eu
unset CDPATH
[ $# -eq 1 ] || { sed -n 3p "$0"; exit 2; }
here=$(cd -- "$(dirname -- "$0")" && pwd)
command -v cc > /dev/null || { echo "league.sh: not found: cc (Debian: gcc)" >&2; exit 127; }
echo '#include <bdd.h>' | cc -E - > /dev/null 2>&1 || { echo "league.sh: no bdd.h (Debian: libbdd-dev)" >&2; exit 1; }
cd -- "$1"
[ -f libcudd.a ] || { echo "league.sh: bench/peers.sh hasn't built CUDD here" >&2; exit 1; }
mkdir -p reo
flags="-O3 -march=native -w -DLIN64 -DSIZEOF_VOID_P=8 -DSIZEOF_LONG=8 -DSIZEOF_INT=4 -Iabc/src -Iabc/src/bdd/cudd -ffunction-sections"
for file in Api Core Profile Shuffle Sift Swap Transfer Units; do
    cc $flags -c abc/src/bdd/reo/reo$file.c -o reo/reo$file.o
done
cc $flags -c abc/src/bdd/extrab/extraBddMisc.c -o reo/extraBddMisc.o
cc $flags "$here/league_cudd.c" reo/*.o libcudd.a -Wl,--gc-sections -lm -lpthread -o league_cudd
cc -O3 -march=native "$here/league_buddy.c" -lbdd -lm -o league_buddy
