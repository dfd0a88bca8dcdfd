#!/usr/bin/env bash
# earlier.sh FOLDER     removes from FOLDER the files that runs of release.sh put there, of any version, by their names, and no others
set -euo pipefail
[ $# = 1 ] || { echo "usage: release/earlier.sh FOLDER" >&2; exit 1; }
version='[0-9]+\.[0-9]+\.[0-9]+'
archives="minorder-$version(-linux-x86_64\.tar\.gz|-coq\.tar\.gz|-certificates\.tar\.xz|\.crate|-py3-none-manylinux_[0-9]+_[0-9]+_x86_64\.whl)"
packages="(minorder|libminorder1|libminorder-dev)_${version}_amd64\.deb|python3-minorder_${version}_all\.deb"
names="$archives|$packages|SHA256SUMS"
# a name behind a dot and with a number is a file of a run that was stopped while it copied
cd -- "$1"
find . -maxdepth 1 -type f -regextype posix-extended -regex "\./($names|\.($names)\.[0-9]+)" -delete
