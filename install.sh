#!/usr/bin/env bash
# install.sh [PREFIX]               installs the programs, the library, their pages and documents, /usr/local if PREFIX is left out
# install.sh --uninstall [PREFIX]   takes away what it installed
# What isn't built is built first. Everything is put under $DESTDIR$PREFIX if DESTDIR is set. CC is the C compiler, cc if it isn't set.
set -euo pipefail
unset CDPATH
umask 022
top=$(cd -- "$(dirname -- "${BASH_SOURCE[0]}")" && pwd)
. "$top/build/tools.sh"
instead='a release needs none: unpack it and set the variables of docs/USING.md, "Install"'
list=share/minorder/files

fail() {
    echo "install.sh: $*" >&2
    exit 1
}

usage() { sed -n '2,4s/^# //p' "${BASH_SOURCE[0]}"; }

# ---- the tree, as it is put under the prefix

programs() {
    local tools=("${compiler[0]}") program
    [ -e "$top/lib/libminorder.a" ] || tools+=(ar ld objcopy)
    need "${tools[@]}"
    for program in minorder ordercheck; do
        build "$program can't be built" "$top/$program" --help
    done
    build "the library can't be built by ${compiler[*]}" "$top/libminorder"
}

# build FAULT COMMAND..: a command that doesn't find its tools has said so
build() {
    local status=0
    "${@:2}" > /dev/null || status=$?
    ((status != 127)) || exit 127
    ((status == 0)) || fail "$1"
}

# The folder of the .pc file leads to the prefix, so that the tree can be moved.
package_file() {
    cat << END > "$made/tree/lib/pkgconfig/minorder.pc"
prefix=\${pcfiledir}/../..
libdir=\${prefix}/lib
includedir=\${prefix}/include

Name: minorder
Description: Exact minimum variable orders of binary decision diagrams
Version: $(< "$top/VERSION")
Cflags: -I\${includedir}
Libs: -L\${libdir} -lminorder
END
}

# put MODE FOLDER FILE..
put() {
    install -d "$made/tree/$2"
    install -m "$1" "${@:3}" "$made/tree/$2"
}

# Each name that a manual page of the library describes leads to it.
manual() {
    local name
    put 644 share/man/man1 "$top"/man/*.1
    put 644 share/man/man3 "$top"/man/*.3
    for name in $(sed -n '/^\.SH NAME/,/\\-/{s/\\-.*//;p}' "$top/man/minorder.3" | grep -o 'minorder_[a-z_]*'); do
        echo ".so man3/minorder.3" > "$made/tree/share/man/man3/$name.3"
    done
}

# The folder of documents is laid out as the repository, so that what a page cites lies there under the same path.
documents() {
    local folder=share/doc/minorder crate files
    put 644 $folder "$top"/{README,CHANGES,CONTRIBUTING}.md "$top"/{CITATION.cff,crates.txt}
    put 644 $folder/docs "$top"/docs/*.{md,svg,html}
    put 644 $folder/examples "$top"/examples/*.{pla,report,cert,v}
    for crate in "$top"/crates/*/; do
        crate=crates/$(basename "$crate")
        mapfile -t files < <(find "$top/$crate/specs" -name '*.antt' -size +0 2> /dev/null)
        ((${#files[@]} == 0)) || put 644 "$folder/$crate/specs" "${files[@]}"
        [ ! -e "$top/$crate/src/laws.rt" ] || put 644 "$folder/$crate/src" "$top/$crate/src/laws.rt"
    done
    put 644 share/minorder/optima "$top"/optima/*.{py,md,csv,csv.gz,c,h}
    put 755 share/minorder/optima "$top"/optima/{check_page,functions,make,permute}.py "$top/optima/league.sh"
    put 644 share/minorder/optima/html "$top"/optima/html/*
    put 755 $folder/examples "$top/examples/make_examples.py"
    put 644 $folder/bindings/c "$top/bindings/c/README.md"
    put 644 $folder/bindings/rust "$top/bindings/rust/README.md"
    install -d "$made/tree/$folder"/{scripts,bindings} "$made/tree/share/minorder/bindings"
    ln -s ../python "$made/tree/share/minorder/bindings/python"
    ln -s ../../minorder/optima "$made/tree/$folder/optima"
    ln -s ../../../minorder/check.py "$made/tree/$folder/scripts/check.py"
    ln -s ../../../minorder/python "$made/tree/$folder/bindings/python"
}

# The commands of the Python package; each runs the one of the prefix that it lies in.
commands() {
    local name module
    sed -n '/^\[project.scripts\]/,/^\[/s/^\(minorder-[a-z]*\) = "\(.*\):main"$/\1 \2/p' "$top/bindings/python/pyproject.toml" | while read -r name module; do
        sed "s/MODULE/$module/" "$top/bindings/python/backend/command.py" > "$made/tree/bin/$name"
        chmod 755 "$made/tree/bin/$name"
    done
}

tree() {
    put 755 bin "$top/crates/minorder/out/minorder" "$top/crates/ordercheck/out/ordercheck"
    commands
    put 644 lib "$top"/lib/libminorder.{a,so.1}
    ln -s libminorder.so.1 "$made/tree/lib/libminorder.so"
    put 644 include "$top/include/minorder.h"
    install -d "$made/tree/lib/pkgconfig"
    package_file
    manual
    documents
    put 755 share/minorder "$top/scripts/check.py"
    put 644 share/minorder/python "$top"/bindings/python/{README.md,pyproject.toml}
    put 644 share/minorder/python/backend "$top"/bindings/python/backend/*.py
    put 644 share/minorder/python/minorder "$top"/bindings/python/minorder/{*.py,py.typed}
    put 644 share/minorder/python/minorder/benchmarks "$top"/bindings/python/minorder/benchmarks/*.py "$top"/optima/{optima.csv,league.csv,sizes.csv.gz}
}

# ---- putting it there: each file beside its place first, then all by a rename

copies=() folders=()

undo() {
    local i
    ((${#copies[@]} == 0)) || rm -f -- "${copies[@]}"
    for ((i = ${#folders[@]} - 1; i >= 0; i--)); do
        rmdir --ignore-fail-on-non-empty -- "${folders[i]}" || true
    done
}

finish() {
    local status=$?
    ((status == 0)) || undo
    rm -rf "$made"
    exit "$status"
}

# make_folder PATH: the folder and those above it that aren't there, each noted
make_folder() {
    [ -d "$1" ] && return
    make_folder "$(dirname "$1")"
    mkdir -- "$1" || fail "the folder $1 can't be made"
    folders+=("$1")
}

copy_all() {
    local name place
    while read -r name; do
        place=$root/$name
        [ ! -d "$place" ] || [ -L "$place" ] || fail "$place is a folder"
        make_folder "${place%/*}"
        copies+=("${place%/*}/.${place##*/}.$$")
        cp -P -- "$made/tree/$name" "${copies[-1]}" || fail "$place can't be written"
    done < "$made/names"
}

rename_all() {
    local name place i=0
    while read -r name; do
        place=$root/$name
        mv -fT -- "${copies[i++]}" "$place" || fail "$place can't be written"
    done < "$made/names"
}

# What a list names, without what would lead out of the prefix.
listed() { grep -Ev '^/|(^|/)\.\.(/|$)' "$root/$list" || true; }

# Lets the loader see which libraries are in its own folders.
tell_loader() { [ -n "${DESTDIR:-}" ] || [ "$(id -u)" != 0 ] || ldconfig 2> /dev/null || true; }

install_tree() {
    read -ra compiler <<< "${CC:-cc}"
    made=$(mktemp -d)
    trap finish EXIT
    local above=$root folder
    until [ -e "$above" ]; do above=$(dirname "$above"); done
    [ -d "$above" ] || fail "$above is no folder"
    [[ -w $above && -x $above ]] || fail "$above can't be written: choose another PREFIX, or install as a user who may write there"
    programs
    install -d "$made/tree/lib"
    tree
    (cd "$made/tree" && find . ! -type d -printf '%P\n' | sort) > "$made/names"
    echo "$list" >> "$made/names"
    touch "$made/tree/$list"
    copy_all
    # the list is the files, and the folders that this call or one before it made
    local old=() name
    [ ! -e "$root/$list" ] || mapfile -t old < <(listed)
    {
        cat "$made/names"
        for folder in "${folders[@]}"; do
            [[ $folder/ != "$root/"* ]] || echo ".${folder#"$root"}/"
        done
        printf '%s\n' "${old[@]}" | grep '/$' || true
    } > "${copies[-1]}"
    rename_all
    copies=() folders=()
    # files of an earlier version that this one hasn't
    for name in "${old[@]}"; do
        [[ $name == */ ]] || grep -qxF -- "$name" "$made/names" || rm -f -- "$root/$name"
    done
    tell_loader
    echo "installed in $root"
}

uninstall() {
    [ -r "$root/$list" ] || fail "nothing that this script installed is in $root"
    local names name
    mapfile -t names < <(listed)
    for name in "${names[@]}"; do
        [ ! -e "$root/$name" ] || [ -w "$(dirname "$root/$name")" ] || fail "$root/$name can't be taken away"
    done
    # what Python keeps of the package's modules
    rm -rf -- "$root"/share/minorder/{optima,python/minorder,python/minorder/benchmarks,python/backend}/__pycache__
    for name in "${names[@]}"; do
        [[ $name == */ ]] || rm -f -- "$root/$name"
    done
    printf '%s\n' "${names[@]}" | grep '/$' | sort -r | while read -r name; do
        name=$root/${name#./}
        [ ! -d "$name" ] || rmdir --ignore-fail-on-non-empty -- "${name%/}" || true
    done
    tell_loader
    echo "taken away from $root"
}

# ---- the words

act=install_tree
case ${1:-} in
    --uninstall) act=uninstall && shift ;;
    -h | --help) usage && exit ;;
esac
(($# <= 1)) || fail "too many words: $(usage)"
prefix=${1-/usr/local}
case $prefix in
    '') fail "PREFIX is empty" ;;
    -*) fail "$prefix: no such option"$'\n'"$(usage)" ;;
    /*) ;;
    *) prefix=$PWD/$prefix ;;
esac
[ "$prefix" = / ] || prefix=${prefix%/}
root=${DESTDIR:-}${prefix}
"$act"
