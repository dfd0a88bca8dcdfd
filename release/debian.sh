#!/usr/bin/env bash
# debian.sh TREE FOLDER     makes Debian packages of a release's tree in FOLDER: the programs, the shared library, what callers in C need,
#                           the Python package
# MAINTAINER is their maintainer, as `Name <address>`, else the author of the last commit. SOURCE_DATE_EPOCH is their time.
set -euo pipefail
unset CDPATH
umask 022
top=$(cd -- "$(dirname -- "${BASH_SOURCE[0]}")/.." && pwd)
[ $# = 2 ] || { echo "usage: release/debian.sh TREE FOLDER" >&2; exit 1; }
. "$top/build/tools.sh"
need dpkg-deb git gzip objdump
tree=$1 folder=$2
version=$(< "$top/VERSION")
maintainer=${MAINTAINER:-$(git -C "$top" log -1 --format='%an <%ae>')}
export SOURCE_DATE_EPOCH=${SOURCE_DATE_EPOCH:-$(git -C "$top" log -1 --format=%ct)}
libraries=usr/lib/x86_64-linux-gnu
made=$(mktemp -d)
trap 'rm -rf "$made"' EXIT

# The newest version of the C library that a symbol is asked of.
newest_libc() { objdump -T "$@" | grep -o 'GLIBC_[0-9.]*' | sed 's/GLIBC_//' | sort -uV | tail -1; }

# What CHANGES.md says of the version, as a Debian changelog.
changelog() {
    printf 'minorder (%s) unstable; urgency=medium\n\n' "$version"
    awk -v head="## $version" '/^## / { on = $0 == head } on && /^- / { sub(/^- /, ""); print }' "$top/CHANGES.md" | while read -r change; do
        fold -s -w 74 <<< "$change" | sed '1s/^/  * /; 2,$s/^/    /; s/ *$//'
    done
    printf '\n -- %s  %s\n' "$maintainer" "$(LC_ALL=C date -uRd "@$SOURCE_DATE_EPOCH")"
}

# lay PACKAGE FOLDER PATH..: copies paths of the tree into a folder of the package
lay() {
    install -d "$made/$1/$2"
    (cd "$tree" && cp -a "${@:3}" "$made/$1/$2")
}

# clean_modules PACKAGE: what Python keeps of the package's modules goes with them
clean_modules() {
    install -d "$made/$1/DEBIAN"
    printf '#!/bin/sh\nset -e\nif command -v py3clean > /dev/null 2>&1; then py3clean -p %s; fi\n' "$1" > "$made/$1/DEBIAN/prerm"
    chmod 755 "$made/$1/DEBIAN/prerm"
}

programs() {
    lay minorder usr/bin bin/{minorder,ordercheck}
    lay minorder usr/share/man/man1 share/man/man1/{minorder,ordercheck}.1
    lay minorder usr/share share/minorder
    lay minorder usr/share/doc share/doc/minorder
    clean_modules minorder
}

shared_library() {
    lay libminorder1 "$libraries" lib/libminorder.so.1
    install -d "$made/libminorder1/DEBIAN"
    echo "libminorder 1 libminorder1 (>= $version)" > "$made/libminorder1/DEBIAN/shlibs"
    echo "activate-noawait ldconfig" > "$made/libminorder1/DEBIAN/triggers"
}

for_callers() {
    lay libminorder-dev "$libraries" lib/libminorder.{a,so}
    lay libminorder-dev "$libraries/pkgconfig" lib/pkgconfig/minorder.pc
    lay libminorder-dev usr include
    lay libminorder-dev usr/share/man share/man/man3
    sed -i 's|^prefix=.*|prefix=${pcfiledir}/../../..|; s|^libdir=.*|libdir=${pcfiledir}/..|' "$made/libminorder-dev/$libraries/pkgconfig/minorder.pc"
}

# The modules where Python finds them, compiled as those of other packages are.
python_package() {
    lay python3-minorder usr/lib/python3/dist-packages share/minorder/python/minorder
    local commands
    mapfile -t commands < <(cd "$tree/bin" && printf '%s\n' minorder-*)
    lay python3-minorder usr/bin "${commands[@]/#/bin/}"
    sed -i '1s|.*|#!/usr/bin/python3|' "$made"/python3-minorder/usr/bin/*
    commands=("${commands[@]/%/.1}")
    lay python3-minorder usr/share/man/man1 "${commands[@]/#/share/man/man1/}"
    clean_modules python3-minorder
    printf '#!/bin/sh\nset -e\nif command -v py3compile > /dev/null 2>&1; then py3compile -p python3-minorder; fi\n' > "$made/python3-minorder/DEBIAN/postinst"
    chmod 755 "$made/python3-minorder/DEBIAN/postinst"
}

# package NAME ARCHITECTURE SECTION WORDS FIELD..: the package of what was laid for it, with these fields of its control file
package() {
    local name=$1 architecture=$2 field
    install -d "$made/$name/DEBIAN" "$made/$name/usr/share/doc/$name"
    changelog | gzip -9n > "$made/$name/usr/share/doc/$name/changelog.gz"
    printf 'minorder %s\n\nNo licence has been chosen yet; that is the owner'"'"'s to do.\n' "$version" > "$made/$name/usr/share/doc/$name/copyright"
    find "$made/$name/usr/share/man" -type f -exec gzip -9n {} + 2> /dev/null || true
    {
        printf '%s\n' "Package: $name" "Source: minorder" "Version: $version" "Architecture: $architecture" "Maintainer: $maintainer"
        printf '%s\n' "Installed-Size: $(du -ks "$made/$name/usr" | cut -f1)" "Section: $3" "Priority: optional"
        for field in "${@:5}"; do echo "$field"; done
        printf 'Description: %s\n' "$4"
    } > "$made/$name/DEBIAN/control"
    (cd "$made/$name" && find usr -type f | LC_ALL=C sort | xargs md5sum > DEBIAN/md5sums)
    dpkg-deb --root-owner-group --build "$made/$name" "$folder/${name}_${version}_$architecture.deb" > /dev/null
    echo "${name}_${version}_$architecture.deb"
}

programs
shared_library
for_callers
python_package
said="minorder finds the first variable order under which the functions of a
 Berkeley PLA file have a shared binary decision diagram of the fewest
 nodes; ordercheck judges its certificates."
package minorder amd64 science "exact minimum BDD variable orders, proved
 $said" "Depends: libc6 (>= $(newest_libc "$made"/minorder/usr/bin/*))" "Recommends: libminorder1 (= $version), python3"
package libminorder1 amd64 libs "exact minimum BDD variable orders, shared library
 $said
 .
 This is the library that C and Python programs call." "Multi-Arch: same" \
    "Depends: libc6 (>= $(newest_libc "$made/libminorder1/$libraries/libminorder.so.1"))"
package libminorder-dev amd64 libdevel "exact minimum BDD variable orders, for callers in C
 $said
 .
 These are the header, the static library and the manual pages." "Multi-Arch: same" "Depends: libminorder1 (= $version)"
package python3-minorder all python "exact minimum BDD variable orders, for Python 3
 $said
 .
 This is the package that calls the shared library, with the commands
 minorder-batch, minorder-diagram, minorder-functions, minorder-levels,
 minorder-orders and minorder-score." "Depends: python3, libminorder1 (>= $version)" \
    "Suggests: graphviz, python3-distributed, python3-matplotlib"
