#!/usr/bin/env bash
# release.sh VERSION     makes out/minorder-VERSION-linux-x86_64.tar.gz, a wheel, out/minorder-VERSION-certificates.tar.xz, Debian packages
#                        where dpkg-deb is there, out/minorder-VERSION.crate where cargo is there, out/minorder-VERSION-coq.tar.gz where
#                        coqc is there, and out/SHA256SUMS; removes what earlier runs left in out/
# release.sh --without-certificates VERSION     the same but for the certificates
# The certificates of the table of optima are taken from optima/out where they all lie there, and else made, in two minutes of processor
# time.
set -euo pipefail
unset CDPATH
umask 022
top=$(cd -- "$(dirname -- "${BASH_SOURCE[0]}")/.." && pwd)
. "$top/build/tools.sh"
fail() { echo "release.sh: $*" >&2; exit 1; }

with_certificates=true
[ "${1:-}" != --without-certificates ] || { with_certificates=false; shift; }
[ $# = 1 ] || fail "usage: release/release.sh [--without-certificates] VERSION"
need git gzip python3 tar
version=$1
[ "$version" = "$(< "$top/VERSION")" ] || fail "VERSION says $(< "$top/VERSION"), not $version"
"$top/gate/versions.sh" > /dev/null
commit=$(git -C "$top" rev-parse HEAD) || fail "no commit to name"
changes=$(git -C "$top" status --porcelain)
seconds=$(git -C "$top" log -1 --format=%ct)
name=minorder-$version-linux-x86_64
made=$(mktemp -d)
trap 'rm -rf "$made"' EXIT

# proof FILE: of which commit the programs are, and by which kit they were proved
proof() {
    echo "version: $version"
    echo "commit: $commit${changes:+ with changes that are not committed}"
    sed -n 's/.*\(Rattle kit of logic\) `\([0-9a-f]*\)`.*/proved with: \1 \2/p' "$top/README.md"
}

archive() {
    "$top/install.sh" "$made/$name" > /dev/null
    if command -v strip > /dev/null; then
        strip --strip-unneeded "$made/$name"/bin/{minorder,ordercheck}
        strip --strip-debug "$made/$name/lib/libminorder.a"
    fi
    rm "$made/$name/share/minorder/files"
    proof > "$made/$name/share/doc/minorder/PROVED_WITH"
    (cd "$made/$name" && find . -type f ! -name SHA256SUMS -printf '%P\n' | LC_ALL=C sort | xargs sha256sum > SHA256SUMS)
    tar -C "$made" --sort=name --mtime="@$seconds" --owner=0 --group=0 --numeric-owner -cf - "$name" | gzip -9n > "$made/$name.tar.gz"
    files=("$name.tar.gz")
}

packages() {
    if ! command -v dpkg-deb > /dev/null || ! command -v objdump > /dev/null; then
        echo "left out: the Debian packages, since dpkg-deb or objdump isn't here"
        return
    fi
    local packages
    mapfile -t packages < <(SOURCE_DATE_EPOCH=$seconds "$top/release/debian.sh" "$made/$name" "$made")
    ((${#packages[@]} == 4)) || fail "the Debian packages can't be made"
    files+=("${packages[@]}")
}

wheel() {
    local made_wheel
    made_wheel=$("$top/release/wheel.py" "$made/$name" "$made") || fail "the wheel can't be made"
    files+=("$made_wheel")
}

# The crate, built once with the archive's library. What cargo makes beside it stays out of the repository.
crate() {
    if ! command -v cargo > /dev/null; then
        echo "left out: the crate, since cargo isn't here"
        return
    fi
    mkdir "$made/crate"
    cp -R "$top"/bindings/rust/{Cargo.toml,README.md,build.rs,examples,src} "$made/crate"
    (cd "$made/crate" && MINORDER_LIB_DIR=$made/$name/lib cargo package --offline --target-dir "$made/target" > "$made/log" 2>&1) ||
        fail "the crate can't be packed: $(grep -m 1 '^error' "$made/log")"
    mv "$made/target/package/minorder-$version.crate" "$made"
    files+=("minorder-$version.crate")
}

# The checker proved in Coq: its sources, and a static program.
coq() {
    if ! command -v coqc > /dev/null || ! command -v ocamlfind > /dev/null; then
        echo "left out: the checker proved in Coq, since coq or ocaml-findlib isn't here"
        return
    fi
    local folder=minorder-$version-coq
    mkdir "$made/$folder"
    cp "$top"/coq/{*.v,main.ml,memory.c,Makefile,prove.sh,README.md} "$made/$folder"
    cp -R "$made/$folder" "$made/built"
    make -C "$made/built" ordercheck-coq LINK="-ccopt -static" > "$made/log" 2>&1 || fail "the checker proved in Coq can't be built: $(tail -1 "$made/log")"
    ! command -v strip > /dev/null || strip "$made/built/ordercheck-coq"
    mv "$made/built/ordercheck-coq" "$made/$folder"
    tar -C "$made" --sort=name --mtime="@$seconds" --owner=0 --group=0 --numeric-owner -cf - "$folder" | gzip -9n > "$made/$folder.tar.gz"
    files+=("$folder.tar.gz")
}

# The certificates of the table of optima: those of an earlier run if all lie in optima/out, else made anew.
certificates() {
    local room=$top/optima/out certificates=minorder-$version-certificates.tar.xz
    if ! "$top/release/certificates.py" "$room/table" "$made/$certificates" "$seconds" 2> /dev/null; then
        "$top/optima/make.py" table --minorder "$made/$name/bin/minorder" --ordercheck "$made/$name/bin/ordercheck" \
            --room "$room" --into "$made/optima" 2> "$made/log" || fail "the certificates can't be made: $(tail -1 "$made/log")"
        "$top/release/certificates.py" "$room/table" "$made/$certificates" "$seconds"
    fi
    files+=("$certificates")
}

archive
packages
wheel
crate
coq
! "$with_certificates" || certificates
(cd "$made" && sha256sum "${files[@]}" > SHA256SUMS)
mkdir -p "$top/out" || fail "$top/out can't be made"
"$top/release/earlier.sh" "$top/out"
for file in "${files[@]}" SHA256SUMS; do
    cp "$made/$file" "$top/out/.$file.$$" && mv -f "$top/out/.$file.$$" "$top/out/$file"
    echo "out/$file"
done
