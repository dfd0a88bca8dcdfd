#!/usr/bin/env bash
# check.sh PREFIX     tries the crate with both libraries of an installation: its tests, its documentation, clippy's and rustfmt's
#                     judgement, where build.rs looks, libraries of other versions, and the example, which is the first of README.md
set -euo pipefail
unset CDPATH
[ $# = 1 ] || { echo "usage: bindings/rust/check.sh PREFIX" >&2; exit 1; }
prefix=$(cd -- "$1" && pwd)
cd -- "$(dirname -- "${BASH_SOURCE[0]}")"
command -v cargo > /dev/null || { echo "left out: no cargo here"; exit; }
made=$(mktemp -d)
trap 'rm -rf "$made"' EXIT
fail() { echo "bindings/rust/check.sh: $*" >&2; exit 1; }
has() { command -v "$1" > /dev/null || { echo "left out: no $1 here"; return 1; }; }
unset LD_LIBRARY_PATH MINORDER_LIB_DIR
export CARGO_TARGET_DIR=$made/target CARGO_TERM_COLOR=never CARGO_NET_OFFLINE=true ORDERCHECK=$prefix/bin/ordercheck
answer="3 7 2 6 1 5 0 4: 29 nodes"

# with FOLDER COMMAND..: a command with the libraries of a folder, whose words are shown if it fails
with() { MINORDER_LIB_DIR=$1 "${@:2}" > "$made/log" 2>&1 || { cat "$made/log" >&2; fail "${*:2} fails"; }; }

tests() {
    local kind
    for kind in "" static; do
        with "$prefix/lib" cargo test --quiet --features "$kind"
    done
    echo "the crate's tests, with the shared library and the archive: passed"
}

judgement() {
    RUSTDOCFLAGS="-D warnings" with "$prefix/lib" cargo doc --quiet --no-deps
    local said="its documentation"
    ! cargo clippy --version > /dev/null 2>&1 ||
        { with "$prefix/lib" cargo clippy --quiet --all-targets -- -D warnings -D clippy::pedantic; said+=", clippy"; }
    ! cargo fmt --version > /dev/null 2>&1 || { with "$prefix/lib" cargo fmt --check; said+=", rustfmt"; }
    echo "$said: no complaints"
}

# The example with the library that pkg-config finds.
example() {
    sed -n '/^```rust$/,/^```$/{/^```$/q;/^```/d;p}' README.md | diff - examples/adder.rs || fail "README.md shows another program than examples/adder.rs"
    local kind where=MINORDER_LIB_DIR=$prefix/lib
    ! has pkg-config || where=PKG_CONFIG_PATH=$prefix/lib/pkgconfig
    for kind in static ""; do
        env "$where" cargo run --quiet --features "$kind" --example adder > "$made/said"
        [ "$(< "$made/said")" = "$answer" ] || fail "the example prints $(< "$made/said")"
    done
    ! MINORDER_LIB_DIR=$made cargo build 2> "$made/said" || fail "a folder without the library is taken"
    grep -qx " *minorder: MINORDER_LIB_DIR: $made has no libminorder.so.1" "$made/said" || fail "another message: $(< "$made/said")"
    echo "the example in Rust: as README.md says"
}

# The example with libraries that say another version.
versions() {
    has "${CC:-cc}" || return 0
    says() {
        "${CC:-cc}" -shared -fPIC -x c - -o "$made/says.so" <<< "unsigned minorder_version(void) { return $1; }"
        LD_LIBRARY_PATH=$prefix/lib LD_PRELOAD=$made/says.so "$CARGO_TARGET_DIR/debug/examples/adder" 2>&1 || true
    }
    [ "$(says 19999)" = "$answer" ] || fail "version 1.99.99 is refused"
    [[ $(says 20000) == *"IncompatibleLibrary { found: Version { major: 2, minor: 0, patch: 0 }, needed: "* ]] || fail "version 2.0.0 is taken"
    [[ $(says 9999) == *"IncompatibleLibrary { found: Version { major: 0, minor: 99, patch: 99 }, needed: "* ]] || fail "version 0.99.99 is taken"
    echo "libraries of other versions: refused"
}

tests
judgement
example
versions
