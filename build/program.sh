# Sourced by the scripts at the top of the repository, which set `here` to their own place.
top=${here%/*}
. "$top/build/tools.sh"
instead='a release needs none (README.md, "Install")'

# is_built NAME FILE      whether FILE of the crate's out/ was made from the sources as they are: no file and no folder that was
# there changed after the stamp (a new, moved or removed file changes its folder), nor FILE after it was compared with its sum.
# What `find` says of a missing one counts, too.
is_built() {
    local out=crates/$1/out
    CDPATH='' cd -- "$top" && [ -r "$out/$2" ] && [ -r "$out/stamp" ] && [ -r "$out/files" ] \
        && [ -z "$(find "$out/$2" -cnewer "$out/sources" 2>&1)" ] \
        && [ -z "$(find -files0-from "$out/files" -maxdepth 0 -cnewer "$out/stamp" -print -quit 2>&1)" ]
}

# run_program NAME WORD..      runs a program with the words, in the caller's folder; prove.py builds it first if it isn't built.
# Where nothing may be written, that compares the sources with those of what was built, and says so if they are others.
run_program() {
    local name=$1
    shift
    (is_built "$name" "$name") && exec "$top/crates/$name/out/$name" "$@"
    need python3
    exec "$top/build/prove.py" --run "$name" "$@"
}
