# Sourced by scripts that call other tools. `instead` is what to do without them, if something else does.

# whose TOOL      who has it
whose() {
    case $1 in
        rt) echo "the Rattle kit" ;;
        ar | ld | nm | objcopy | objdump | strip) echo "Debian: binutils" ;;
        cc) echo "Debian: gcc; or set CC" ;;
        dpkg-deb) echo "Debian: dpkg" ;;
        */*) echo "no such program" ;;
        *) echo "Debian: $1" ;;
    esac
}

# need TOOL..      ends the script in one line, with status 127, where one of the tools isn't on the path
need() {
    local tool missing=
    for tool in "$@"; do
        command -v "$tool" > /dev/null || missing+="${missing:+, }$tool ($(whose "$tool"))"
    done
    [ -z "$missing" ] || { echo "${0##*/}: not found: $missing${instead:+; $instead}" >&2; exit 127; }
}
