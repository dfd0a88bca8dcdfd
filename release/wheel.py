#!/usr/bin/env python3
"""wheel.py TREE FOLDER      makes the wheel of a release's tree in FOLDER and prints its name

The wheel's platform is the oldest version of the GNU C library that has all symbols that the tree's shared library asks
for. It is read off the library's own table of needed versions, without other tools."""
import importlib
import re
import struct
import sys
from typing import Iterator, NamedTuple

NEEDED_VERSIONS = 0x6ffffffe


class Section(NamedTuple):
    kind: int
    link: int
    content: bytes


def sections_of(library: bytes) -> list[Section]:
    """The sections of an ELF file of 64 bits."""
    start, = struct.unpack_from("<Q", library, 0x28)
    size, count = struct.unpack_from("<HH", library, 0x3a)
    found = []
    for at in range(start, start + size * count, size):
        kind, offset, length, link = struct.unpack_from("<4xI16xQQI", library, at)
        found.append(Section(kind, link, library[offset:offset + length]))
    return found


def versions_in(needs: bytes, names: bytes) -> Iterator[str]:
    """The versions that a table of needed versions lists: a chain of libraries, each with a chain of versions."""
    at = 0
    while True:
        count, first, to_next = struct.unpack_from("<2xH4xII", needs, at)
        entry = at + first
        for _ in range(count):
            name, step = struct.unpack_from("<8xII", needs, entry)
            yield names[name:names.index(b"\0", name)].decode()
            entry += step
        if to_next == 0:
            return
        at += to_next


def platform_of(path: str) -> str:
    with open(path, "rb") as file:
        library = file.read()
    if library[:6] != b"\x7fELF\x02\x01":
        sys.exit(f"wheel.py: {path} is no ELF file of 64 bits, lowest byte first")
    sections = sections_of(library)
    needs = (it for it in sections if it.kind == NEEDED_VERSIONS)
    versions = [version for it in needs for version in versions_in(it.content, sections[it.link].content)]
    numbers = []
    for version in versions:
        found = re.fullmatch(r"GLIBC_2\.(\d+)(\.\d+)?", version)
        if found:
            numbers.append(int(found[1]))
        elif version.startswith("GLIBC_"):
            sys.exit(f"wheel.py: {path} asks for {version}, which is no version of the GNU C library")
    if not numbers:
        sys.exit(f"wheel.py: {path} asks for no version of the GNU C library")
    return f"manylinux_2_{max(numbers)}_x86_64"


def main(tree: str, folder: str) -> None:
    platform = platform_of(f"{tree}/lib/libminorder.so.1")
    sys.dont_write_bytecode = True
    sys.path.insert(0, f"{tree}/share/minorder/python/backend")
    backend = importlib.import_module("wheels")
    print(backend.build_wheel(folder, {"platform": platform}))


if __name__ == "__main__":
    if len(sys.argv) != 3:
        sys.exit(__doc__)
    try:
        main(*sys.argv[1:])
    except OSError as error:
        sys.exit(f"wheel.py: {error.filename}: {error.strerror}")
