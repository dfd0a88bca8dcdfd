"""What programs and static libraries are built from, and whether it has changed since."""
from __future__ import annotations

import contextlib
import hashlib
import os
from typing import IO, Iterator, List, Tuple

from crates import TOP, all_of, is_static, listed

# how late the clock of files may be, in nanoseconds
FILE_CLOCK = 20_000_000


def folders_of(crate: str) -> Iterator[Tuple[str, List[str]]]:
    """A crate's folders with the names of their files, but for what is made in it and the edits that must fail."""
    top = f"{TOP}/crates/{crate}"
    for at, folders, files in os.walk(top):
        folders[:] = sorted(it for it in folders if at != top or it not in ("out", "must-fail"))
        yield at, sorted(files)


def sum_of(crate: str) -> str:
    """A sum of what a crate is built from: its line of crates.txt and its files."""
    total = hashlib.sha256(f"{listed().get(crate)}\n".encode())
    for at, files in folders_of(crate):
        for file in files:
            with open(f"{at}/{file}", "rb") as it:
                content = hashlib.sha256(it.read()).hexdigest()
            total.update(os.fsencode(f"{os.path.relpath(at, TOP)}/{file} {content}\n"))
    return total.hexdigest()


def is_touched(crate: str, since: int) -> bool:
    """Whether a file of a crate has changed since a time in nanoseconds, also if it was changed back."""
    files = (f"{at}/{file}" for at, names in folders_of(crate) for file in names)
    return any(os.lstat(it).st_ctime_ns > since - FILE_CLOCK for it in files)


def sums_of(name: str) -> bytes:
    """The sums of all that a program is built from."""
    with open(f"{TOP}/HANDLES") as handles:
        return "".join([handles.read(), *(f"{it} {sum_of(it)}\n" for it in all_of(name))]).encode()


def read_by(name: str) -> Iterator[str]:
    """The files and folders that a build reads."""
    yield from ("crates.txt", "HANDLES")
    for crate in all_of(name):
        for at, files in folders_of(crate):
            yield from (os.path.relpath(it, TOP) for it in (at, *(f"{at}/{file}" for file in files)))


def made_of(name: str) -> Tuple[str, str]:
    """The folder that a program or a static library is built in, and its file."""
    folder = f"{TOP}/crates/{name}/out"
    return folder, f"{folder}/lib{name}.a" if is_static(name) else f"{folder}/{name}"


def with_made(name: str, sums: bytes) -> bytes:
    """The sums with that of what was built, in whose place `rt run` may put a program of other sources."""
    with open(made_of(name)[1], "rb") as it:
        return sums + f"{hashlib.sha256(it.read()).hexdigest()}\n".encode()


def is_up_to_date(name: str) -> bool:
    folder, made = made_of(name)
    use = os.R_OK if is_static(name) else os.X_OK
    try:
        with open(f"{folder}/sources", "rb") as it:
            return os.access(made, use) and it.read() == with_made(name, sums_of(name))
    except OSError:
        return False


@contextlib.contextmanager
def written(path: str) -> Iterator[IO[bytes]]:
    """A new file, which takes its place once it is whole, or not at all."""
    try:
        with open(f"{path}.new", "wb") as it:
            yield it
        os.replace(f"{path}.new", path)
    finally:
        with contextlib.suppress(FileNotFoundError):
            os.remove(f"{path}.new")


@contextlib.contextmanager
def stamped(name: str) -> Iterator[None]:
    """Leaves a list of what a build reads, and a stamp of before it, by which program.sh sees what has changed since: an edit
    during the build is built by the next call."""
    folder = made_of(name)[0]
    with written(f"{folder}/stamp"), written(f"{folder}/files") as it:
        it.writelines(os.fsencode(f"{file}\0") for file in read_by(name))
        yield


def take_as_built(name: str, sums: bytes) -> None:
    with written(f"{made_of(name)[0]}/sources") as it:
        it.write(with_made(name, sums))


def take_as_compared(name: str, since: int) -> None:
    """Notes for program.sh that what was built was compared with its sum after a time in nanoseconds."""
    os.utime(f"{made_of(name)[0]}/sources", ns=(since - FILE_CLOCK, since - FILE_CLOCK))
