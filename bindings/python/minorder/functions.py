"""Writes the PLA files of the functions of the table of optima.

NAME is a function's name or the field's name for it; FAMILY is as the table spells it, such as "hidden weighted bit".
Without either all functions are written. FOLDER/functions.csv lists them: name, inputs, outputs, the SHA-256 of the file, and
keeps what it lists already. A file that is there and isn't what would be written is refused before anything is written.
Exit status: 0; 2 if the words are refused, 4 if memory is out, 5 if a file is refused or can't be written.
"""
from __future__ import annotations

import argparse
import csv
import errno
import hashlib
import io
import os
import stat
import sys
import time
from typing import Iterable, Iterator, Mapping, NamedTuple, Optional, Sequence

from . import _ends, benchmarks
from ._errors import MinorderError
from ._processes import each
from ._progress import progress
from ._writing import write_all

NAME = "minorder-functions"
LIST, STARTS = "functions.csv", "starts.csv"
START_COLUMNS = ("name", "start", "order")
SHOWN = 20


class Written(NamedTuple):
    """A line of the list."""
    name: str
    inputs: int
    outputs: int
    sha256: str


class Occupied(MinorderError, FileExistsError):
    """Files that are there aren't those that would be written; ``paths`` are theirs."""

    def __init__(self, paths: Sequence[str]) -> None:
        self.paths = list(paths)
        super().__init__(f"{', '.join(paths)}: there, and not what would be written")


# ---- what is written

def row_of(name: str) -> Written:
    it = benchmarks.optima()[name]
    return Written(name, it.inputs, it.outputs, it.pla_sha256)


def content_of(name: str) -> bytes:
    """A function's PLA file, which is the one whose optimum is proved."""
    content = benchmarks.entry(name).pla().encode("ascii")
    if hashlib.sha256(content).hexdigest() != benchmarks.optima()[name].pla_sha256:
        raise RuntimeError(f"{name}: the file isn't the one whose optimum is proved")
    return content


def csv_of(columns: Sequence[str], rows: Iterable[Sequence[object]]) -> bytes:
    out = io.StringIO()
    table = csv.writer(out, lineterminator="\n")
    table.writerow(columns)
    table.writerows(rows)
    return out.getvalue().encode("ascii")


def start_rows(names: Iterable[str]) -> Iterator[tuple[str, str, str]]:
    """The random orders that the league has, each with its number."""
    for name in names:
        for number, order in benchmarks.random_starts(benchmarks.optima()[name].inputs):
            yield name, str(number), " ".join(map(str, order))


# ---- what is there

def sum_of(path: str) -> str:
    """The SHA-256 of a file; nothing of what is no file. Raises FileNotFoundError if nothing is there."""
    try:
        mode = os.lstat(path).st_mode
        if stat.S_ISDIR(mode):
            raise IsADirectoryError(errno.EISDIR, os.strerror(errno.EISDIR))
        if not stat.S_ISREG(os.stat(path).st_mode):
            return ""
        found = hashlib.sha256()
        with open(path, "rb") as file:
            while block := file.read(1 << 20):
                found.update(block)
        return found.hexdigest()
    except OSError as error:
        raise type(error)(error.errno, error.strerror, path) from None


def is_there(path: str, sha256: str) -> Optional[bool]:
    """Whether a file is the one of this sum; None if nothing is there."""
    try:
        return sum_of(path) == sha256
    except FileNotFoundError:
        return False if os.path.lexists(path) else None


def listed(path: str, columns: Sequence[str]) -> Optional[list[dict[str, str]]]:
    """The rows of a list in the folder; none if it isn't there, None if it isn't such a list."""
    try:
        with open(path, newline="", encoding="utf-8") as file:
            table = csv.DictReader(file)
            rows = list(table)
    except FileNotFoundError:
        return []
    except (UnicodeDecodeError, csv.Error):
        return None
    return rows if tuple(table.fieldnames or ()) == tuple(columns) else None


def names_listed(folder: str) -> Optional[list[str]]:
    """The functions that the folder's list has; None if it is another list."""
    rows = listed(os.path.join(folder, LIST), Written._fields)
    known = benchmarks.optima()
    if rows is None or any(row["name"] not in known for row in rows):
        return None
    own = [row_of(row["name"]) for row in rows]
    if any(tuple(row.values()) != tuple(map(str, it)) for row, it in zip(rows, own)):
        return None
    return [it.name for it in own]


def files_of(folder: str, names: Iterable[str]) -> dict[str, str]:
    """Where the files of functions lie in the folder."""
    return {name: os.path.join(folder, f"{name}.pla") for name in names}


def states_of(files: Mapping[str, str]) -> dict[str, Optional[bool]]:
    """Of functions' files whether they are those; None of one that isn't there."""
    return {name: is_there(path, benchmarks.optima()[name].pla_sha256) for name, path in files.items()}


def has_other_starts(folder: str) -> bool:
    rows = listed(os.path.join(folder, STARTS), START_COLUMNS)
    known = benchmarks.optima()
    if rows is None or any(row["name"] not in known for row in rows):
        return True
    names = dict.fromkeys(row["name"] for row in rows)
    return not {tuple(row.values()) for row in rows} <= set(start_rows(names))


# ---- the command

def write_functions(
        folder: str, names: Sequence[str], jobs: Optional[int] = None, starts: bool = False, force: bool = False,
) -> list[Written]:
    """Writes the PLA files of functions and their list, and their random starts if these are asked for; all or nothing. Says
    which files were changed, so that the list leaves them out. Raises UnknownName, Occupied unless it is forced, OSError,
    MemoryError."""
    wanted = [it.name for it in benchmarks.selected(names)]
    files = files_of(folder, wanted)
    state = states_of(files)
    others = [files[name] for name in wanted if state[name] is False]
    others += [os.path.join(folder, LIST)] if names_listed(folder) is None else []
    others += [os.path.join(folder, STARTS)] if starts and has_other_starts(folder) else []
    if others and not force:
        raise Occupied(others)
    # the largest first, so that no process is left alone with them
    optima = benchmarks.optima()
    largest = sorted((it for it in wanted if not state[it]), key=lambda it: (-optima[it].inputs, -optima[it].outputs))
    with progress("files", len(largest)) as bar:
        made = {f"{name}.pla": content for name, content in zip(largest, each(content_of, largest, jobs, bar.step))}
    changed: list[str] = []

    def contents() -> dict[str, bytes]:
        """All files; the list has what lies there by now."""
        before = files_of(folder, names_listed(folder) or [])
        lying = states_of(before)
        changed.extend(before[name] for name in before if lying[name] is False and name not in wanted)
        together = list(dict.fromkeys([*(name for name in before if lying[name]), *wanted]))
        lists = {LIST: csv_of(Written._fields, map(row_of, together))}
        if starts:
            lists[STARTS] = csv_of(START_COLUMNS, start_rows(together))
        return {**made, **lists}

    write_all(folder, contents)
    _ends.say(NAME, *(f"{path}: it was changed, so {LIST} lists it no more" for path in changed))
    return [row_of(name) for name in wanted]


def command(parser: argparse.ArgumentParser, given: argparse.Namespace) -> int:
    if given.jobs is not None and given.jobs < 1:
        parser.error("--jobs: at least 1")
    start = time.monotonic()
    try:
        rows = write_functions(given.folder, given.names, given.jobs, given.starts, given.force)
    except benchmarks.UnknownName as error:
        parser.error(str(error))
    except Occupied as error:
        shown, more = error.paths[:SHOWN], len(error.paths) - SHOWN
        said = [f"{path}: it is there and isn't what would be written; --force overwrites it" for path in shown]
        raise _ends.Refused(_ends.DEVICE, *said, *([f"and {more} more files"] if more > 0 else [])) from None
    count = f"{len(rows)} file{'s' * (len(rows) != 1)}"
    print(f"{count} in {given.folder}, listed in {LIST}: {time.monotonic() - start:.1f} s")
    return 0


def main(words: Optional[Sequence[str]] = None) -> int:
    parser = _ends.parser_of(NAME, __doc__)
    parser.add_argument("folder", metavar="FOLDER")
    parser.add_argument("names", metavar="NAME or FAMILY", nargs="*", default=[])
    parser.add_argument("--starts", action="store_true", help=f"write the random orders of the functions of up to "
                        f"{benchmarks.MOST_INPUTS} inputs, too, into {STARTS}: name, start (1 to 10), order (top first)")
    parser.add_argument("--force", action="store_true", help="overwrite what isn't what would be written")
    parser.add_argument("--jobs", type=int, metavar="N", help="files made at a time; as many as there are processors")
    return _ends.run(parser, lambda given: command(parser, given), words)


if __name__ == "__main__":
    sys.exit(main())
