"""Writes what minorder reports of each of many PLA files, a row a file, as soon as the file and those before it are done.

Exit status: 0 if each file has a report; 1 if some row has a fault, or the library or Dask isn't there; 2 if the words are
refused, 3 if LIST or OUT is, 4 if memory is out, 5 if a list or a folder can't be read or made, the cluster doesn't answer, or a
write failed.
"""
import argparse
import codecs
import os
import sys
import warnings
from contextlib import ExitStack, contextmanager
from typing import Callable, Dict, Iterator, List, NamedTuple, Optional, Sequence

from . import _ends
from ._clusters import Cluster, cluster_at
from ._progress import Bar, progress
from ._report_rows import CsvRows, JsonRows, Rows
from ._resuming import Output, opened, resumed
from ._threads import workers_of
from ._writing import write_whole
from .batch import certificates_of, report_files

NAME = "minorder-batch"


def _files_of(paths: Sequence[str]) -> Iterator[str]:
    """The files that are meant: of a folder those that end in `.pla`, by name."""
    for path in paths:
        if os.path.isdir(path):
            names = (name for name in sorted(os.listdir(path)) if name.endswith(".pla") and not name.startswith("."))
            yield from filter(os.path.isfile, (os.path.join(path, name) for name in names))
        else:
            yield path


def _listed(path: str) -> List[str]:
    """The names in a list, one a line, whatever ends it."""
    lines = _ends.content_of(path).removeprefix(codecs.BOM_UTF8).replace(b"\r\n", b"\n").split(b"\n")
    for number, line in enumerate(lines, 1):
        if b"\0" in line:
            name = "standard input" if path == "-" else path
            raise _ends.Refused(_ends.REFUSED, f"{name}: line {number}: a NUL, where each line is a name")
    return [os.fsdecode(line) for line in lines if line.strip()]


def _to_standard_output(row: bytes) -> None:
    try:
        number = sys.stdout.fileno()
    except ValueError:
        # it is no file, or was closed
        sys.stdout.write(os.fsdecode(row))
    else:
        write_whole(number, row)


class _Begun(NamedTuple):
    """Where rows go, the files that have none yet, and whether an earlier row has a fault."""
    write: Callable[[bytes], None]
    files: List[str]
    has_fault: bool


def _begun(output: Optional[Output], rows: Rows, files: List[str], places: Dict[str, str]) -> _Begun:
    if output is not None:
        return _Begun(output.write, *resumed(output, rows, files, places))
    if rows.head:
        _to_standard_output(rows.head)
    return _Begun(_to_standard_output, files, False)


@contextmanager
def _warned(bar: Bar) -> Iterator[None]:
    """Says each warning as a line."""
    def say(message: object, *_: object, **__: object) -> None:
        bar.clear()
        _ends.say(NAME, message)

    with warnings.catch_warnings():
        warnings.showwarning = say
        yield


def _words() -> argparse.ArgumentParser:
    words = _ends.parser_of(NAME, __doc__)
    words.add_argument(
        "files", nargs="*", default=[], metavar="FILE", help="a PLA file, or a folder, which stands for its files *.pla")
    words.add_argument("--list", metavar="LIST", help="a file with the names of more files, one a line; - is standard input")
    words.add_argument("--csv", action="store_true", help="write CSV in place of JSON")
    words.add_argument("--unordered", action="store_true", help="write a row as soon as its file is done")
    words.add_argument("--certificates", metavar="FOLDER", help="put the certificate of each file into a folder")
    words.add_argument("--resume", metavar="OUT", help="append to OUT, which a run that was ended wrote, the rows that it lacks")
    workers = words.add_mutually_exclusive_group()
    workers.add_argument("--workers", type=int, metavar="W", help="how many threads work; as many as processors if left out")
    workers.add_argument("--dask", metavar="ADDRESS", help="let the workers of a Dask cluster work; its scheduler's address")
    return words


def command(words: argparse.ArgumentParser, given: argparse.Namespace) -> int:
    if not given.files and given.list is None:
        words.error("no FILE and no LIST")
    workers_of(given.workers)
    files = list(_files_of([*given.files, *(_listed(given.list) if given.list else ())]))
    if given.resume is not None:
        _ends.check_out(given.resume, [*files, *([] if given.list is None else [given.list])])
    places = {} if given.certificates is None else certificates_of(files, given.certificates)
    if given.resume is not None and os.path.realpath(given.resume) in {os.path.realpath(place) for place in places.values()}:
        raise _ends.Refused(_ends.BAD_WORDS, f"{given.resume}: it is the place of a certificate, too")
    rows: Rows = CsvRows() if given.csv else JsonRows()
    with ExitStack() as stack:
        output = None if given.resume is None else stack.enter_context(opened(given.resume))
        begun = _begun(output, rows, files, places)
        cluster = Cluster(None, given.workers) if given.dask is None else stack.enter_context(cluster_at(given.dask))
        # none on a terminal that shows rows
        is_free = output is not None or not sys.stdout.isatty()
        bar = stack.enter_context(progress("files", len(files), len(files) - len(begun.files), is_free))
        stack.enter_context(_warned(bar))
        has_fault = begun.has_fault
        for report in report_files(
                begun.files, given.certificates, cluster.workers, cluster.executor, ordered=not given.unordered):
            begun.write(rows.row(report))
            has_fault |= report.fault != ""
            bar.step()
    return 1 if has_fault else 0


def main(words: Optional[Sequence[str]] = None) -> int:
    parser = _words()
    return _ends.run(parser, lambda given: command(parser, given), words)


if __name__ == "__main__":
    sys.exit(main())
