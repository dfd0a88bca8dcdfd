"""A file with the rows of an earlier run, to which a run adds those that are missing."""
import fcntl
import os
import stat
from collections import Counter
from contextlib import contextmanager, suppress
from typing import Counter as CounterOf
from typing import Dict, Iterator, List, Sequence, Tuple

from ._certificates import LIMIT, check_text
from ._ends import REFUSED, Refused
from ._errors import BadCertificate
from ._report_rows import Rows, records
from ._arguments import shown
from ._writing import named, write_whole
from .batch import FileReport, Report


class Output:
    """An open file at whose end rows are written."""

    def __init__(self, path: str, number: int) -> None:
        self.path, self.number = path, number

    def write(self, row: bytes) -> None:
        size = os.fstat(self.number).st_size
        try:
            write_whole(self.number, row)
        except OSError as error:
            with suppress(OSError):
                os.ftruncate(self.number, size)
            raise named(error, self.path) from None

    def refused(self, why: str, line: int = 0) -> Refused:
        return Refused(REFUSED, f"{self.path}: line {line}: {why}" if line else f"{self.path}: {why}")


@contextmanager
def opened(path: str) -> Iterator[Output]:
    """A file, which is made if it isn't there; other runs are refused it meanwhile, where its file system has locks."""
    output = Output(path, os.open(path, os.O_RDWR | os.O_CREAT | os.O_APPEND, 0o666))
    try:
        if not stat.S_ISREG(os.fstat(output.number).st_mode):
            raise output.refused("no plain file, as --resume needs")
        try:
            fcntl.flock(output.number, fcntl.LOCK_EX | fcntl.LOCK_NB)
        except BlockingIOError:
            raise output.refused("another run is writing to it") from None
        except OSError:
            pass
        yield output
    finally:
        os.close(output.number)


def resumed(output: Output, rows: Rows, files: Sequence[str], places: Dict[str, str]) -> Tuple[List[str], bool]:
    """The files that have no row yet, and whether a row has a fault. A last row that is cut is taken away. ``places`` has the
    certificates that rows with reports must have."""
    end, line, has_fault = 0, 1, False
    left = Counter(files)
    with open(output.number, "rb", closefd=False) as file:
        for row, is_whole in records(file, rows):
            if not is_whole:
                if not _may_begin(row, rows, left, end == 0):
                    raise output.refused(f"it is cut, and is no beginning of a {rows.name} row that is missing", line)
                break
            if end or not rows.head:
                said = _said(output, row, rows, line)
                _check(output, said, left, places, line)
                left[said.file] -= 1
                has_fault |= bool(said.fault)
            elif row != rows.head:
                raise output.refused(f"no {rows.name} head of minorder-batch", line)
            end += len(row)
            line += row.count(b"\n")
    if os.fstat(output.number).st_size > end:
        os.ftruncate(output.number, end)
    if rows.head and not end:
        output.write(rows.head)
    return _missing(files, left), has_fault


def _said(output: Output, row: bytes, rows: Rows, line: int) -> FileReport:
    try:
        return rows.said(row)
    except ValueError as error:
        raise output.refused(f"no {rows.name} row of minorder-batch: {error}", line) from None


def _check(output: Output, said: FileReport, left: CounterOf[str], places: Dict[str, str], line: int) -> None:
    """Raises Refused if a row isn't one that is missing, or its certificate is."""
    if said.file not in left:
        raise output.refused(f"{shown(said.file)} is none of the files", line)
    if not left[said.file]:
        raise output.refused(f"{shown(said.file)} has a row already", line)
    if places and said.report and not said.fault:
        place = places[said.file]
        fault = _fault_of_certificate(said.report, place)
        if fault:
            raise output.refused(f"{shown(said.file)}: its certificate {place} {fault}", line)


def _fault_of_certificate(report: Report, place: str) -> str:
    """Why a file is no certificate whose head says what a report does; nothing if it is one."""
    if not os.path.isfile(place):
        return "is no plain file" if os.path.lexists(place) else "isn't there"
    try:
        with open(place, "rb") as file:
            text = file.read(LIMIT + 1)
        check_text(text)
    except OSError as error:
        return f"isn't read: {error.strerror}"
    except BadCertificate as fault:
        return f"is refused: {BadCertificate(fault.line, fault.kind)}"
    return "" if text.startswith(_head_of(report)) else "is another problem's"


def _head_of(report: Report) -> bytes:
    """How the certificate of a report begins, which is one about all orders."""
    order, levels = (" ".join(map(str, it)) for it in (report.order, report.levels))
    sizes = f"inputs {report.inputs}\noutputs {report.outputs}\norder {order}\nlevels {levels}\ntotal {report.nodes}\n"
    return f"bddorder-certificate 2\n{sizes}pairs 0\n".encode("ascii")


def _may_begin(cut: bytes, rows: Rows, left: CounterOf[str], is_first: bool) -> bool:
    """Whether a cut row is one of a file that is left, or a head."""
    beginnings = [rows.head] if is_first and rows.head else (rows.beginning(file) for file in +left)
    return any(cut.startswith(it) or it.startswith(cut) for it in beginnings)


def _missing(files: Sequence[str], left: CounterOf[str]) -> List[str]:
    """The files, in their order, without the first ones of those that are left less often."""
    present = Counter(files)
    present.subtract(left)
    missing = []
    for file in files:
        if present[file]:
            present[file] -= 1
        else:
            missing.append(file)
    return missing
