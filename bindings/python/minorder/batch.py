"""Reports of many PLA files, by threads or by an executor's workers."""
import json
import os
from concurrent.futures import Executor
from dataclasses import dataclass
from enum import IntEnum
from typing import Any, Dict, Iterable, Iterator, List, Optional, Sequence, Tuple, Union

from ._arguments import items_of, shown, truth_of
from ._calls import certify, exact, levels, sift
from ._errors import BadArgument, BadPla
from ._handing_out import Waiting
from ._threads import Crew, checked_executor, workers_of
from ._writing import overwritten, path_of, write_file
from .files import LIMIT, pla_of

Path = Union[str, "os.PathLike[str]"]
# for each worker so many files are done or being done at most, from the first on whose report isn't yielded
MOST_AHEAD = 256


class Status(IntEnum):
    """How a file ends, as ``minorder`` says it."""
    DONE = 0
    REFUSED = 3
    OUT_OF_MEMORY = 4
    DEVICE = 5


@dataclass(frozen=True)
class Report:
    """What ``minorder`` reports of a file; ``names`` are in the best order, top first."""
    inputs: int
    outputs: int
    names: Tuple[str, ...]
    order: Tuple[int, ...]
    levels: Tuple[int, ...]
    nodes: int
    sifted_order: Tuple[int, ...]
    sifted_nodes: int
    file_order_nodes: int


@dataclass(frozen=True)
class FileReport:
    """A file's report, or in its place the fault, in the words of ``minorder`` behind its name. Both are there if the
    certificate alone can't be written; the fault is then ``certificate: Device``."""
    file: str
    status: Status
    fault: str = ""
    report: Optional[Report] = None

    def fields(self) -> Dict[str, Any]:
        """By names: the file and the status, the fault if there is one, and what the report has if there is one."""
        said: Dict[str, Any] = {"file": self.file, "status": int(self.status)}
        if self.fault:
            said["fault"] = self.fault
        return {**said, **vars(self.report)} if self.report else said


# ---- one file

def _answer(content: bytes, with_certificate: bool) -> Tuple[Report, str]:
    """The report of a file's content, and the certificate if one is asked for."""
    tables, names, _ = pla_of(content)
    inputs = len(names)
    text = certify(tables) if with_certificate else ""
    if text:
        # the fourth to sixth lines of a certificate are `order ..`, `levels ..` and `total ..`
        order, counts, total = ([int(word) for word in line.split()[1:]] for line in text.split("\n", 6)[3:6])
        best = (tuple(order), tuple(counts), total[0])
    else:
        best = exact(tables)
    sifted = sift(tables, range(inputs))
    file_order = levels(tables, range(inputs))
    report = Report(
        inputs, len(tables), tuple(names[x] for x in best[0]), *best, sifted.order, sifted.total, sum(file_order))
    return report, text


def _outcome(content: bytes, with_certificate: bool) -> Tuple[Status, str, Optional[Report], str]:
    try:
        return Status.DONE, "", *_answer(content, with_certificate)
    except BadPla as fault:
        return Status.REFUSED, str(fault), None, ""
    except MemoryError:
        return Status.OUT_OF_MEMORY, "OutOfMemory", None, ""


# ---- chunks: a line of JSON that says what follows, and the bytes of the files

def _chunk(contents: Sequence[bytes], with_certificate: bool) -> bytes:
    head = {"lengths": [len(content) for content in contents], "certificates": with_certificate}
    return json.dumps(head, allow_nan=False).encode() + b"\n" + b"".join(contents)


def report_chunk(chunk: bytes) -> bytes:
    """The outcomes of a chunk's files, as a list in JSON."""
    line, _, text = chunk.partition(b"\n")
    head, at, outcomes = json.loads(line), 0, []
    for length in head["lengths"]:
        status, fault, report, certificate = _outcome(text[at:at + length], head["certificates"])
        outcomes.append([status, fault, report and vars(report), certificate])
        at += length
    return json.dumps(outcomes, allow_nan=False).encode()


def _report_of(said: Dict[str, Any]) -> Report:
    return Report(**{name: tuple(value) if isinstance(value, list) else value for name, value in said.items()})


# ---- many files

@dataclass(frozen=True)
class Part:
    """The files of a chunk, and which of them could be read."""
    numbers: Sequence[int]
    are_read: Sequence[bool]


def _content_of(path: str) -> Optional[bytes]:
    """What a file holds, as far as a PLA file may be long; None if it can't be read."""
    try:
        with open(path, "rb") as file:
            return file.read(LIMIT + 1)
    except (OSError, ValueError):
        # a name with a NUL is a ValueError
        return None


def _part_of(numbers: Sequence[int], files: Sequence[str], with_certificate: bool) -> Tuple[Part, bytes]:
    """The part that files with these numbers are, and its chunk."""
    contents = [_content_of(files[number]) for number in numbers]
    chunk = _chunk([content for content in contents if content is not None], with_certificate)
    return Part(numbers, [content is not None for content in contents]), chunk


def files_of(paths: Iterable[Path]) -> List[str]:
    """The names of files. Raises BadArgument."""
    return [path_of(path, "paths") for path in items_of(paths, "paths", "sequence of paths")]


def certificates_of(files: Sequence[str], folder: str) -> Dict[str, str]:
    """Where the certificate of each file is put. Raises BadArgument."""
    places: Dict[str, str] = {}
    for file in files:
        place = os.path.join(folder, os.path.splitext(os.path.basename(file))[0] + ".cert")
        other = places.setdefault(place, file)
        if other != file:
            raise BadArgument(f"certificates: {shown(other)} and {shown(file)} would have the same, {place}")
    lost = overwritten(places, files)
    if lost is not None:
        raise BadArgument(f"certificates: {shown(lost)} is one of the files that are read")
    return {file: place for place, file in places.items()}


def _is_written(place: str, text: str) -> bool:
    """Puts a text in its place as a whole; whether that can be done."""
    try:
        write_file(place, text.encode("ascii"))
        return True
    except OSError:
        return False


def _reports_of(part: Part, answer: bytes, files: Sequence[str], places: Dict[str, str]) -> Iterator[FileReport]:
    outcomes = iter(json.loads(answer))
    for number, is_read in zip(part.numbers, part.are_read):
        file = files[number]
        if not is_read:
            yield FileReport(file, Status.DEVICE, "Device")
            continue
        status, fault, said, certificate = next(outcomes)
        if said and places and not _is_written(places[file], certificate):
            status, fault = Status.DEVICE, "certificate: Device"
        yield FileReport(file, Status(status), fault, said and _report_of(said))


def report_files(
        paths: Iterable[Path], certificates: Optional[Path] = None, workers: Optional[int] = None,
        executor: Optional[Executor] = None, ordered: bool = True,
) -> Iterator[FileReport]:
    """What ``minorder`` reports of each of many PLA files, in their order, as soon as a file and those before it are done, or
    with ``ordered=False`` as soon as a file is done.

    A file that is refused has its fault in place of a report, and stops no other. With ``certificates``, a folder, each
    certificate is put there before its report is yielded, as NAME.cert of NAME.pla. The work is done by ``workers`` threads, as
    many as there are processors if that is left out, or by an executor of ``concurrent.futures`` with so many workers, which
    have this package and the library; this process alone reads and writes files. Raises BadArgument if two files have the same
    name of a certificate or one is in its place, and OSError if the folder can't be made.
    """
    files, places, ordered = files_of(paths), {}, truth_of(ordered, "ordered")
    if certificates is not None:
        places = certificates_of(files, path_of(certificates, "certificates"))
        os.makedirs(certificates, exist_ok=True)
    return _reports(files, places, workers_of(workers), checked_executor(executor), ordered)


def _reports(
        files: Sequence[str], places: Dict[str, str], count: int, executor: Optional[Executor], ordered: bool,
) -> Iterator[FileReport]:
    """The reports of files, some of which have a place for a certificate."""
    waiting, first = Waiting(files, count), 0
    held: Dict[int, FileReport] = {}
    with Crew[Part](report_chunk, count, executor) as crew:
        while True:
            end = first + MOST_AHEAD * count if ordered else len(files)
            numbers = waiting.next(end) if crew.has_room() else []
            if numbers:
                crew.give(*_part_of(numbers, files, bool(places)))
                if not crew.is_any_done():
                    continue
            if not crew.has_tasks():
                return
            part, answer = crew.take()
            held.update(zip(part.numbers, _reports_of(part, answer, files, places)))
            if not ordered:
                yield from held.values()
                held.clear()
            while first in held:
                yield held.pop(first)
                first += 1
