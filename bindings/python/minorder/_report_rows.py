"""The rows of minorder-batch, as JSON or as CSV, and what a row says."""
import csv
import io
import json
import os
from typing import BinaryIO, Dict, Iterable, Iterator, List, Sequence, Tuple, Union

from ._row_rules import COLUMNS, number_of, row_of, values_of
from .batch import FileReport
from .files import LIMIT


class JsonRows:
    """An object a line."""
    name, head, has_quotes = "JSON", b"", False

    def row(self, report: FileReport) -> bytes:
        return json.dumps(report.fields(), allow_nan=False).encode("ascii") + b"\n"

    def beginning(self, file: str) -> bytes:
        """How each row of a file begins."""
        return json.dumps({"file": file})[:-1].encode("ascii") + b","

    def said(self, row: bytes) -> FileReport:
        """Raises ValueError with why it is no row."""
        try:
            found = json.loads(row, object_pairs_hook=_object, parse_int=number_of)
        except (json.JSONDecodeError, UnicodeDecodeError, RecursionError):
            raise ValueError("it is no JSON") from None
        if not isinstance(found, dict):
            raise ValueError("it is no object")
        return row_of(found)


class CsvRows:
    """A head and a record a row, where the numbers of a list have spaces between them. In quotes a name may go over lines."""
    name, has_quotes = "CSV", True

    def __init__(self) -> None:
        self.head = _record(COLUMNS)

    def row(self, report: FileReport) -> bytes:
        said = report.fields()
        values = (said.get(column, "") for column in COLUMNS)
        return _record(" ".join(map(str, value)) if isinstance(value, tuple) else value for value in values)

    def beginning(self, file: str) -> bytes:
        return _record((file, ""))[:-1]

    def said(self, row: bytes) -> FileReport:
        # a name in a report may be as long as a file
        csv.field_size_limit(LIMIT)
        try:
            cells = next(csv.reader([os.fsdecode(row)], strict=True))
        except (csv.Error, StopIteration):
            raise ValueError("it is no CSV") from None
        if len(cells) != len(COLUMNS):
            raise ValueError(f"it has {len(cells)} cells, not {len(COLUMNS)}")
        return row_of(values_of({name: cell for name, cell in zip(COLUMNS, cells) if cell or name == "file"}))


Rows = Union[JsonRows, CsvRows]


def _object(pairs: Sequence[Tuple[str, object]]) -> Dict[str, object]:
    found = dict(pairs)
    if len(found) < len(pairs):
        raise ValueError("a field stands twice")
    return found


def _record(values: Iterable[object]) -> bytes:
    text = io.StringIO()
    # a value is quoted if it has a character of the terminator
    csv.writer(text, lineterminator="\r\n").writerow(values)
    return os.fsencode(text.getvalue()[:-2]) + b"\n"


def records(file: BinaryIO, rows: Rows) -> Iterator[Tuple[bytes, bool]]:
    """The rows that a file has, and of each whether it is whole, as all but the last one are."""
    lines: List[bytes] = []
    is_quoted = False
    for line in file:
        lines.append(line)
        is_quoted ^= rows.has_quotes and line.count(b'"') % 2 == 1
        if not is_quoted and line.endswith(b"\n"):
            yield b"".join(lines), True
            lines = []
    if lines:
        yield b"".join(lines), False
