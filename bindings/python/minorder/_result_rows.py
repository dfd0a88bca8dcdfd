"""The rows of a text of results: lines of CSV, a list in JSON, or an object of JSON a line."""
from __future__ import annotations

import csv
import io
import json
import re
from typing import Iterator, Mapping, Union

KNOWN = ("name", "order", "nodes", "seconds", "start", "claimed")
COLUMNS = "name and order, or name and nodes; besides these seconds and start"
# what stands around words; other white space is a letter
BLANKS = " \t"
SCORE = "a score, and no result; minorder-score RESULTS --csv writes results, which another score reads"


class Fault(Exception):
    """Why a row is refused."""


class Unreadable(Exception):
    """Why nothing behind some place can be read."""


# with its place, such as `line 3`
Row = tuple[str, Union[Mapping[str, object], Fault]]


def rows_of(text: str) -> Iterator[Row]:
    """The rows with their places. Raises Unreadable."""
    text = text.lstrip("\ufeff").replace("\r\n", "\n").replace("\r", "\n")
    begin = text.lstrip(f"{BLANKS}\n")[:1]
    return json_list(text) if begin == "[" else json_lines(text) if begin == "{" else csv_rows(text)


# ---- JSON

def object_of(pairs: list[tuple[str, object]]) -> dict[str, object]:
    names = [name for name, _ in pairs]
    twice = [name for name in KNOWN if names.count(name) > 1]
    if twice:
        raise ValueError(f"{twice[0]} stands twice")
    return dict(pairs)


def refused(word: str) -> float:
    raise ValueError(f"{word} is no number of JSON")


def json_of(text: str, place: str) -> object:
    try:
        # numbers stay as they are written, for what refuses them
        return json.loads(text, object_pairs_hook=object_of, parse_int=str, parse_float=str, parse_constant=refused)
    except (ValueError, RecursionError) as error:
        raise Unreadable(f"{place}: no JSON: {error}") from None


def json_row(value: object, place: str) -> Row:
    if not isinstance(value, dict):
        return place, Fault("no object with a name")
    return place, Fault(SCORE) if "league" in value and "name" not in value else value


def json_list(text: str) -> Iterator[Row]:
    values = json_of(text, "the list")
    for number, value in enumerate(values if isinstance(values, list) else [values], 1):
        yield json_row(value, f"entry {number}")


def json_lines(text: str) -> Iterator[Row]:
    for number, line in enumerate(text.split("\n"), 1):
        if line.strip():
            yield json_row(json_of(line, f"line {number}"), f"line {number}")


# ---- CSV

def separator_of(text: str) -> str:
    """What stands between cells: the first comma, semicolon or tab outside quotes."""
    found = re.search("[,;\t]", re.sub('"[^"]*"', "", text).lstrip(f"{BLANKS}\n"))
    return found[0] if found else ","


def heads_of(cells: list[str], place: str) -> list[str]:
    heads = [cell.strip(BLANKS).lower() for cell in cells]
    twice = [head for head in KNOWN if heads.count(head) > 1]
    if twice:
        raise Unreadable(f"{place}: the column {twice[0]} stands twice")
    if "name" not in heads or not {"order", "nodes"} & set(heads):
        raise Unreadable(f"{place}: it names no columns {COLUMNS}")
    return heads


def csv_rows(text: str) -> Iterator[Row]:
    # a cell may be as long as the file
    csv.field_size_limit(max(csv.field_size_limit(), len(text)))
    reader = csv.reader(io.StringIO(text, newline=""), delimiter=separator_of(text), skipinitialspace=True, strict=True)
    heads: list[str] = []
    try:
        for cells in reader:
            place = f"line {reader.line_num}"
            if not any(cell.strip(BLANKS) for cell in cells):
                continue
            if not heads:
                heads = heads_of(cells, place)
            elif len(cells) > len(heads):
                yield place, Fault("more cells than columns; an order has blanks between its inputs")
            else:
                yield place, {head: cell for head, cell in zip(heads, cells) if head in KNOWN and cell.strip(BLANKS)}
    except csv.Error as error:
        raise Unreadable(f"line {reader.line_num}: no CSV: {error}") from None
    if not heads:
        heads_of([], "line 1")
