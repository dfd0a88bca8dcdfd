"""How many nodes the functions of PLA files have under all orders of their inputs, and where an order of one's own stands.

For each FILE it prints how many orders there are, the fewest and the most nodes and in how many orders, the mean and the median;
then each MARK: its nodes, and how many orders have fewer. A MARK is NAME=ORDER, which is counted, or NAME=SIZE. An ORDER has the
inputs, top first, by number or by name, 2,0,1 or "s a b"; a number alone is a SIZE. OUT's suffix says what is written in place
of the text: .svg; .png or .pdf, by matplotlib: the share of the orders that have at most so many nodes, as a curve; .csv; .json.
Exit status: 0; 1 if there is no library, or no matplotlib for .png and .pdf, 2 if the words are refused, 3 if FILE is, 4 out of
memory, 5 if a read or write failed.
"""
from __future__ import annotations

import argparse
import re
import sys
from typing import Iterator, Mapping, Optional, Sequence, Union

from . import _ends
from ._all_orders import sizes
from ._arguments import on_a_line, shortened, shown, two_decimals
from ._curves import Parts
from ._drawings import counted
from ._errors import BadSize
from ._orders import MOST_DIGITS
from ._size_files import TEXTS, median_of, suffix_of, write_sizes
from ._sizes import Sizes
from .diagram_command import order_of
from .levels_command import read

NAME = "minorder-orders"
VARIABLE = "(?:0|1[0-5]|[1-9])"
Value = Union[int, list[int]]
PAIRS = re.compile(f"{VARIABLE},{VARIABLE}(?::{VARIABLE},{VARIABLE})*")


class NotOfFile(Exception):
    """A mark isn't one of a file: its name, and why."""


def marks_of(words: Sequence[str]) -> dict[str, str]:
    """What each mark names."""
    found: dict[str, str] = {}
    for word in words:
        name, equals, value = word.partition("=")
        if not name.strip() or not equals:
            raise _ends.Refused(_ends.BAD_WORDS, f"--mark {shortened(word)}: a mark is NAME=ORDER or NAME=SIZE")
        if not name.isprintable():
            raise _ends.Refused(_ends.BAD_WORDS, f"--mark {shown(name)}: a name is a line of printable text")
        if name in found:
            raise _ends.Refused(_ends.BAD_WORDS, f"--mark {shortened(name)}: the name is given twice")
        found[name] = value
    return found


def value_of(name: str, value: str, inputs: Sequence[str]) -> Value:
    """The size or the order that a mark stands for."""
    try:
        if not value.isascii() or not value.isdigit():
            return order_of([value], inputs)
        if len(value) <= MOST_DIGITS:
            return int(value)
        raise _ends.Refused(_ends.BAD_WORDS, f"{shortened(value)}: no diagram has so many nodes")
    except _ends.Refused as refusal:
        raise NotOfFile(f"{shortened(name)}: {refusal.args[0]}") from None


def pairs_of(text: Optional[str]) -> list[tuple[int, int]]:
    """The pairs of inputs that a list spells, as minorder's option --above has it."""
    if text is None:
        return []
    if not PAIRS.fullmatch(text):
        raise _ends.Refused(_ends.BAD_WORDS, f"--above {shortened(text)}: pairs of inputs by number are spelled 2,0:1,0")
    return [(int(above), int(below)) for above, below in (pair.split(",") for pair in text.split(":"))]


def marked(found: Sizes, values: Mapping[str, Value]) -> Sizes:
    """The sizes of a file's functions, with what is marked."""
    try:
        return found.marked(**values)
    except BadSize as error:
        raise NotOfFile(str(error).partition(": ")[2]) from None


def notes_of(values: Mapping[str, Value], above: Sequence[tuple[int, int]]) -> Iterator[str]:
    """A note of each marked order that doesn't keep the pairs."""
    for name, order in values.items():
        if isinstance(order, list) and any(order.index(one) > order.index(other) for one, other in above):
            yield f"--mark {shortened(name)}: the order doesn't keep the pairs of --above"


def orders_said(count: int) -> str:
    return f"{count} order{'s' * (count != 1)}"


def percent(count: int, total: int) -> str:
    """A share with two digits behind the point, which says nothing of some orders as of none, or as of all."""
    if 0 < 10000 * count < total:
        return "below 0.01 %"
    if 0 < 10000 * (total - count) < total:
        return "above 99.99 %"
    return f"{100 * count / total:.2f} %"


def lines_of(found: Sizes) -> Iterator[str]:
    figures, median = found.figures, median_of(found)
    yield f"orders: {figures.count}"
    yield f"fewest: {counted(figures.nodes)} in {orders_said(figures.optimal)}"
    yield f"most: {counted(figures.most)} in {orders_said(figures.worst)}"
    yield f"mean: {two_decimals(figures.mean)} nodes"
    yield f"median: above {found.bound} nodes" if median is None else f"median: {counted(median)}"
    for name, nodes in found.marks:
        fewer = found.rank(nodes)
        none = "" if nodes in found else ", which no order has"
        yield f"mark {name}: {counted(nodes)}{none}, fewer in {orders_said(fewer)} ({percent(fewer, found.total)})"


def text_of(parts: Parts) -> str:
    return "".join(f"{line}\n" for name, found in parts for line in (f"file: {on_a_line(name)}", *lines_of(found)))


def command(given: argparse.Namespace) -> int:
    if given.out is not None:
        suffix_of(given.out)
        _ends.check_out(given.out, given.files)
    if given.marks and (given.text == ".csv" or (given.out or "").lower().endswith(".csv")):
        raise _ends.Refused(_ends.BAD_WORDS, "--mark: CSV has no marks")
    marks, above = marks_of(given.marks), pairs_of(given.above)
    parts, notes = [], []
    for path in given.files:
        file, begin = read(path), f"{path}: " if len(given.files) > 1 else ""
        try:
            values = {name: value_of(name, value, file.inputs) for name, value in marks.items()}
            found = sizes(file, above=above, most=given.most)
            notes += [f"{begin}{note}" for note in notes_of(values, above)]
            parts.append((path, marked(found, values)))
        except NotOfFile as refusal:
            raise _ends.Refused(_ends.BAD_WORDS, *notes, f"{begin}--mark {refusal}") from None
    _ends.say(NAME, *notes)
    if given.out is not None:
        write_sizes(given.out, parts)
    else:
        sys.stdout.write(TEXTS.get(given.text, text_of)(parts))
    return 0


def main(words: Optional[Sequence[str]] = None) -> int:
    parser = _ends.parser_of(NAME, __doc__)
    parser.add_argument("files", metavar="FILE", nargs="+")
    form = parser.add_mutually_exclusive_group()
    form.add_argument("-o", "--out", metavar="OUT", help="the file that is written, as its suffix says")
    form.add_argument("--json", dest="text", action="store_const", const=".json", help="write an object of JSON for each file")
    form.add_argument("--csv", dest="text", action="store_const", const=".csv", help="write a line for each size")
    parser.add_argument("--mark", dest="marks", metavar="MARK", action="append", default=[], help="NAME=ORDER or NAME=SIZE")
    parser.add_argument("--above", metavar="LIST", help="keep pairs of inputs; 2,0:1,0: 2 above 0, 1 above 0")
    parser.add_argument("--most", type=int, metavar="N", help="count sizes up to N nodes, which takes less memory")
    return _ends.run(parser, command, words)


if __name__ == "__main__":
    sys.exit(main())
