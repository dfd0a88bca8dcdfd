"""The reduced shared diagram of the functions of a PLA file under an order, drawn or written down.

The ORDER has the file's inputs, top first, by number as the line `order` of a report, or by name as its line `names`: s,a,b or
s a b. Without it, it is that of a report of minorder on standard input, if a pipe or a file is there, whose names and sizes are
compared with the file's; else the file's own. The suffix of OUT says what is written: .svg, .png or .pdf, by Graphviz, of
at most 1,500 nodes; .dot; .json; .bdd, what BuDDy's bdd_save writes, of each output behind the one before. Without OUT it is
.dot, to standard output.
Exit status: 0; 1 if there is no library, or no Graphviz for a picture, 2 if the words are refused, 3 if FILE or the report is,
4 out of memory, 5 if a read or write failed.
"""
from __future__ import annotations

import argparse
import os
import stat
import sys
from typing import NamedTuple, Optional, Sequence

from . import _ends
from ._arguments import MOST, shortened
from ._calls import diagram, levels
from ._diagrams import TEXTS, Diagram, suffix_of, write_diagrams
from ._drawings import dot_of
from ._orders import words_of
from ._row_rules import report_of, values_of
from ._tables import Pla
from .batch import Report
from .files import REPORT_LINES, parts_of
from .levels_command import checked, read

NAME = "minorder-diagram"
OWN, REPORTED, ANOTHER = "the file's order", "the report's order", "another order"
NO_REPORT = "standard input holds no report of minorder: {}; name an ORDER, or add < /dev/null for the file's own"
NO_OTHER = "--both wants an ORDER, or a report of minorder on standard input"


class Wanted(NamedTuple):
    """An order, top first, what it is called, and the level counts that a report has of it."""
    order: Sequence[int]
    said: str
    levels: Optional[tuple[int, ...]] = None


def order_of(words: Sequence[str], names: Sequence[str]) -> list[int]:
    """The order that words spell together."""
    return [int(word) for word in checked(words_of(" ".join(words), names), names)]


def report_in(text: str) -> Report:
    """The report that a text is; how many outputs its file has isn't known. Raises ValueError with why it is none."""
    lines = parts_of(text)
    if tuple(lines) != REPORT_LINES or len(text.splitlines()) != len(REPORT_LINES):
        raise ValueError(f"it has not the lines {', '.join(REPORT_LINES)}" if text else "it is empty")
    found = values_of({name.replace(" ", "_"): cell for name, cell in lines.items()})
    return report_of({**found, "inputs": len(lines["order"].split()), "outputs": MOST})


def check_same(name: str, reported: object, own: object) -> None:
    if reported != own:
        said, wanted = shortened(str(reported)), shortened(str(own))
        raise _ends.Refused(_ends.REFUSED, f"the report has the {name} {said}, and the file {wanted}")


def check_report(file: Pla, report: Report) -> None:
    """Raises Refused if a report has other inputs, names or sizes than the file's functions."""
    check_same("number of inputs", report.inputs, len(file.inputs))
    check_same("names", " ".join(report.names), " ".join(file.inputs[x] for x in report.order))
    check_same("sifted nodes", report.sifted_nodes, sum(levels(file.tables, report.sifted_order)))
    check_same("file order nodes", report.file_order_nodes, sum(levels(file.tables, own_order(file))))


def report_order(file: Pla) -> Optional[Wanted]:
    """The order of the report on standard input; nothing if that is closed, a terminal or a device."""
    if sys.stdin is None or stat.S_ISCHR(os.fstat(sys.stdin.fileno()).st_mode):
        return None
    try:
        report = report_in(_ends.content_of("-").decode(errors="replace"))
    except ValueError as error:
        raise _ends.Refused(_ends.REFUSED, NO_REPORT.format(error)) from None
    check_report(file, report)
    return Wanted(report.order, REPORTED, report.levels)


def own_order(file: Pla) -> tuple[int, ...]:
    return tuple(range(len(file.inputs)))


def part_of(file: Pla, wanted: Wanted) -> tuple[str, Diagram]:
    made = diagram(file, wanted.order)
    if wanted.levels not in (None, made.levels):
        counts = [" ".join(shortened(str(count)) for count in it) for it in (wanted.levels or (), made.levels)]
        raise _ends.Refused(_ends.REFUSED, f"the report has the level counts {counts[0]}, and the diagram {counts[1]}")
    return OWN if made.order == own_order(file) else wanted.said, made


def check_suffix(path: str, both: bool) -> None:
    suffix = suffix_of(path)
    if both and suffix in TEXTS:
        raise _ends.Refused(_ends.BAD_WORDS, f"{path}: a {suffix} file has one diagram, and --both draws two")


def command(given: argparse.Namespace) -> int:
    if given.out is not None:
        check_suffix(given.out, given.both)
        _ends.check_out(given.out, [given.file])
    file = read(given.file)
    own = Wanted(own_order(file), OWN)
    if given.order:
        wanted: Optional[Wanted] = Wanted(order_of(given.order, file.inputs), ANOTHER)
    else:
        wanted = report_order(file)
    if given.both and wanted is None:
        raise _ends.Refused(_ends.BAD_WORDS, NO_OTHER)
    parts = [part_of(file, wanted or own)]
    if given.both and parts[0][1].order != own.order:
        parts.insert(0, part_of(file, own))
    title = f"Decision diagram of {os.path.basename(given.file)}"
    if given.out is None:
        sys.stdout.write(dot_of(parts, title))
    else:
        write_diagrams(given.out, parts, title)
    return 0


def main(words: Optional[Sequence[str]] = None) -> int:
    parser = _ends.parser_of(NAME, __doc__)
    parser.add_argument("file", metavar="FILE")
    parser.add_argument("order", metavar="ORDER", nargs="*", default=[])
    parser.add_argument("-o", "--out", metavar="OUT", help="the file that is written, as its suffix says")
    parser.add_argument("--both", action="store_true", help="draw the file's order and another one side by side")
    return _ends.run(parser, command, words)


if __name__ == "__main__":
    sys.exit(main())
