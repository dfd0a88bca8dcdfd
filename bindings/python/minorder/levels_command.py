"""How many nodes the functions of a PLA file have under orders of one's own: the level counts and their sum.

An ORDER has the file's inputs, top first, by number as the line `order` of a report, or by name as its line `names`:
2,0,1 or "2 0 1"; one ORDER alone may also be several words: 2 0 1.
Exit status: 0; 1 if there is no library, 2 if the words are refused, 3 if FILE is, 4 out of memory, 5 if a read or write failed.
"""
from __future__ import annotations

import argparse
import sys
from typing import Optional, Sequence

from . import _ends
from ._arguments import shortened
from ._calls import levels
from ._errors import BadPla, NoLibrary
from ._orders import fault_of, numbered, orders_of
from ._tables import Pla
from ._writing import named
from .files import read_pla

NAME = "minorder-levels"


def read(path: str) -> Pla:
    try:
        return read_pla(path)
    except BadPla as fault:
        raise _ends.Refused(_ends.REFUSED, fault) from None
    except NoLibrary:
        raise
    except OSError as error:
        raise named(error, path) from None


def checked(words: Sequence[str], names: Sequence[str]) -> list[str]:
    """The order that the words spell, by number."""
    order = numbered(words, names)
    fault = fault_of(order, len(names), names if order != words else None)
    if fault:
        raise _ends.Refused(_ends.BAD_WORDS, f"{' '.join(map(shortened, words))}: {fault}" if words else fault)
    return order


def show(file: Pla, orders: Sequence[Sequence[str]]) -> None:
    """Prints a report of each order, by number."""
    for order in orders:
        counts = levels(file.tables, [int(word) for word in order])
        print("order:", *order)
        print("names:", *(file.inputs[int(word)] for word in order))
        print("levels:", *counts)
        print("nodes:", sum(counts), flush=True)


def command(given: argparse.Namespace) -> int:
    file = read(given.file)
    show(file, [checked(words, file.inputs) for words in orders_of(given.orders, file.inputs)])
    return 0


def main(words: Optional[Sequence[str]] = None) -> int:
    parser = _ends.parser_of(NAME, __doc__)
    parser.add_argument("file", metavar="FILE")
    parser.add_argument("orders", metavar="ORDER", nargs="+")
    return _ends.run(parser, command, words)


if __name__ == "__main__":
    sys.exit(main())
