"""Why a method's own number of nodes under an order differs from what is counted."""
from __future__ import annotations

from functools import lru_cache
from typing import Iterator, Sequence

Order = Sequence[int]
UNKNOWN = "another count, or another function"


def why(tables: Sequence[int], order: Order, own: int) -> str:
    """How a count that gives the own number differs from that of the order, without complement edges and constants; one
    difference is named before two."""
    found = []
    for read, other in readings(order):
        plain, edges = sizes(tables, other)
        counts = {"": plain, "a constant": plain + 1, "both constants": plain + 2, "complement edges": edges,
                  "complement edges and a constant": edges + 1}
        for counted in (counted for counted, size in counts.items() if size == own and (counted or read)):
            said = " of ".join(filter(None, (counted and f"it counts {counted}", read)))
            found.append((bool(counted and read), said))
    return min(found, key=lambda it: it[0])[1] if found else UNKNOWN


def readings(order: Order) -> Iterator[tuple[str, list[int]]]:
    """What is read as an order by mistake, the order itself first."""
    yield "", list(order)
    yield "the order from the bottom", list(reversed(order))
    yield "the inputs' levels in place of an order", [order.index(x) for x in range(len(order))]
    yield "the inputs turned, the last one as 0", [len(order) - 1 - x for x in order]


@lru_cache(maxsize=None)
def variable(i: int, inputs: int) -> int:
    """The table of a variable."""
    block = 1 << (1 << i)
    return ((1 << (1 << inputs)) - 1) // (block * block - 1) * (block - 1) << (1 << i)


def exchanged(table: int, i: int, j: int, inputs: int) -> int:
    """The table with the variables i < j exchanged."""
    shift = (1 << j) - (1 << i)
    other = (table >> shift ^ table) & variable(i, inputs) & ~variable(j, inputs)
    return table ^ other ^ other << shift


def ordered(table: int, order: Order) -> int:
    """The table whose highest variable is the order's first one, and so on down."""
    inputs, at = len(order), list(range(len(order)))
    for place, x in enumerate(reversed(order)):
        here = at.index(x)
        if here != place:
            table = exchanged(table, place, here, inputs)
            at[place], at[here] = at[here], at[place]
    return table


def sizes(tables: Sequence[int], order: Order) -> tuple[int, int]:
    """The decision nodes of the shared diagram without complement edges, and with them."""
    plain = {ordered(table, order) for table in tables}
    classes = {min(it, it ^ (1 << (1 << len(order))) - 1) for it in plain}
    counts = [0, 0]
    for width in reversed(range(len(order))):
        half = 1 << width
        ones = (1 << half) - 1
        for kind, level in enumerate((plain, classes)):
            parts = [(it >> half, it & ones) for it in level]
            counts[kind] += sum(high != low for high, low in parts)
            below = {part for both in parts for part in both}
            if kind == 0:
                plain = below
            else:
                classes = {min(it, it ^ ones) for it in below}
    return counts[0], counts[1]
