"""Irredundant covers by prime-like products (Morreale 1970, Minato 1993), with truth tables as
whole numbers: bit p is the value at point p."""
from __future__ import annotations

from typing import Sequence


def products(inputs: int, ones: int) -> list[str]:
    """Products, as a PLA file spells them, that cover exactly the points of a truth table; none of them can be left out."""
    full = [(1 << (1 << count)) - 1 for count in range(inputs + 1)]
    seen: dict[tuple[int, int, int], tuple[list[str], int]] = {}

    def cover(least: int, most: int, count: int) -> tuple[list[str], int]:
        """Products on the first variables that cover all of `least` and nothing outside `most`, and what they cover."""
        if not least:
            return [], 0
        if most == full[count]:
            return ["-" * count], most
        if (least, most, count) not in seen:
            half, below = 1 << count - 1, full[count - 1]
            least0, least1, most0, most1 = least & below, least >> half, most & below, most >> half
            needs0, covered0 = cover(least0 & ~most1, most0, count - 1)
            needs1, covered1 = cover(least1 & ~most0, most1, count - 1)
            both, covered = cover(least0 & ~covered0 | least1 & ~covered1, most0 & most1, count - 1)
            terms = [term + "0" for term in needs0] + [term + "1" for term in needs1] + [term + "-" for term in both]
            seen[least, most, count] = terms, covered0 | covered | (covered1 | covered) << half
        return seen[least, most, count]

    return cover(ones, ones, inputs)[0]


def points(inputs: int, tables: Sequence[int]) -> list[str]:
    """The lines of all points at which some output is 1."""
    values = [f"{ones:0{1 << inputs}b}"[::-1] for ones in tables]
    rows = []
    for point in range(1 << inputs):
        row = "".join(value[point] for value in values)
        if "1" in row:
            rows.append("".join(str(point >> i & 1) for i in range(inputs)) + " " + row)
    return rows


def lines(inputs: int, tables: Sequence[int]) -> list[str]:
    """The lines of a PLA file with an output for each truth table: products, of which equal ones of several outputs stand
    once, or points where these are fewer."""
    rows: dict[str, list[str]] = {}
    for output, ones in enumerate(tables):
        for term in products(inputs, ones):
            rows.setdefault(term, ["0"] * len(tables))[output] = "1"
    found = [f"{term} {''.join(row)}" for term, row in sorted(rows.items())]
    every = 0
    for ones in tables:
        every |= ones
    return found if len(found) <= bin(every).count("1") else points(inputs, tables)
