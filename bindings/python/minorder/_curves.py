"""The share of the orders that have at most so many nodes, as a curve on which sizes are marked."""
from __future__ import annotations

import os
from fractions import Fraction
from itertools import accumulate
from math import ceil, floor
from typing import TYPE_CHECKING, Iterator, NamedTuple, Sequence

from ._arguments import shortened, two_decimals
from ._drawings import LINE, MUTED, RIM, counted
from ._plots import Dot, Line, Picture, Place, Text, width_of

if TYPE_CHECKING:
    from ._sizes import Sizes

# legible on a light and on a dark ground, and told from the curve
MARK = "#c2571a"
# the field of the curve, what stands around it, and a line of text
WIDTH, HEIGHT, LEFT, RIGHT, BELOW, ROW = 520.0, 240.0, 72.0, 24.0, 52.0, 18.0
# between a mark's line and its name
GAP = 5.0
TICKS = 8
TITLE = "How many nodes the orders have"
ACROSS, UPWARD = "nodes", "orders with at most so many nodes, %"

# distributions that stand one below the other, each with what its caption begins with
Parts = Sequence[tuple[str, "Sizes"]]


class Scale(NamedTuple):
    """Where the numbers between two stand on an axis."""
    low: Fraction
    high: Fraction
    start: float
    end: float

    def place(self, number: Fraction | int) -> float:
        return self.start + float((number - self.low) / (self.high - self.low)) * (self.end - self.start)

    def ticks(self, least: int) -> list[Fraction]:
        """The multiples of a round step that there is room for. The step is a multiple of the least one, unless that is 0."""
        step = Fraction(least or _power_below(self.high - self.low) / 10)
        for factor in _factors():
            if (self.high - self.low) / (factor * step) <= TICKS:
                break
        first, last = ceil(max(self.low, Fraction(0)) / (factor * step)), floor(self.high / (factor * step))
        return [number * factor * step for number in range(first, last + 1)]


class Mark(NamedTuple):
    """A number of nodes, and what it is called."""
    name: str
    nodes: Fraction
    colour: str

    @property
    def label(self) -> str:
        nodes = two_decimals(self.nodes) if self.nodes.denominator > 1 else str(self.nodes)
        return f"{shortened(self.name)}: {nodes}"


def _factors() -> Iterator[int]:
    power = 1
    while True:
        yield from (power, 2 * power, 5 * power)
        power *= 10


def _power_below(number: Fraction) -> Fraction:
    """The greatest power of ten that isn't above a number from 0 to 100."""
    power = Fraction(100)
    while power > number:
        power /= 10
    return power


def picture_of(parts: Parts) -> Picture:
    found: list[Picture] = []
    for caption, sizes in parts:
        found.append(_Curve(caption, sizes, sum(it.height for it in found)).picture())
    return Picture(
        max(it.width for it in found), sum(it.height for it in found), f"{TITLE}: {', '.join(it.title for it in found)}",
        [line for it in found for line in it.lines], [dot for it in found for dot in it.dots],
        [text for it in found for text in it.texts])


def _marks_of(sizes: Sizes) -> list[Mark]:
    """The optimum, the mean and what else is marked, as far as the sizes are counted."""
    own = [Mark("optimum", Fraction(sizes.fewest), MUTED), Mark("mean", sizes.mean, MUTED)]
    marks = own + [Mark(name, Fraction(nodes), MARK) for name, nodes in sizes.marks]
    return [mark for mark in marks if sizes.bound is None or mark.nodes <= sizes.bound]


def _rows_of(marks: Sequence[Mark], across: Scale) -> list[int]:
    """The row of each mark's name, from below. It stands to the right of its line, above the names whose lines it would hide."""
    places = [across.place(mark.nodes) for mark in marks]
    rows: dict[int, int] = {}
    for i in sorted(range(len(marks)), key=lambda i: (-places[i], -i)):
        end = places[i] + width_of(marks[i].label) + 3 * GAP
        rows[i] = max((row + 1 for j, row in rows.items() if places[j] <= end), default=0)
    return [rows[i] for i in range(len(marks))]


def _across(sizes: Sizes, marks: Sequence[Mark]) -> Scale:
    numbers = [*(mark.nodes for mark in marks), Fraction(sizes.most if sizes.bound is None else sizes.bound)]
    low, high = min(numbers), max(numbers)
    around = (high - low) / 25 or Fraction(1)
    return Scale(low - around, high + around, LEFT, LEFT + WIDTH)


class _Curve:
    """The curve of one distribution, from a height of the picture on."""

    def __init__(self, caption: str, sizes: Sizes, top: float) -> None:
        self.sizes, self.top = sizes, top
        said = f"{sizes.total:,} order{'s' * (sizes.total != 1)}"
        said += "" if sizes.bound is None else f", by size up to {counted(sizes.bound)}"
        self.caption = f"{shortened(os.path.basename(caption))}: {said}" if caption else said
        self.marks = _marks_of(sizes)
        self.across = _across(sizes, self.marks)
        self.rows = _rows_of(self.marks, self.across)
        self.over = top + ROW * (2 + max(self.rows, default=0)) + GAP
        self.under = self.over + HEIGHT
        self.upward = Scale(Fraction(0), 100 * sizes.share(sizes.last) or Fraction(100), self.under, self.over)

    def picture(self) -> Picture:
        lines = [*self._grid(), *self._leaders(), Line(self._points(), RIM, 2)]
        texts = [Text((LEFT, self.top + ROW - GAP), self.caption), *self._scales(), *self._names()]
        ends = [text.place[0] + width_of(text.text) for text in texts if text.anchor == "start"]
        width = max(LEFT + WIDTH + RIGHT, *(end + GAP for end in ends))
        return Picture(width, self.under + BELOW - self.top, self.caption, lines, list(self._dots()), texts)

    def _points(self) -> list[Place]:
        """The steps of the curve, one at most for each half of a pixel."""
        columns: dict[int, Place] = {}
        for nodes, orders in zip(self.sizes, accumulate(self.sizes.values())):
            x = self.across.place(nodes)
            columns[round(2 * x)] = x, self.upward.place(Fraction(100 * orders, self.sizes.total))
        points = [(LEFT, self.under)]
        for x, y in columns.values():
            points += [(x, points[-1][1]), (x, y)]
        end = LEFT + WIDTH if self.sizes.bound is None else self.across.place(self.sizes.bound)
        return [*points, (end, points[-1][1])]

    def _grid(self) -> Iterator[Line]:
        for tick in self.upward.ticks(0):
            y = self.upward.place(tick)
            yield Line([(LEFT, y), (LEFT + WIDTH, y)], width=0.5 if tick else 1)
        for tick in self.across.ticks(1):
            x = self.across.place(tick)
            yield Line([(x, self.under), (x, self.under + GAP)])

    def _scales(self) -> Iterator[Text]:
        """The numbers and the names of the axes."""
        for tick in self.upward.ticks(0):
            yield Text((LEFT - 8, self.upward.place(tick) + 4), f"{float(tick):g}", "end")
        for tick in self.across.ticks(1):
            yield Text((self.across.place(tick), self.under + ROW), str(tick), "middle")
        yield Text((LEFT + WIDTH / 2, self.under + 2 * ROW), ACROSS, "middle")
        yield Text((18, (self.over + self.under) / 2), UPWARD, "middle", is_upward=True)

    def _heights(self) -> Iterator[tuple[Mark, float, float]]:
        """Each mark, where its line stands, and the base line of its name."""
        for mark, row in zip(self.marks, self.rows):
            yield mark, self.across.place(mark.nodes), self.over - GAP - ROW * row

    def _leaders(self) -> Iterator[Line]:
        for mark, x, y in self._heights():
            yield Line([(x, y - ROW / 2), (x, self.under)], LINE if mark.colour == MUTED else mark.colour, 1, "2 3")

    def _names(self) -> Iterator[Text]:
        for mark, x, y in self._heights():
            yield Text((x + GAP, y), mark.label, colour=mark.colour)

    def _dots(self) -> Iterator[Dot]:
        for mark in self.marks:
            nodes, total = floor(mark.nodes), self.sizes.total
            place = self.across.place(mark.nodes), self.upward.place(100 * self.sizes.share(nodes))
            fewer = self.sizes.rank(ceil(mark.nodes))
            said = counted(nodes) if nodes == mark.nodes else f"{two_decimals(mark.nodes)} nodes"
            yield Dot(place, mark.colour, f"{mark.name}: {said}; {fewer:,} of {total:,} orders have fewer")
