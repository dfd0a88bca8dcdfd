"""How many orders have each size, as a value."""
from __future__ import annotations

import os
from bisect import bisect_left
from dataclasses import dataclass, replace
from decimal import Decimal
from fractions import Fraction
from functools import cached_property
from itertools import accumulate
from math import ceil
from typing import Iterable, Iterator, Mapping, Optional, Tuple, Union

from . import _size_files
from ._arguments import is_text, shown, two_decimals, whole
from ._calls import Functions, Order, levels_of, variables_of
from ._errors import BadArgument, BadSize, MinorderError
from ._writing import path_of

Rows = Tuple[Tuple[int, int], ...]
BEYOND = "beyond {} nodes, up to which sizes are counted"
# no diagram of 16 functions of 16 variables has so many nodes
MOST_NODES = 1 << 20


@dataclass(frozen=True)
class Orders:
    """What all orders have, or all that keep given pairs: how many they are, the fewest ``nodes`` and how many orders are
    ``optimal`` with so many, the ``most`` nodes and how many orders are ``worst`` with so many, and the ``mean``."""
    count: int
    nodes: int
    optimal: int
    most: int
    worst: int
    mean: Fraction


@dataclass(frozen=True, repr=False, eq=False)
class Sizes(Mapping[int, int]):
    """How many orders have each size, as ``sizes`` counts them: a mapping from each number of nodes that some order has, in
    rising order, to the number of these orders.

    ``total`` is the number of all orders, ``fewest`` and ``most`` are the least and the greatest size, ``mean`` is exact;
    ``figures`` has them as ``orders`` gives them. ``bound`` is None, but where sizes were counted up to a bound below the
    greatest: then it is this bound, the mapping ends there, and what needs larger sizes is refused with BadSize, while
    ``total``, ``most`` and ``mean`` are those of all orders nevertheless.

    Where a size is given, an order stands for its own, which is counted. ``marks`` are the sizes that are marked, by name. A
    notebook shows the share of the orders that have at most so many nodes as a curve.
    """
    figures: Orders
    bound: Optional[int]
    marks: Tuple[Tuple[str, int], ...]
    _rows: Rows
    _functions: Functions

    @cached_property
    def _counts(self) -> Mapping[int, int]:
        return dict(self._rows)

    @cached_property
    def _up_to(self) -> Tuple[int, ...]:
        """How many orders have at most so many nodes as each row."""
        return tuple(accumulate(self._counts.values()))

    def __getitem__(self, size: int) -> int:
        return self._counts[size]

    def __iter__(self) -> Iterator[int]:
        return iter(self._counts)

    def __len__(self) -> int:
        return len(self._rows)

    def __repr__(self) -> str:
        bound = "" if self.bound is None else f", counted up to {self.bound}"
        return f"<Sizes of {self.total} orders: {self.fewest} to {self.most} nodes, mean {two_decimals(self.mean)}{bound}>"

    @property
    def total(self) -> int:
        return self.figures.count

    @property
    def fewest(self) -> int:
        return self.figures.nodes

    @property
    def most(self) -> int:
        return self.figures.most

    @property
    def mean(self) -> Fraction:
        return self.figures.mean

    @property
    def last(self) -> int:
        """The size up to which orders are counted."""
        return self.most if self.bound is None else self.bound

    def quantile(self, q: Union[float, Fraction, Decimal]) -> int:
        """The least size that at least this share of the orders, 0 to 1, don't exceed; ``quantile(0.5)`` is the median. Raises
        BadArgument, BadSize."""
        needed = ceil(_share_of(q) * self.total)
        place = bisect_left(self._up_to, max(1, needed))
        if place == len(self):
            raise BadSize(f"q: {shown(q)}: {BEYOND.format(self.last)}")
        return self._rows[place][0]

    def rank(self, size: Union[int, Order]) -> int:
        """How many orders have fewer nodes. Raises BadArgument, BadShape, BadOrder, BadSize."""
        given = self._size_of(size, "size")
        self._check_bound(given - 1, given, "size")
        return self._up_to_size(given - 1)

    def share(self, size: Union[int, Order]) -> Fraction:
        """The share of the orders that have at most so many nodes. Raises BadArgument, BadShape, BadOrder, BadSize."""
        given = self._size_of(size, "size")
        self._check_bound(given, given, "size")
        return Fraction(self._up_to_size(given), self.total)

    def marked(self, /, **marks: Union[int, Order]) -> Sizes:
        """The same with sizes that the curve names, each ``name=size`` or ``name=order``; names with spaces are written
        ``**{"the name": size}``. Raises BadArgument, BadShape, BadOrder, BadSize.

            >>> products = minorder.read_pla("examples/products3.pla")
            >>> minorder.sizes(products).marked(file=range(6), best=minorder.exact(products)).marks
            (('file', 14), ('best', 6))
        """
        found = dict(self.marks)
        for name, size in marks.items():
            if not name.strip() or not is_text(name, "surrogateescape"):
                raise BadArgument(f"marked: {name!r} is no name")
            found[name] = self._size_of(size, f"marked: {name}")
            self._check_bound(found[name], found[name], f"marked: {name}")
        return replace(self, marks=tuple(found.items()))

    def _size_of(self, size: Union[int, Order], named: str) -> int:
        """A number of nodes, or that of an order."""
        if not isinstance(size, Iterable):
            return _nodes_of(size, named)
        try:
            return sum(levels_of(self._functions, variables_of(size, self._functions.inputs)))
        except MinorderError as error:
            raise type(error)(f"{named}: {str(error).partition(': ')[2]}") from None

    def _check_bound(self, size: int, given: int, named: str) -> None:
        """Raises BadSize, with the number that was given, if orders of so many nodes aren't counted."""
        if self.bound is not None and size > self.bound:
            raise BadSize(f"{named}: {given}: {BEYOND.format(self.bound)}")

    def _up_to_size(self, size: int) -> int:
        """How many orders have at most so many nodes."""
        place = bisect_left(self._rows, (size + 1, 0))
        return self._up_to[place - 1] if place else 0

    # ---- as pictures and files

    def save(self, path: Union[str, "os.PathLike[str]"]) -> None:
        """Writes a file whose suffix says what: .svg; .png or .pdf, by matplotlib; .csv, a line for each size; .json. Raises
        BadArgument, BadPath, NoMatplotlib, and OSError if the file can't be written."""
        _size_files.write_sizes(path_of(path), [("", self)])

    def _repr_svg_(self) -> str:
        return _size_files.content_of(".svg", [("", self)]).decode()


def _nodes_of(size: object, named: str) -> int:
    """A number of nodes that diagrams may have. Raises BadArgument, BadSize."""
    number = whole(size, named)
    if not 0 <= number < MOST_NODES:
        raise BadSize(f"{named}: {shown(number)}: no diagram has so many nodes; sizes are 0 to {MOST_NODES - 1}")
    return number


def _share_of(q: object) -> Fraction:
    """A share from 0 to 1, a decimal fraction as it is written."""
    if isinstance(q, (str, bool)):
        raise BadArgument(f"q: {shown(q)} is no share")
    try:
        share = Fraction(str(q))
    except (ValueError, ZeroDivisionError):
        raise BadArgument(f"q: {shown(q)} is no share") from None
    if not 0 <= share <= 1:
        raise BadSize(f"q: {shown(q)}: a share is 0 to 1")
    return share
