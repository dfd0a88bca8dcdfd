"""Which share of all orders of a function is better than an order: has fewer nodes."""
from __future__ import annotations

import gzip
from fractions import Fraction
from functools import lru_cache
from itertools import accumulate
from typing import Mapping, NamedTuple, Optional

from ._rows import place
from ._standing import Standing


class AllOrders(NamedTuple):
    """All orders of a function: the fewest nodes, and how many orders have at most so many, one more, and on to the most."""
    fewest: int
    up_to: tuple[int, ...]

    def within(self, nodes: int) -> int:
        """How many orders have at most so many nodes."""
        return self.up_to[min(nodes - self.fewest, len(self.up_to) - 1)] if nodes >= self.fewest else 0

    def better(self, nodes: Optional[int]) -> Fraction:
        """The share of the orders that have fewer nodes; 1 of None, which is a late run."""
        return Fraction(1) if nodes is None else Fraction(self.within(nodes - 1), self.up_to[-1])

    def middle(self, nodes: int) -> Fraction:
        """The share of the orders that have fewer nodes, with half of those that have as many. Over all orders its mean is one
        half."""
        return Fraction(self.within(nodes - 1) + self.within(nodes), 2 * self.up_to[-1])


def read_sizes(path: str) -> dict[str, AllOrders]:
    """By function all its orders."""
    found = {}
    with gzip.open(path, "rt", encoding="utf-8") as file:
        next(file)
        for line in file:
            name, fewest, counts = line.split(",")
            found[name] = AllOrders(int(fewest), tuple(accumulate(map(int, counts.split()))))
    return found


@lru_cache(maxsize=None)
def all_orders() -> dict[str, AllOrders]:
    """Those of the table of this package."""
    return read_sizes(place("sizes.csv.gz"))


def mean_better(standing: Standing, orders: Mapping[str, AllOrders]) -> Optional[float]:
    """The mean over the functions of the share of better orders, where one that is late, missing or without an order has 1;
    None of no functions."""
    nodes = {line.name: line.counted_nodes for line in standing.ended}
    shares = [orders[name].better(nodes.get(name)) for name in standing.worst_nodes]
    return float(sum(shares) / len(shares)) if shares else None
