"""What all orders have: how many nodes, in how many orders, and the widths that these are sums of."""
from __future__ import annotations

from ctypes import Array, byref, c_size_t, c_uint32, c_uint64
from dataclasses import dataclass
from fractions import Fraction
from typing import Dict, Iterable, Optional, Tuple

from ._arguments import shown, whole
from ._calls import Functions, Order, done, functions_of, most_nodes, pairs_of, variables_of
from ._errors import BadShape, BadSize
from ._library import Figures, Pair, library
from ._sizes import Orders, Rows, Sizes
from ._tables import Tables
from ._threads import aside

# no diagram has so many nodes
NO_BOUND = (1 << 32) - 1

Pairs = Tuple["Array[Pair]", int]


@dataclass(frozen=True, repr=False)
class Widths:
    """How many nodes the level of each variable has over each set of others, as ``widths`` finds them. The bit i of a set's mask
    is 1 where variable i is a member. ``numpy.asarray`` makes an array of them, without a copy, whose entry ``[mask, x]`` is
    ``width(x, mask)``."""
    inputs: int
    _content: bytes

    @property
    def buffer(self) -> memoryview:
        """All of them, to be read at ``[mask, x]``."""
        return memoryview(self._content).cast("B").cast("I", (1 << self.inputs, self.inputs))

    @property
    def __array_interface__(self) -> Dict[str, object]:
        return {"version": 3, "shape": (1 << self.inputs, self.inputs), "typestr": "<u4", "data": self._content}

    def __repr__(self) -> str:
        return f"<Widths of {self.inputs} variables>"

    def width(self, x: int, mask: int) -> int:
        """How many nodes the level of the variable x has where the other members of the set are just those below it; 0 where
        x isn't a member. Raises BadArgument, BadShape."""
        variable = whole(x, "x")
        if not 0 <= variable < self.inputs:
            raise BadShape(f"x: {shown(variable)}: variables are 0 to {self.inputs - 1}")
        return self.row(mask)[variable]

    def row(self, mask: int) -> Tuple[int, ...]:
        """The widths of all variables over a set. Raises BadArgument, BadShape."""
        number = whole(mask, "mask")
        if not 0 <= number < 1 << self.inputs:
            raise BadShape(f"mask: {shown(number)}: the masks of {self.inputs} variables are 0 to {(1 << self.inputs) - 1}")
        start = 4 * self.inputs * number
        return tuple(memoryview(self._content)[start:start + 4 * self.inputs].cast("I"))

    def cost(self, order: Order) -> int:
        """The number of nodes under an order: the sum of the widths of its variables, each over those below. Raises BadArgument,
        BadShape, BadOrder."""
        mask = nodes = 0
        for variable in reversed(variables_of(order, self.inputs)):
            mask |= 1 << variable
            nodes += self.row(mask)[variable]
        return nodes


def orders(tables: Tables, inputs: Optional[int] = None, above: Iterable[Tuple[int, int]] = ()) -> Orders:
    """What all orders have: how many they are, the fewest and the most nodes, in how many orders each, and the mean. The
    arguments are those of ``exact``, and so is what it raises; with ``above`` it is about the orders that keep the pairs.

        >>> minorder.orders(lambda a, b, s: b if s else a)
        Orders(count=6, nodes=3, optimal=2, most=5, worst=2, mean=Fraction(4, 1))
    """
    functions = functions_of(tables, inputs)
    return _figures_of(functions, pairs_of(above, functions.inputs))


def _figures_of(functions: Functions, pairs: Pairs) -> Orders:
    found = Figures()
    done(aside(functions.inputs, library().minorder_orders_with_pairs, *functions.given(), *pairs, byref(found)))
    return Orders(
        found.orders, found.fewest_nodes, found.optimal_orders, found.most_nodes, found.worst_orders,
        Fraction(found.total_nodes, found.orders))


def sizes(
        tables: Tables, inputs: Optional[int] = None, above: Iterable[Tuple[int, int]] = (), most: Optional[int] = None,
) -> Sizes:
    """How many orders have each size; with ``above`` of those that keep the pairs, with ``most`` up to so many nodes, which
    takes less memory where few orders have so few. Raises what ``exact`` does, and BadSize.

        >>> found = minorder.sizes(lambda a, b, s: b if s else a)
        >>> found, dict(found)
        (<Sizes of 6 orders: 3 to 5 nodes, mean 4.00>, {3: 2, 4: 2, 5: 2})
        >>> found.rank(5), found.share(3), found.quantile(0.5)
        (4, Fraction(1, 3), 4)
    """
    functions = functions_of(tables, inputs)
    pairs = pairs_of(above, functions.inputs)
    if most is None:
        rows = _rows_of(functions, pairs, NO_BOUND)
        return Sizes(_sums_of(rows), None, (), rows, functions)
    bound = whole(most, "most")
    if bound < 0:
        raise BadSize(f"most: {shown(bound)}: a bound is at least 0 nodes")
    figures = _figures_of(functions, pairs)
    rows = _rows_of(functions, pairs, min(bound, figures.most))
    return Sizes(figures, bound if bound < figures.most else None, (), rows, functions)


def _rows_of(functions: Functions, pairs: Pairs, most: int) -> Rows:
    """Each size up to a bound, with the number of the orders that have it."""
    room = 1 + min(most, most_nodes(functions.inputs, functions.outputs))
    found, fewest, count = (c_uint64 * room)(), c_uint32(), c_size_t()
    given = *functions.given(), *pairs, most, found, room
    done(aside(functions.inputs, library().minorder_sizes_with_pairs, *given, byref(fewest), byref(count)))
    return tuple((nodes, number) for nodes, number in enumerate(found[:count.value], fewest.value) if number)


def _sums_of(rows: Rows) -> Orders:
    """What all orders have, of all their sizes."""
    count, (nodes, optimal), (most, worst) = sum(number for _, number in rows), rows[0], rows[-1]
    return Orders(count, nodes, optimal, most, worst, Fraction(sum(size * number for size, number in rows), count))


def widths(tables: Tables, inputs: Optional[int] = None) -> Widths:
    """The widths of all variables over all sets of others, of which one's own recurrences are made. Raises BadArgument, BadShape,
    MemoryError.

        >>> found = minorder.widths(lambda a, b, s: b if s else a)
        >>> found.row(0b111), found.width(0, 0b111), found.cost([2, 0, 1])
        ((1, 1, 1), 1, 3)
    """
    functions = functions_of(tables, inputs)
    places = functions.inputs << functions.inputs
    found = (c_uint32 * places)()
    done(aside(functions.inputs, library().minorder_widths_with_lengths, *functions.given(), found, places))
    return Widths(functions.inputs, bytes(found))
