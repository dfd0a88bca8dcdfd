"""Diagrams as values: what they are evaluated at, folded into and written as."""
from __future__ import annotations

import json
import os
from collections import Counter
from dataclasses import dataclass, fields
from functools import cached_property
from typing import Callable, Iterator, NamedTuple, Optional, Sequence, Tuple, TypeVar, Union, cast

from . import _drawings
from ._arguments import in_turn, names_of, order_of, shown, whole
from ._drawings import counted
from ._errors import BadPath, BadShape
from ._truth_tables import TruthTable
from ._writing import path_of, suffix_among, write_file

T = TypeVar("T")
# a notebook shows larger ones as bars
MOST_SHOWN = 300


class Node(NamedTuple):
    """A decision node: its variable, and its children where that is 0 and where it is 1. The children 0 and 1 are the
    terminals, and k + 2 is node k of the diagram."""
    variable: int
    low: int
    high: int


@dataclass(frozen=True, repr=False)
class Diagram:
    """The reduced shared diagram of functions under an order, top first, as ``diagram`` makes it.

    ``nodes`` stand level by level from below, children before parents. ``roots`` has the root of each function, numbered as
    children are. ``inputs`` and ``outputs`` are the names of the variables and of the functions. Its length is the number of
    nodes. Raises BadArgument, BadShape, BadOrder.
    """
    order: Tuple[int, ...]
    nodes: Tuple[Node, ...]
    roots: Tuple[int, ...]
    inputs: Tuple[str, ...]
    outputs: Tuple[str, ...]

    def __post_init__(self) -> None:
        order = order_of(self.order)
        nodes = _nodes_of(self.nodes, len(order))
        roots = tuple(whole(root, "roots") for root in in_turn(self.roots, "roots", "sequence of roots"))
        for root in roots:
            if not 0 <= root < len(nodes) + 2:
                raise BadShape(f"roots: {shown(root)}: there are {counted(len(nodes))} and the terminals")
        names = names_of(self.inputs, "inputs", len(order)), names_of(self.outputs, "outputs", len(roots))
        for field, value in zip(fields(self), (order, nodes, roots, *names)):
            object.__setattr__(self, field.name, value)

    def __len__(self) -> int:
        return len(self.nodes)

    def __repr__(self) -> str:
        return f"<Diagram of {counted(len(self))}, order={self.order}, levels={self.levels}>"

    @property
    def levels(self) -> Tuple[int, ...]:
        """The level counts, top first."""
        counts = Counter(node.variable for node in self.nodes)
        return tuple(counts[variable] for variable in self.order)

    def evaluate(self, point: int) -> Tuple[bool, ...]:
        """The value of each function at a point, whose bit i is the value of variable i. Raises BadArgument, BadShape."""
        number, points = whole(point, "point"), 1 << len(self.order)
        if not 0 <= number < points:
            raise BadShape(f"point: {shown(number)}: the points of {len(self.order)} variables are 0 to {points - 1}")

        def value(at: int) -> bool:
            while at > 1:
                node = self.nodes[at - 2]
                at = node.high if number >> node.variable & 1 else node.low
            return at == 1

        return tuple(map(value, self.roots))

    def fold(self, zero: T, one: T, node: Callable[[int, T, T], T]) -> Tuple[T, ...]:
        """What ``node(variable, low, high)`` makes of each root, called once for each node, from below: ``low`` and ``high``
        are what its children became, the terminals being ``zero`` and ``one``."""
        made = [zero, one]
        for variable, low, high in self.nodes:
            made.append(node(variable, made[low], made[high]))
        return tuple(made[root] for root in self.roots)

    def tables(self) -> Tuple[TruthTable, ...]:
        """The truth table of each function, with the names of the variables."""
        inputs = len(self.order)
        height = {variable: inputs - 1 - level for level, variable in enumerate(self.order)}

        # a table of the lowest variables of the order, and how many they are
        def node(variable: int, low: Tuple[int, int], high: Tuple[int, int]) -> Tuple[int, int]:
            below = height[variable]
            return _widened(low, below) | _widened(high, below) << (1 << below), below + 1

        places = [0]
        for variable in self.order[::-1]:
            places += [place | 1 << variable for place in places]
        found = (_widened(table, inputs) for table in self.fold((0, 0), (1, 0), node))
        return tuple(TruthTable(_permuted(table, places), inputs, self.inputs) for table in found)

    # ---- as texts and pictures

    def to_dot(self) -> str:
        """The diagram in Graphviz's language."""
        return _drawings.dot_of([("", self)], self._title)

    def to_json(self) -> str:
        """The diagram as an object of JSON: inputs, outputs, order, levels, nodes (each variable, low, high), roots."""
        keys = ("inputs", "outputs", "order", "levels", "nodes", "roots")
        return json.dumps({key: getattr(self, key) for key in keys}, allow_nan=False) + "\n"

    def save(self, path: Union[str, "os.PathLike[str]"]) -> None:
        """Writes a file whose suffix says what: .dot; .svg, .png or .pdf, by Graphviz; .json; .bdd, what BuDDy's ``bdd_save``
        writes, of each function behind the one before. Raises BadArgument, BadPath, NoGraphviz, and OSError if the file can't
        be written."""
        write_diagrams(path_of(path), [("", self)], self._title)

    @property
    def _title(self) -> str:
        return f"Decision diagram of {', '.join(self.outputs)}"

    @cached_property
    def _svg(self) -> Optional[str]:
        if len(self) > MOST_SHOWN:
            return None
        try:
            return _drawings.picture_of([("", self)], self._title, ".svg").decode()
        except OSError:
            return None

    def _repr_svg_(self) -> Optional[str]:
        return self._svg

    def _repr_html_(self) -> Optional[str]:
        return _drawings.bars_of(self) if self._svg is None else None


def _nodes_of(nodes: object, variables: int) -> Tuple[Node, ...]:
    """Nodes of so many variables that stand from below. Raises BadArgument, BadShape."""
    given = in_turn(nodes, "nodes", "sequence of nodes")
    # the library's are of these types, and many
    are_plain = {*map(type, given)} <= {Node} and {type(it) for node in given for it in cast(Node, node)} <= {int}
    found = tuple(cast(Sequence[Node], given) if are_plain else map(_node_of, given))
    for number, (variable, low, high) in enumerate(found, 2):
        if not (0 <= variable < variables and 0 <= low < number and 0 <= high < number):
            allowed = f"its variable is 0 to {variables - 1}, a child 0 to {number - 1}"
            raise BadShape(f"nodes: {shown(found[number - 2])}: {allowed}")
    return found


def _node_of(it: object) -> Node:
    numbers = [whole(number, "nodes") for number in in_turn(it, "nodes", "node")]
    if len(numbers) != 3:
        raise BadShape(f"nodes: {shown(it)} is no node: that has a variable and two children")
    return Node(*numbers)


def _widened(table: Tuple[int, int], variables: int) -> int:
    """A table of so many variables that doesn't depend on those above its own."""
    bits, own = table
    for above in range(own, variables):
        bits |= bits << (1 << above)
    return bits


def _permuted(table: int, places: list[int]) -> int:
    """The table with bit p at the place places[p]."""
    digits = f"{table:0{len(places)}b}"
    found = [""] * len(places)
    for place, digit in zip(places, reversed(digits)):
        found[~place] = digit
    return int("".join(found), 2)


# ---- files

def _reached(diagram: Diagram, root: int) -> list[int]:
    """The numbers of the nodes below a root and its own, children before parents."""
    reached = {root}
    for number in range(root, 1, -1):
        if number in reached:
            _, *children = diagram.nodes[number - 2]
            reached.update(children)
    return sorted(reached - {0, 1})


def _buddy_lines(diagram: Diagram) -> Iterator[str]:
    """What BuDDy's ``bdd_save`` writes, of each function in turn."""
    places = " ".join(str(diagram.order.index(variable)) for variable in range(len(diagram.order)))
    for root in diagram.roots:
        if root < 2:
            yield f"0 0 {root}\n"
            continue
        numbers = _reached(diagram, root)
        yield f"{len(numbers)} {len(diagram.order)}\n{places}\n"
        for number in numbers:
            yield "{} {} {} {}\n".format(number, *diagram.nodes[number - 2])


TEXTS: dict[str, Callable[[Diagram], str]] = {".bdd": lambda it: "".join(_buddy_lines(it)), ".json": Diagram.to_json}
SUFFIXES = (*TEXTS, ".dot", *_drawings.PICTURES)


def suffix_of(path: str) -> str:
    """What the name of a diagram's file ends in. Raises BadPath."""
    return suffix_among(path, SUFFIXES, "a diagram's file")


def write_diagrams(path: str, parts: _drawings.Parts, title: str) -> None:
    """Writes diagrams side by side, or the first one's text, as the suffix says, as a whole or not at all."""
    suffix = suffix_of(path)
    if suffix in TEXTS:
        content = TEXTS[suffix](parts[0][1]).encode("ascii")
    elif suffix == ".dot":
        content = _drawings.dot_of(parts, title).encode()
    else:
        nodes = sum(len(it) for _, it in parts)
        if nodes > _drawings.MOST:
            drawn = "the diagram has" if len(parts) == 1 else "the diagrams have"
            raise BadPath(f"{path}: {drawn} {nodes} nodes, and Graphviz draws {_drawings.MOST} in a few seconds")
        content = _drawings.picture_of(parts, title, suffix)
    write_file(path, content)
