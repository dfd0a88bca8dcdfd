"""The nodes that each run of a method ends with, counted by the library."""
from __future__ import annotations

from typing import NamedTuple, Optional, Sequence

from . import benchmarks
from ._calls import levels
from ._differences import why
from ._library import library
from ._processes import each
from ._progress import progress
from ._results import Run

Order = tuple[int, ...]
# an order with the method's own number of nodes under it
Asked = tuple[Order, Optional[int]]


class Counted(NamedTuple):
    """A run, its nodes, None if it was late, and why the method's own number of nodes is another one, if it is."""
    run: Run
    nodes: Optional[int]
    difference: str


def counted_orders(task: tuple[str, list[Asked]]) -> list[tuple[int, str]]:
    """The nodes of a function's diagram under each order, without complement edges, and why its own number is another one."""
    name, asked = task
    tables, sizes, found = benchmarks.entry(name).tables(), dict[Order, int](), []
    for order, own in asked:
        if order not in sizes:
            sizes[order] = sum(levels(tables, order))
        differs = own is not None and own != sizes[order]
        found.append((sizes[order], why(tables, order, own or 0) if differs else ""))
    return found


def counted(runs: Sequence[Run], jobs: Optional[int] = None) -> list[Counted]:
    """The runs with their nodes, several functions at a time. Raises NoLibrary, MemoryError."""
    asked: dict[str, dict[Asked, None]] = {}
    for run in runs:
        if run.order is not None:
            asked.setdefault(run.name, {})[run.order, run.nodes] = None
    if asked:
        library()
    optima = benchmarks.optima()
    # the largest first, so that no process is left alone with them
    names = sorted(asked, key=lambda name: (-optima[name].inputs, -optima[name].outputs))
    with progress("functions", len(names)) as bar:
        answers = each(counted_orders, [(name, list(asked[name])) for name in names], jobs, bar.step)
    found = {(name, *it): answer for name, its in zip(names, answers) for it, answer in zip(asked[name], its)}
    return [
        Counted(run, run.nodes, "") if run.order is None else Counted(run, *found[run.name, run.order, run.nodes])
        for run in runs]
