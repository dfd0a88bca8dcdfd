"""What methods make of some functions from a start, in one measure: ratios to the proved optimum."""
from __future__ import annotations

from dataclasses import dataclass, field
from typing import Iterable, Optional, Sequence

from ._figures import geometric_mean
from ._rows import Line, Optimum
from ._starts import FILE

Method = tuple[str, str]

# the methods whose curves are drawn where no others are chosen
CURVES: tuple[Method, ...] = (
    ("CUDD", "EXACT"), ("CUDD", "GENETIC"), ("CUDD", "ANNEALING"), ("CUDD", "SYMM_SIFT_CONV"), ("BuDDy", "SIFTITE"),
    ("minorder", "sifting"), ("CUDD", "SIFT_CONVERGE"), ("CUDD", "SIFT"), ("CUDD", "WINDOW4_CONV"), ("BuDDy", "WIN3ITE"),
)


def worst_nodes(lines: Iterable[Line], optima: dict[str, Optimum], start: str) -> dict[str, int]:
    """By function the most nodes that a run of any method of the league ends with, or that the start itself has."""
    found: dict[str, int] = {}
    for line in lines:
        if line.start == start and line.name in optima:
            it = optima[line.name]
            itself = (it.file_order_nodes,) if start == FILE else it.random_order_nodes
            found[line.name] = max(found.get(line.name, 0), line.most_nodes or 0, *itself)
    return found


@dataclass(frozen=True)
class Standing:
    """What a method makes of the functions that have worst nodes. A function has the lower median of the method's runs,
    where a run without an order counts as more than any other; it has ended if that is a run with an order."""
    lines: Sequence[Line]
    optima: dict[str, Optimum] = field(repr=False)
    worst_nodes: dict[str, int] = field(repr=False)

    @property
    def whole(self) -> int:
        """How many functions there are."""
        return len(self.worst_nodes)

    @property
    def ended(self) -> list[Line]:
        return [line for line in self.lines if line.counted_nodes is not None]

    def ratio(self, line: Line) -> float:
        """The median run's nodes over the fewest."""
        return (line.counted_nodes or 0) / self.optima[line.name].optimum

    @property
    def ratios(self) -> list[float]:
        """Those of what ended."""
        return [self.ratio(line) for line in self.ended]

    @property
    def mean(self) -> Optional[float]:
        """The mean ratio over all functions, by which methods have their places. No function counts more than its worst
        nodes, and one that is late, missing or without an order counts as these."""
        nodes = {line.name: line.counted_nodes for line in self.ended}
        return geometric_mean([
            min(nodes.get(name) or worst, worst) / self.optima[name].optimum for name, worst in self.worst_nodes.items()])

    @property
    def mean_of_ended(self) -> Optional[float]:
        return geometric_mean(self.ratios)

    def worst_ratio_of(self, line: Line) -> float:
        return (line.most_nodes or 0) / self.optima[line.name].optimum

    @property
    def worst(self) -> Optional[Line]:
        """The line with the worst run of those that ended."""
        with_an_order = [line for line in self.lines if line.most_nodes]
        return max(with_an_order, key=self.worst_ratio_of) if with_an_order else None

    @property
    def worst_ratio(self) -> Optional[float]:
        return self.worst_ratio_of(self.worst) if self.worst else None

    @property
    def met(self) -> int:
        """In how many functions the optimum was met."""
        return sum(ratio == 1 for ratio in self.ratios)

    @property
    def runs(self) -> int:
        return sum(line.runs for line in self.lines)

    @property
    def runs_met(self) -> Optional[float]:
        """The share of the runs that met the optimum, each function that has a run counting alike; None of no runs."""
        shares = [line.optimum_met / line.runs for line in self.lines]
        return sum(shares) / len(shares) if shares else None

    @property
    def late(self) -> int:
        """How many functions are late."""
        return sum(line.late > 0 and line.counted_nodes is None for line in self.lines)

    @property
    def seconds(self) -> Optional[float]:
        """Their sum over what ended; None where none are known."""
        known = [line.seconds for line in self.ended if line.seconds is not None]
        return sum(known) if known else None

    def of(self, names: Iterable[str]) -> Standing:
        """What it makes of some of the functions."""
        wanted = set(names)
        worst = {name: nodes for name, nodes in self.worst_nodes.items() if name in wanted}
        return Standing([line for line in self.lines if line.name in wanted], self.optima, worst)


def standings(lines: Iterable[Line], optima: dict[str, Optimum], start: str) -> dict[Method, Standing]:
    """By package and method, in the order in which these stand in the lines."""
    lines = list(lines)
    worst, found = worst_nodes(lines, optima, start), dict[Method, list[Line]]()
    for line in lines:
        if line.start == start and line.name in optima:
            found.setdefault((line.package, line.method), []).append(line)
    return {method: Standing(mine, optima, worst) for method, mine in found.items()}


def ranked(found: dict[Method, Standing]) -> list[Method]:
    """The methods by their mean ratio, the least first."""
    return sorted(found, key=lambda method: found[method].mean or 0)
