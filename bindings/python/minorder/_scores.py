"""A method's runs set beside the methods of the league."""
from __future__ import annotations

import statistics
from dataclasses import dataclass
from typing import NamedTuple, Optional, Sequence

from . import benchmarks
from ._counting import Counted

COSTLIEST = 10
# means that differ by less are equal
SAME = 1e-9


class Size(NamedTuple):
    """A function's size by the median run, the share of all orders that are better, and whether it is only claimed."""
    name: str
    family: str
    nodes: int
    optimum: int
    better_share: float
    claimed: bool
    seconds: Optional[float]

    @property
    def ratio(self) -> float:
        return self.nodes / self.optimum


class Cost(NamedTuple):
    """What a function counts in the mean, its size as it is said, and the share of all orders that are better."""
    name: str
    size: str
    optimum: int
    ratio: float
    better_share: float


class Family(NamedTuple):
    family: str
    functions: int
    mean_ratio: float


@dataclass(frozen=True)
class Score:
    """A method's score from a start. ``others`` are the methods of the league on the same functions, ``families`` those that
    were asked for, and ``runs`` are on these functions. ``left_out`` has the functions that the league hasn't from this start,
    ``of_others`` those of families that weren't asked for."""
    method: str
    start: str
    families: list[str]
    standing: benchmarks.Standing
    others: dict[benchmarks.Method, benchmarks.Standing]
    runs: list[Counted]
    left_out: list[str]
    of_others: list[str]

    @property
    def missing(self) -> list[str]:
        has = {line.name for line in self.standing.lines}
        return [name for name in self.standing.worst_nodes if name not in has]

    @property
    def late(self) -> list[str]:
        return [line.name for line in self.standing.lines if line.counted_nodes is None]

    @property
    def late_runs(self) -> int:
        return sum(line.late for line in self.standing.lines)

    @property
    def several(self) -> list[str]:
        """The functions with several runs from the file's order or of one random order, or with more than ten random orders."""
        most = 1 if self.start == benchmarks.FILE else len(benchmarks.NUMBERS)
        found = []
        for name, its in by_function(self.runs).items():
            starts = [it.run.start for it in its if it.run.start != benchmarks.RANDOM]
            if len(its) > most or len(starts) > len(set(starts)):
                found.append(name)
        return found

    @property
    def few_starts(self) -> list[str]:
        """The functions of which some random orders have no run."""
        if self.start == benchmarks.FILE:
            return []
        of_function = by_function(self.runs)
        return [name for name, its in of_function.items() if len(starts_of(its)) < len(benchmarks.NUMBERS)]

    @property
    def whole_families(self) -> list[str]:
        """The families of which no function is missing."""
        optima, lacking = self.standing.optima, set(self.missing)
        lacks = {optima[name].family for name in lacking}
        return [it for it in dict.fromkeys(optima[name].family for name in self.standing.worst_nodes) if it not in lacks]

    @property
    def sizes(self) -> list[Size]:
        """Of the functions that ended."""
        claimed, optima = {it.run.name for it in self.runs if it.run.claimed}, self.standing.optima
        return [
            Size(line.name, optima[line.name].family, line.counted_nodes or 0, optima[line.name].optimum,
                 better_share(line.name, line.counted_nodes), line.name in claimed, line.seconds)
            for line in self.standing.ended]

    @property
    def claimed(self) -> int:
        return sum(size.claimed for size in self.sizes)

    @property
    def place(self) -> Optional[int]:
        """It counts from 1, among the league's methods and this one, by the mean ratio on all functions."""
        mine = self.standing.mean
        if mine is None:
            return None
        return 1 + sum((its.mean or 0) < mine * (1 - SAME) for its in self.others.values())

    @property
    def by_family(self) -> list[Family]:
        """Of what ended, by the mean ratio, the least first."""
        ratios: dict[str, list[float]] = {}
        for size in self.sizes:
            ratios.setdefault(size.family, []).append(size.ratio)
        found = [Family(family, len(its), benchmarks.geometric_mean(its) or 0) for family, its in ratios.items()]
        return sorted(found, key=lambda it: it.mean_ratio)

    @property
    def costliest(self) -> list[Cost]:
        """The functions with runs that count most in the mean, those above the optimum alone."""
        worst, optima, found = self.standing.worst_nodes, self.standing.optima, []
        for line in self.standing.lines:
            nodes, best, most = line.counted_nodes, optima[line.name].optimum, worst[line.name]
            size, ratio = "late" if nodes is None else f"{nodes} nodes", min(nodes or most, most) / best
            found.append(Cost(line.name, size, best, ratio, better_share(line.name, nodes)))
        return sorted((it for it in found if it.ratio > 1), key=lambda it: -it.ratio)[:COSTLIEST]

    @property
    def differences(self) -> dict[str, list[Counted]]:
        """The runs whose own number of nodes isn't the one that is counted, by why it is another."""
        found: dict[str, list[Counted]] = {}
        for it in self.runs:
            if it.difference:
                found.setdefault(it.difference, []).append(it)
        return found


def better_share(name: str, nodes: Optional[int]) -> float:
    """The share of all orders of a function that have fewer nodes; 1 of None, which is a late run."""
    return float(benchmarks.all_orders()[name].better(nodes))


def mean_better(standing: benchmarks.Standing) -> Optional[float]:
    """The mean of these shares over the functions."""
    return benchmarks.mean_better(standing, benchmarks.all_orders())


class OwnLine(benchmarks.Line):
    """A line like those of the league, whose median is what the function counts."""

    @property
    def counted_nodes(self) -> Optional[int]:
        return self.median_nodes


def median_of(nodes: Sequence[Optional[int]]) -> Optional[int]:
    """The lower median, where None counts as more than any number; None where half of them or more are."""
    ended = sorted(it for it in nodes if it is not None)
    return ended[(len(nodes) - 1) // 2] if 2 * len(ended) > len(nodes) else None


def starts_of(runs: Sequence[Counted]) -> list[Optional[int]]:
    """What counts of each random order that has a run: of a numbered one the median of its runs."""
    numbered: dict[str, list[Optional[int]]] = {}
    for it in runs:
        numbered.setdefault(it.run.start, []).append(it.nodes)
    others = numbered.pop(benchmarks.RANDOM, [])
    return [*map(median_of, numbered.values()), *others]


def line_of(method: str, start: str, runs: Sequence[Counted]) -> OwnLine:
    """What the runs of a function count. Of random orders each counts once, and one without a run as a late run."""
    counts = [it.nodes for it in runs] if start == benchmarks.FILE else starts_of(runs)
    if start != benchmarks.FILE:
        counts += [None] * (len(benchmarks.NUMBERS) - len(counts))
    best = benchmarks.optima()[runs[0].run.name].optimum
    nodes = [it.nodes for it in runs if it.nodes is not None]
    seconds = [it.run.seconds for it in runs if it.run.seconds is not None and it.nodes is not None]
    return OwnLine(
        runs[0].run.name, "", method, start, len(counts), counts.count(None), 0, min(nodes, default=None), median_of(counts),
        max(nodes, default=None), counts.count(best), statistics.fmean(seconds) if seconds else None)


def by_function(runs: Sequence[Counted]) -> dict[str, list[Counted]]:
    found: dict[str, list[Counted]] = {}
    for it in runs:
        found.setdefault(it.run.name, []).append(it)
    return found


def scores_of(method: str, runs: Sequence[Counted], families: Sequence[str] = ()) -> list[Score]:
    """A score for each start that the runs have; if families are named, on their functions alone."""
    kinds = [kind for kind in (benchmarks.FILE, benchmarks.RANDOM) if any(it.run.kind == kind for it in runs)]
    return [score_from(kind, method, [it for it in runs if it.run.kind == kind], list(families)) for kind in kinds]


def score_from(start: str, method: str, runs: Sequence[Counted], families: list[str]) -> Score:
    optima = benchmarks.optima()
    names = [name for name, it in optima.items() if not families or it.family in families]
    league = {other: its.of(names) for other, its in benchmarks.standings(benchmarks.league(), optima, start).items()}
    worst = benchmarks.worst_nodes(benchmarks.league(), optima, start)
    of_function = by_function(runs)
    lines = [line_of(method, start, of_function[name]) for name in optima if name in of_function and name in worst]
    standing = benchmarks.Standing(lines, optima, worst).of(names)
    inside = [it for it in runs if it.run.name in standing.worst_nodes]
    left_out = [name for name in of_function if name not in worst]
    of_others = [line.name for line in lines if line.name not in standing.worst_nodes]
    return Score(method, start, families, standing, league, inside, left_out, of_others)
