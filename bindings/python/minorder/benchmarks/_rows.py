"""The lines of optima.csv and league.csv."""
from __future__ import annotations

import csv
import os
from functools import lru_cache
from typing import Iterator, NamedTuple, Optional

HERE = os.path.dirname(os.path.abspath(__file__))


class Optimum(NamedTuple):
    """A function's proved optimum: numbers of decision nodes, orders top first, SHA-256 of the file and its certificate; the most
    nodes and the mean of all orders."""
    family: str
    name: str
    aliases: tuple[str, ...]
    what: str
    inputs: int
    outputs: int
    file_order_nodes: int
    sifted_nodes: int
    optimum: int
    first_optimal_order: tuple[int, ...]
    sifted_order: tuple[int, ...]
    level_counts: tuple[int, ...]
    pla_sha256: str
    certificate_sha256: str
    random_order_nodes: tuple[int, ...]
    most: int
    mean: float


class Line(NamedTuple):
    """What a method makes of a function from a start: the runs that ended late or without an order of the variables, and the
    nodes of the others; None where all of them did."""
    name: str
    package: str
    method: str
    start: str
    runs: int
    late: int
    without_an_order: int
    least_nodes: Optional[int]
    median_nodes: Optional[int]
    most_nodes: Optional[int]
    optimum_met: int
    seconds: Optional[float]

    @property
    def counted_nodes(self) -> Optional[int]:
        """The lower median of all runs, one without an order behind all others; None where half of them or more are such
        ones. Where that isn't the median of the others, which the line has, the most nodes."""
        ended = self.runs - self.late - self.without_an_order
        if 2 * ended <= self.runs:
            return None
        return self.median_nodes if (ended - 1) // 2 == (self.runs - 1) // 2 else self.most_nodes


def _rows(path: str) -> Iterator[dict[str, str]]:
    with open(path, newline="", encoding="utf-8") as file:
        yield from csv.DictReader(file)


def _numbers(text: str) -> tuple[int, ...]:
    return tuple(map(int, text.split()))


def read_optima(path: str) -> dict[str, Optimum]:
    """The optima by the functions' names, family by family."""
    return {row["name"]: Optimum(
        row["family"], row["name"], tuple(row["aliases"].split()), row["what"], int(row["inputs"]), int(row["outputs"]),
        int(row["file_order_nodes"]), int(row["sifted_nodes"]), int(row["optimum"]), _numbers(row["first_optimal_order"]),
        _numbers(row["sifted_order"]), _numbers(row["level_counts"]), row["pla_sha256"], row["certificate_sha256"],
        _numbers(row["random_order_nodes"]), int(row["most"]), float(row["mean"]),
    ) for row in _rows(path)}


def _whole(text: str) -> Optional[int]:
    return int(text) if text else None


def read_league(path: str) -> list[Line]:
    """What each method makes of each function, from the file's order and from random ones."""
    return [Line(
        row["name"], row["package"], row["method"], row["start"], int(row["runs"]), int(row["late"]),
        int(row["without_an_order"]), _whole(row["least_nodes"]), _whole(row["median_nodes"]), _whole(row["most_nodes"]),
        int(row["optimum_met"]), float(row["seconds"]) if row["seconds"] else None,
    ) for row in _rows(path)]


def place(name: str) -> str:
    """Where a table lies: beside this module, or in the repository's optima/."""
    beside = os.path.join(HERE, name)
    return beside if os.path.exists(beside) else os.path.join(HERE, *[os.pardir] * 4, "optima", name)


@lru_cache(maxsize=None)
def optima() -> dict[str, Optimum]:
    """Those of the table of this package."""
    return read_optima(place("optima.csv"))


@lru_cache(maxsize=None)
def league() -> list[Line]:
    """That of this package."""
    return read_league(place("league.csv"))
