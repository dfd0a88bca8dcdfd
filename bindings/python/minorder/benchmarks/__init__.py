"""The functions of the table of optima, their proved optima, and the league of heuristics.

    >>> from minorder import benchmarks
    >>> benchmarks.optima()["hwb8"].optimum
    44
    >>> [table] = benchmarks.entry("hwb8").tables()

``optima.csv``, ``league.csv`` and ``sizes.csv.gz`` lie beside this module; optima/README.md explains their columns.
"""
from ._figures import brief, fixed, geometric_mean, percent
from ._rows import Line, Optimum, league, optima, read_league, read_optima
from ._selection import UnknownName, entries, entry, families, selected
from ._shares import AllOrders, all_orders, mean_better, read_sizes
from ._standing import CURVES, Method, Standing, ranked, standings, worst_nodes
from ._starts import FILE, MOST_INPUTS, NUMBERS, RANDOM, random_start, random_starts

__all__ = [
    "AllOrders", "CURVES", "FILE", "Line", "MOST_INPUTS", "Method", "NUMBERS", "Optimum", "RANDOM", "Standing", "UnknownName",
    "all_orders", "brief", "entries", "entry", "families", "fixed", "geometric_mean", "league", "mean_better", "optima",
    "percent", "random_start", "random_starts", "ranked", "read_league", "read_optima", "read_sizes", "selected", "standings",
    "worst_nodes",
]
