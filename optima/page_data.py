"""What optima.html shows of the functions and the methods, as one object."""
import base64
import re
import zlib

import league
import page_diagrams
from minorder import benchmarks, levels
from minorder.benchmarks import FILE, RANDOM

RANDOM_STARTS = "randomStarts"


def sizes(standing):
    """By function the nodes of its one run, or, of several runs or a late one: counted and most nodes, how many runs were late,
    how many there are, and how many met the optimum."""
    found = {}
    for line in standing.lines:
        several = line.runs > 1 or line.counted_nodes is None
        figures = [line.counted_nodes, line.most_nodes, line.late, line.runs, line.optimum_met]
        found[line.name] = figures if several else line.counted_nodes
    return found


def method_of(it, method):
    return {
        "package": method[0], "name": method[1], "random": method in league.RANDOM, "curve": method in benchmarks.CURVES,
        FILE: sizes(it.file[method]), RANDOM_STARTS: sizes(it.random[method]),
    }


def stem_of(row):
    """The name without its number, of functions that are a family by one number; None of others, as of chips."""
    found = re.fullmatch(r"([a-z]+)\d+", row.name)
    return found[1] if found and row.family != "74 series" else None


def packed(tables, inputs):
    """The truth tables one behind another, compressed: the bit p of each is its value at the point p."""
    size = max(1, (1 << inputs) // 8)
    return base64.b64encode(zlib.compress(b"".join(table.to_bytes(size, "little") for table in tables), 9)).decode()


def orders_within(it, row, counted):
    """How many orders have at most so many nodes: at the sizes of the shares and of the marks on their curve."""
    orders = it.orders[row.name]
    ends = (orders.fewest, row.most, int(row.mean), row.file_order_nodes)
    sizes = {*it.distributions[row.name].values(), *ends, *counted}
    return [[size, orders.within(size)] for size in sorted(sizes)]


def function_of(it, row, counted):
    """A function's numbers; ``counted`` has those of nodes that the methods make of it."""
    entry = benchmarks.entry(row.name)
    tables, inputs = entry.tables(), range(row.inputs)
    found = {
        "name": row.name, "family": row.family, "aliases": row.aliases, "what": row.what, "inputs": entry.inputs,
        "outputs": row.outputs, "fileOrder": row.file_order_nodes, "sifted": row.sifted_nodes, "optimum": row.optimum,
        "order": row.first_optimal_order, "siftedOrder": row.sifted_order, "stem": stem_of(row),
        "levels": [row.level_counts, levels(tables, row.sifted_order), levels(tables, inputs)],
        "mean": row.mean, "within": orders_within(it, row, counted),
        "sums": [row.pla_sha256, row.certificate_sha256], "tables": packed(tables, row.inputs),
    }
    if row.optimum <= page_diagrams.MOST:
        found["diagram"] = page_diagrams.diagram_of(entry, row.first_optimal_order)
    return found


def worst_of(it, start):
    return benchmarks.worst_nodes(it.lines, it.optima, start)


def data_of(it, by_hand, version):
    """``it`` is the league with its optima; ``by_hand`` what is counted by hand, by the stems of names."""
    counted = {name: set() for name in it.optima}
    for line in it.lines:
        if line.counted_nodes is not None:
            counted[line.name].add(line.counted_nodes)
    return {
        "version": version,
        "methods": [method_of(it, method) for method in benchmarks.ranked(it.random)],
        "functions": [function_of(it, row, counted[row.name]) for row in it.optima.values()],
        "byHand": by_hand, "starts": [FILE, RANDOM_STARTS], "mostInputs": benchmarks.MOST_INPUTS,
        "worst": {FILE: worst_of(it, FILE), RANDOM_STARTS: worst_of(it, RANDOM)},
    }
