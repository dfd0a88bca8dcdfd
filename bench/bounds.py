#!/usr/bin/env python3
"""bounds.py [LEAST]: how often the bound of a search is the optimum, over the functions of optima/optima.csv with at least LEAST
inputs (13)

Sifts as `sifting::search_bound` does, by the library's passes. MINORDER_LIBRARY names the library.
"""
import math
import os
import sys

TOP = os.path.dirname(os.path.dirname(os.path.abspath(__file__)))
sys.path.insert(0, f"{TOP}/bindings/python")
import minorder  # noqa: E402
from minorder import benchmarks  # noqa: E402


def settled(tables, sifted):
    while True:
        again = minorder.sift(tables, sifted.order)
        if again.total == sifted.total:
            return sifted
        sifted = again


def tightened(tables, sifted):
    over = sifted.order[::-1]
    if abs(sum(minorder.levels(tables, over)) - sifted.total) <= sifted.total // 64:
        return sifted
    return min(settled(tables, sifted), settled(tables, minorder.sift(tables, over)), key=lambda it: it.total)


def main():
    if len(sys.argv) > 2 or not all(word.isdigit() for word in sys.argv[1:]):
        sys.exit(__doc__)
    least = int(sys.argv[1]) if len(sys.argv) > 1 else 13
    ratios = []
    for entry in benchmarks.entries():
        if len(entry.inputs) >= least:
            tables, optimum = entry.tables(), benchmarks.optima()[entry.name].optimum
            sifted = minorder.sift(tables, range(len(entry.inputs)))
            tight = tightened(tables, sifted)
            ratios.append((sifted.total / optimum, tight.total / optimum))
    for name, found in zip(("one pass of sifting", "the bound"), zip(*ratios)):
        met, mean = sum(it == 1 for it in found), math.exp(sum(map(math.log, found)) / len(found))
        print(f"{name}: the optimum for {met} of {len(found)}, "
              f"{mean:.3f} times it in the geometric mean, {max(found):.2f} at most")


if __name__ == "__main__":
    main()
