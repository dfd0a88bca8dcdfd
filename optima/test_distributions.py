"""Tests of what the table says of all orders, against a walk over each: python3 -m unittest discover -s optima"""
import csv
import gzip
import math
import os
import sys
import unittest
from collections import Counter
from itertools import permutations

HERE = os.path.dirname(os.path.abspath(__file__))
sys.path[:0] = [HERE, f"{HERE}/../bindings/python"]
import distributions  # noqa: E402
import table  # noqa: E402
from minorder.benchmarks import entries  # noqa: E402

CHOSEN = ("hwb4", "hwb8", "gray8", "mux2", "add4", "mul4", "ones6", "sort8", "random8_4", "majority7")


def width(values, inputs, x, below):
    """How many subfunctions, over the variables below, of the functions with these values differ in their two halves by x."""
    outside = [y for y in range(inputs) if y != x and not below >> y & 1]
    found = set()
    for function in values:
        for fixed in range(1 << len(outside)):
            base = sum((fixed >> i & 1) << y for i, y in enumerate(outside))
            inner = [base | sum((p >> i & 1) << y for i, y in enumerate(y for y in range(inputs) if below >> y & 1))
                     for p in range(1 << below.bit_count())]
            halves = tuple(function[p] for p in inner), tuple(function[p | 1 << x] for p in inner)
            if halves[0] != halves[1]:
                found.add(halves)
    return len(found)


def sizes_of_all_orders(entry):
    """How many of all orders have each size."""
    n = len(entry.inputs)
    values = [[it >> p & 1 for p in range(1 << n)] for it in map(int, entry.tables())]
    widths = {(x, below): width(values, n, x, below) for below in range(1 << n) for x in range(n) if not below >> x & 1}
    found = Counter()
    for order in permutations(range(n)):
        size = below = 0
        for x in order:
            size, below = size + widths[x, below], below | 1 << x
        found[size] += 1
    return found


class Distributions(unittest.TestCase):
    @classmethod
    def setUpClass(cls):
        with open(f"{HERE}/optima.csv", newline="") as file:
            cls.rows = {row["name"]: row for row in csv.DictReader(file)}
        with open(f"{HERE}/distributions.csv", newline="") as file:
            cls.names, *lines = csv.reader(file)
        cls.lines = {name: [int(size) for size in sizes] for name, *sizes in lines}
        with gzip.open(f"{HERE}/sizes.csv.gz", "rt") as file:
            head, *lines = file.read().splitlines()
        cls.columns, cls.sizes = head.split(","), {}
        for name, fewest, counts in (line.split(",") for line in lines):
            counted = enumerate(map(int, counts.split()), int(fewest))
            cls.sizes[name] = {size: orders for size, orders in counted if orders}

    def test_ten_functions_against_a_walk_over_all_orders(self):
        for entry in (it for it in entries() if it.name in CHOSEN):
            with self.subTest(entry.name):
                sizes, row = sizes_of_all_orders(entry), self.rows[entry.name]
                self.assertEqual((int(row["optimum"]), int(row["most"])), (min(sizes), max(sizes)))
                self.assertEqual(int(row["optimal_orders"]), sizes[min(sizes)])
                mean = sum(size * orders for size, orders in sizes.items()) / sizes.total()
                self.assertAlmostEqual(float(row["mean"]), mean, delta=0.0051)
                self.assertEqual(self.sizes[entry.name], sizes)

    def test_all_sizes_beside_both_tables(self):
        self.assertEqual((self.columns, list(self.sizes)), (["name", "fewest_nodes", "orders"], list(self.rows)))
        for name, sizes in self.sizes.items():
            row = self.rows[name]
            self.assertEqual(sum(sizes.values()), math.factorial(int(row["inputs"])))
            self.assertEqual((min(sizes), max(sizes)), (int(row["optimum"]), int(row["most"])))
            self.assertEqual(sizes[min(sizes)], int(row["optimal_orders"]))
            self.assertEqual(self.lines[name], distributions.sizes_at_shares(sizes))

    def test_lines_rise_from_the_optimum_to_the_most(self):
        self.assertEqual(self.names, ["name", *distributions.NAMES])
        self.assertEqual(list(self.lines), list(self.rows))
        for name, sizes in self.lines.items():
            self.assertEqual(sizes, sorted(sizes))
            self.assertTrue(int(self.rows[name]["optimum"]) <= sizes[0] and sizes[-1] <= int(self.rows[name]["most"]))


if __name__ == "__main__":
    unittest.main()
