"""The league of heuristics: the orders that the methods of CUDD, BuDDy and ABC and our own pass of sifting end with, all
judged by the library's level counts without complement edges, beside the proved optimum."""
import csv
import json
import os
import statistics
import subprocess
import sys
import time
from concurrent.futures import ThreadPoolExecutor

import table
from minorder.benchmarks import NUMBERS, random_starts
from minorder.files import read_pla

CUDD = [
    "SIFT", "SIFT_CONVERGE", "SYMM_SIFT", "SYMM_SIFT_CONV", "GROUP_SIFT", "GROUP_SIFT_CONV", "WINDOW2", "WINDOW2_CONV",
    "WINDOW3", "WINDOW3_CONV", "WINDOW4", "WINDOW4_CONV", "ANNEALING", "GENETIC", "LINEAR", "EXACT",
]
BUDDY = ["WIN2", "WIN2ITE", "WIN3", "WIN3ITE", "SIFT", "SIFTITE", "RANDOM"]
METHODS = [
    ("minorder", "sifting"), *(("CUDD", method) for method in CUDD), ("ABC", "reo"), *(("BuDDy", method) for method in BUDDY),
]
RANDOM = {("CUDD", "ANNEALING"), ("CUDD", "GENETIC"), ("BuDDy", "RANDOM")}
DRIVERS = {"CUDD": "league_cudd", "ABC": "league_cudd", "BuDDy": "league_buddy"}
SEEDS = range(1, 11)
LIMIT = 10
COLUMNS = [
    "name", "package", "method", "start", "runs", "late", "without_an_order", "least_nodes", "median_nodes", "most_nodes",
    "optimum_met", "seconds",
]


class Judge:
    """Sizes of a function under orders, each counted once."""

    def __init__(self, minorder, path):
        self.tables = read_pla(path).tables
        self.minorder, self.sizes = minorder, {}

    def size(self, order):
        if order not in self.sizes:
            self.sizes[order] = sum(self.minorder.levels(self.tables, order))
        return self.sizes[order]

    def sift(self, start):
        before = time.thread_time()
        order = self.minorder.sift(self.tables, start).order
        return [self.size(order), time.thread_time() - before]


def answer(line, judge):
    """Nodes and seconds; of what is late or leaves no order the word."""
    if line in ("late", "none"):
        return [line, None]
    seconds, *order = line.split()
    return [judge.size(tuple(map(int, order))), float(seconds)]


class Driver:
    """A driver's process with a function under a start."""

    def __init__(self, program, path, start):
        words = [program, path, str(LIMIT), *map(str, start)]
        self.process = subprocess.Popen(words, stdin=subprocess.PIPE, stdout=subprocess.PIPE, text=True)

    def ask(self, method, seed):
        self.process.stdin.write(f"{method} {seed}\n")
        self.process.stdin.flush()
        line = self.process.stdout.readline().strip()
        if not line:
            sys.exit(f"league: {' '.join(self.process.args)}: no answer for {method}")
        return line

    def close(self):
        self.process.stdin.close()
        self.process.wait()


def runs_from(start, seeds, path, judge, peers):
    """What each method makes of a start. The seeds that follow a late one are taken as late."""
    drivers = {program: Driver(f"{peers}/{program}", path, start) for program in sorted(set(DRIVERS.values()))}
    found = {"minorder sifting": [judge.sift(start)]}
    for package, method in METHODS[1:]:
        runs = []
        for seed in seeds if (package, method) in RANDOM else seeds[:1]:
            is_late = bool(runs) and runs[-1][0] == "late"
            runs.append(["late", None] if is_late else answer(drivers[DRIVERS[package]].ask(method, seed), judge))
        found[f"{package} {method}"] = runs
    for driver in drivers.values():
        driver.close()
    return found


def measure(row, programs, minorder):
    """All runs of a function, kept in the room."""
    kept, path = f"{programs.room}/league/{row['name']}.json", f"{programs.room}/table/{row['name']}.pla"
    if not os.path.exists(kept):
        judge, n = Judge(minorder, path), int(row["inputs"])
        found = {"file": runs_from(list(range(n)), list(SEEDS), path, judge, programs.peers)}
        for k, start in random_starts(n):
            found[str(k)] = runs_from(start, [k], path, judge, programs.peers)
        table.write(kept, json.dumps(found, allow_nan=False))
    with open(kept) as file:
        return json.load(file)


def figures_of(runs, best, title):
    """What a line says of some runs: how many, and how many of them late and without an order; their least, median and most
    nodes, how often the optimum was met, and the mean seconds."""
    words = [nodes for nodes, _ in runs]
    sizes = sorted(nodes for nodes in words if isinstance(nodes, int))
    if sizes and sizes[0] < best:
        sys.exit(f"{title} ends below the optimum")
    three = [sizes[0], statistics.median_low(sizes), sizes[-1]] if sizes else ["", "", ""]
    seconds = f"{sum(it for _, it in runs if it) / len(sizes):.4f}" if sizes else ""
    return [len(runs), words.count("late"), words.count("none"), *three, sizes.count(best), seconds]


def lines_of(row, found):
    """The lines of the table: for each method its runs from the file's order, and those from random orders together."""
    for package, method in METHODS:
        label = f"{package} {method}"
        starts = {"file": found["file"][label]}
        if "1" in found:
            starts["random"] = [found[str(k)][label][0] for k in NUMBERS]
        for start, runs in starts.items():
            figures = figures_of(runs, int(row["optimum"]), f"{row['name']}: {label}")
            yield dict(zip(COLUMNS, [row["name"], package, method, start, *figures]))


def make(programs):
    os.makedirs(f"{programs.room}/league", exist_ok=True)
    minorder, rows = table.library(), table.read(programs.into)
    soonest = sorted(rows, key=lambda row: (int(row["inputs"]), int(row["optimum"])))
    with ThreadPoolExecutor(programs.workers) as pool:
        jobs = [(row, pool.submit(measure, row, programs, minorder)) for row in soonest]
        for i, (row, job) in enumerate(jobs, 1):
            job.result()
            print(f"{row['name']}: {i} of {len(rows)}", file=sys.stderr)
    with open(f"{programs.into}/optima/league.csv", "w", newline="") as file:
        out = csv.DictWriter(file, COLUMNS, lineterminator="\n")
        out.writeheader()
        for row in rows:
            out.writerows(lines_of(row, measure(row, programs, minorder)))


def read(into):
    with open(f"{into}/optima/league.csv", newline="") as file:
        return list(csv.DictReader(file))
