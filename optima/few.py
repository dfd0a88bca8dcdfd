"""The functions of up to five inputs: how many have which fewest number of nodes, and what the file's order and sifting make
of them.

Up to four inputs all functions are counted under three orders, by the library. Of five inputs the fewest nodes are counted for
one function of each class under permutations and negations of the inputs and negation of the output, which leave them as they
are, and stand for the whole class; what the file's order and sifting give differs within a class and is counted for a million
random functions."""
import csv
import hashlib
import json
import os
import subprocess
import sys
import time
from collections import Counter

from table import library, used, write

HERE = os.path.dirname(os.path.abspath(__file__))
TOP = os.path.dirname(HERE)
RANDOM = 1_000_000
CHUNK = 20_000
COUNTS = ["inputs", "which", "optimum", "sifted_nodes", "file_order_nodes", "functions"]
CLASSES = ["inputs", "optimum", "classes", "functions"]


def compiled(room, name, *words):
    """A program that cc makes in the room."""
    subprocess.run(["cc", "-O2", "-o", f"{room}/{name}", *words], check=True)
    return f"{room}/{name}"


def random_functions():
    """A million functions of five inputs: each digest of `bakchuon few K` has eight, four bytes each, the lowest byte first."""
    for k in range(RANDOM // 8):
        digest = hashlib.sha256(f"bakchuon few {k}".encode()).digest()
        for i in range(0, 32, 4):
            yield int.from_bytes(digest[i:i + 4], "little")


def in_chunks(name, room, items, of_item):
    """How often which outcome comes, chunk by chunk; what a chunk gave lies in the room. Answers
    the seconds of processor time too."""
    counts, seconds = Counter(), 0
    for first in range(0, len(items), CHUNK):
        kept = f"{room}/{name}.{first}.json"
        if not os.path.exists(kept):
            print(f"{name}: {first} of {len(items)}", file=sys.stderr)
            start, found = time.process_time(), Counter()
            for item in items[first:first + CHUNK]:
                outcome, weight = of_item(item)
                found[outcome, 0] += 1
                found[outcome, 1] += weight
            lines = [[*outcome, which, count] for (outcome, which), count in found.items()]
            write(kept, json.dumps([lines, time.process_time() - start], allow_nan=False))
        with open(kept) as file:
            lines, took = json.load(file)
        for *outcome, which, count in lines:
            counts[tuple(outcome), which] += count
        seconds += took
    return counts, seconds


def classes_of(room, n):
    """A function of each class with the class's size. All together are all functions."""
    listed = f"{room}/classes{n}"
    if not os.path.exists(listed):
        print(f"classes of {n} inputs", file=sys.stderr)
        program = compiled(room, "classes", f"{HERE}/classes.c")
        start = used()
        ran = subprocess.run([program, str(n)], stdout=subprocess.PIPE, text=True, check=True)
        write(f"{listed}.seconds", f"{used() - start}\n")
        write(listed, ran.stdout)
    with open(listed) as file:
        found = [(int(table, 16), int(size)) for table, size in map(str.split, file)]
    if sum(size for _, size in found) != 1 << (1 << n):
        sys.exit(f"{listed}: not all functions of {n} inputs")
    return found


def count_orders(minorder, room, n):
    """The lines of few.csv of n inputs, and the seconds that they took."""
    order, tables = range(n), range(1 << (1 << n)) if n < 5 else list(random_functions())

    def three(table):
        best, sifted = minorder.exact(table, n).total, minorder.sift(table, order).total
        return (best, sifted, sum(minorder.levels(table, order))), 1

    found, took = in_chunks(f"functions{n}", room, tables, three)
    which = "all" if n < 5 else "random"
    return [[n, which, *outcome, count] for (outcome, part), count in sorted(found.items()) if part == 0], took


def count_optima(minorder, room, n):
    """The lines of few_classes.csv of n inputs, and the seconds that they took."""
    def optimum(item):
        table, size = item
        return (minorder.exact(table, n).total,), size

    each, took = in_chunks(f"optima{n}", room, classes_of(room, n), optimum)
    return [[n, *outcome, count, each[outcome, 1]] for (outcome, which), count in sorted(each.items()) if which == 0], took


def make(programs):
    room = f"{programs.room}/few"
    os.makedirs(room, exist_ok=True)
    minorder = library()
    counts, classes, seconds = [], [], 0
    for n in range(1, 6):
        rows, took = count_orders(minorder, room, n)
        class_rows, more = count_optima(minorder, room, n)
        counts += rows
        classes += class_rows
        seconds += took + more
    for name, head, rows in (("few", COUNTS, counts), ("few_classes", CLASSES, classes)):
        with open(f"{programs.into}/optima/{name}.csv", "w", newline="") as file:
            table = csv.writer(file, lineterminator="\n")
            table.writerow(head)
            table.writerows(rows)
    check(counts, classes)
    with open(f"{room}/classes5.seconds") as file:
        times = f"calls of the library,{seconds:.0f}\nclasses of five inputs,{float(file.read()):.0f}\n"
    write(f"{programs.into}/optima/few_times.csv", f"part,processor_seconds\n{times}")


def check(counts, classes):
    """The classes say of each number of inputs what all functions do."""
    for n in range(1, 5):
        totals = Counter()
        for inputs, _, optimum, _, _, functions in counts:
            totals[optimum] += functions if inputs == n else 0
        if +totals != Counter({optimum: functions for inputs, optimum, _, functions in classes if inputs == n}):
            sys.exit(f"few.py: the classes of {n} inputs and all functions differ")


def read(into, name):
    with open(f"{into}/optima/{name}.csv", newline="") as file:
        return list(csv.DictReader(file))
