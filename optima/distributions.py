"""How the sizes of all n! orders of each function of the table are distributed."""
import csv
import gzip
import sys
from fractions import Fraction

import table

FILE, SIZES = "optima/distributions.csv", "optima/sizes.csv.gz"
# denser at both ends; a share and what it leaves of 1 are both there
LOW_SHARES = [f"{digit}e-{places}" for places in range(13, 0, -1) for digit in (1, 3)] + ["0.35", "0.4", "0.45", "0.49"]
SHARES = [Fraction(share) for share in LOW_SHARES] + [1 - Fraction(share) for share in reversed(LOW_SHARES)]
NAMES = LOW_SHARES + [f"1-{share}" for share in reversed(LOW_SHARES)]


def sizes_at_shares(sizes):
    """For each of the shares the least size that at least this share of all orders has or is below."""
    orders = sum(sizes.values())
    wanted = [-(-share.numerator * orders // share.denominator) for share in SHARES]
    found, counted = [], 0
    for size in sorted(sizes):
        counted += sizes[size]
        while len(found) < len(wanted) and wanted[len(found)] <= counted:
            found.append(size)
    return found


def line_of(name, sizes):
    """A function's line of the file of all sizes: the fewest nodes, and how many orders have so many, one more, and so on."""
    counts = " ".join(str(sizes.get(size, 0)) for size in range(min(sizes), max(sizes) + 1))
    return f"{name},{min(sizes)},{counts}\n"


def write_sizes(lines, path):
    """The file of all sizes; the same lines give the same bytes."""
    text = "".join(["name,fewest_nodes,orders\n", *lines])
    with open(path, "wb") as file:
        file.write(gzip.compress(text.encode(), 9, mtime=0))


def read(into):
    """By the functions' names their sizes by the shares."""
    with open(f"{into}/{FILE}", newline="") as file:
        return {row["name"]: {share: int(row[share]) for share in NAMES} for row in csv.DictReader(file)}


def make(programs):
    """Writes the sizes of all orders of each function of the table and their distribution, those first that are done soonest."""
    minorder, lines, size_lines = table.library(), {}, {}
    found = table.by_family()
    for i, entry in enumerate(sorted(found, key=lambda it: (len(it.inputs), it.outputs)), 1):
        print(f"{entry.name}: {i} of {len(found)}", file=sys.stderr)
        sizes = minorder.sizes(entry.tables(), len(entry.inputs))
        lines[entry.name], size_lines[entry.name] = sizes_at_shares(sizes), line_of(entry.name, sizes)
    with open(f"{programs.into}/{FILE}", "w", newline="") as file:
        out = csv.writer(file, lineterminator="\n")
        out.writerow(["name", *NAMES])
        out.writerows([entry.name, *lines[entry.name]] for entry in found)
    write_sizes([size_lines[entry.name] for entry in found], f"{programs.into}/{SIZES}")
