#!/usr/bin/env python3
"""score_cudd.py PEERS [RESULTS]     CUDD's SIFT on all functions of the table of optima, by the harness that bench/peers.sh
                                  built in PEERS; minorder-score has to give it the row that the league has

MINORDER_LIBRARY names the library. A run ends as late after the league's limit of processor time, building left in. With
RESULTS the results are also written there, as minorder-score reads them."""
import os
import resource
import subprocess
import sys
import tempfile
from concurrent.futures import ThreadPoolExecutor

TOP = os.path.dirname(os.path.dirname(os.path.abspath(__file__)))
sys.path.insert(0, f"{TOP}/bindings/python")
from minorder import benchmarks, functions  # noqa: E402
from minorder._results import read_results  # noqa: E402
from minorder.score import score  # noqa: E402

LIMIT, MARGIN = 10, 2


def limited():
    """A run that is twice as long as the league's limit is late in any case."""
    resource.setrlimit(resource.RLIMIT_CPU, (MARGIN * LIMIT, MARGIN * LIMIT))


def order_of(harness, path):
    """The order that CUDD's SIFT ends with, as words; `late` if it didn't end in time."""
    ran = subprocess.run([harness, "sift", path], stdout=subprocess.PIPE, text=True, preexec_fn=limited)
    if ran.returncode > 0:
        sys.exit(f"score_cudd.py: {path}: status {ran.returncode}")
    return next((line.partition(": ")[2] for line in ran.stdout.splitlines() if line.startswith("order: ")), "late")


def results(harness):
    """The lines of results."""
    names = list(benchmarks.optima())
    with tempfile.TemporaryDirectory() as folder, ThreadPoolExecutor(os.cpu_count()) as pool:
        functions.write_functions(folder, [])
        orders = pool.map(lambda name: order_of(harness, f"{folder}/{name}.pla"), names)
        return "\n".join(["name,order", *(f"{name},{order}" for name, order in zip(names, orders)), ""])


def main():
    if len(sys.argv) not in (2, 3):
        sys.exit(__doc__)
    if not os.access(f"{sys.argv[1]}/cudd", os.X_OK):
        sys.exit(f"score_cudd.py: {sys.argv[1]} has no cudd; bench/peers.sh builds it")
    text = results(f"{sys.argv[1]}/cudd")
    if len(sys.argv) == 3:
        with open(sys.argv[2], "w") as file:
            file.write(text)
    [found] = score(read_results(text), "CUDD's SIFT")
    league = found.others["CUDD", "SIFT"]
    # what is late in one of both depends on the machine
    ended = {line.name for line in found.standing.ended} & {line.name for line in league.ended}
    mine, theirs = found.standing.of(ended), league.of(ended)
    other = [it.name for it, its in zip(mine.lines, theirs.lines) if it.counted_nodes != its.counted_nodes]
    if other or len(league.ended) - len(ended) > 1:
        sys.exit(f"score_cudd.py: another size for {' '.join(other)}; {len(ended)} of {len(league.ended)} ended")
    worst = f"{benchmarks.fixed(mine.worst_ratio, 2)} ({mine.worst.name})"
    mean = benchmarks.fixed(mine.mean, 3)
    print(f"CUDD's SIFT by the harness and minorder-score: mean ratio {mean}, worst {worst}, optimum met in {mine.met} "
          f"of {len(ended)}: the row of the league")


if __name__ == "__main__":
    main()
