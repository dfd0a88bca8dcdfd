#!/usr/bin/env python3
"""growth.py --peers PEERS [--runs N] [--limit S] OUT    draws how the processor time of minorder, of the native baseline over all
sets and of CUDD's exact reordering grows from 8 to 16 inputs, and prints the seconds. All run in turns, with 4 workers but for
CUDD, which has one thread; a time is the least of N runs, of one where it takes 5 seconds. A run of S seconds ends its curve.
PEERS is what peers.sh built; OUT is an .svg. It wants matplotlib (Debian's python3-matplotlib, so /usr/bin/python3)."""
import argparse
import os
import resource
import subprocess
import sys
import tempfile

import files

TOP = os.path.dirname(os.path.dirname(os.path.abspath(__file__)))
sys.path += [f"{TOP}/optima", f"{TOP}/bindings/python"]
import pictures  # noqa: E402

INPUTS = range(8, 17, 2)
# a run of so many seconds isn't repeated
LONG = 5
FAMILIES = {
    "a random function": lambda n: files.pla(n, 1, files.chance(1, n)),
    "the sum of two numbers": lambda n: files.pla(n, n // 2 + 1, files.halves(n // 2, lambda a, b: a + b)),
    "the product of two numbers": lambda n: files.pla(n, n, files.halves(n // 2, lambda a, b: a * b)),
}


def seconds(words, limit):
    """The processor time of a run; the limit if it takes more than that."""
    def limited():
        resource.setrlimit(resource.RLIMIT_CPU, (limit, limit))
    ran = subprocess.Popen(words, stdin=subprocess.DEVNULL, stdout=subprocess.DEVNULL, preexec_fn=limited)
    _, status, used = os.wait4(ran.pid, 0)
    ran.returncode = status
    taken = used.ru_utime + used.ru_stime
    if status and taken < limit - 1:
        sys.exit(f"{' '.join(words)}: status {status}")
    return limit if status else taken


def least_of(commands, given):
    """The least time of each command on a file, of runs in turns; of those that end within the limit."""
    found = {tool: [] for tool in commands}
    for _ in range(given.runs):
        for tool, words in commands.items():
            if max(found[tool], default=0) < LONG:
                found[tool].append(seconds(words, given.limit))
    return {tool: min(times) for tool, times in found.items() if max(times) < given.limit}


def measure(family, given, room):
    """Of each tool the numbers of inputs and the times."""
    curves, path = {}, f"{room}/function.pla"
    late = set()
    for n in INPUTS:
        with open(path, "w") as file:
            file.write(FAMILIES[family](n))
        commands = {
            "minorder": [given.minorder, path],
            "native, all sets": [f"{given.peers}/baseline", "4", path],
            "CUDD exact": [f"{given.peers}/cudd", "exact", path],
        }
        found = least_of({tool: it for tool, it in commands.items() if tool not in late}, given)
        late = commands.keys() - found.keys()
        for tool, time in found.items():
            curves.setdefault(tool, []).append((n, time))
        print(f"{family}, {n} inputs: " + ", ".join(f"{tool} {time:.4f}" for tool, time in found.items()), flush=True)
    return curves


def draw(panels, path):
    title = "Processor time of minorder, the native baseline and CUDD's exact reordering, by the number of inputs"
    figure, all_axes = pictures.pyplot.subplots(1, len(panels), figsize=(9.6, 3.6), sharey=True)
    for axes, (family, curves) in zip(all_axes, panels.items()):
        for colour, (tool, points) in zip(pictures.COLOURS, curves.items()):
            axes.plot(*zip(*points), "o-", color=colour, linewidth=1.6, markersize=4, label=tool)
        axes.set(title=family, xlabel="inputs", xticks=INPUTS, yscale="log")
        axes.grid(color="#dddddd")
        axes.set_axisbelow(True)
    all_axes[0].set_ylabel("seconds of processor time")
    all_axes[0].legend(frameon=False, loc="upper left")
    figure.tight_layout()
    pictures.save(figure, path, title)


def main():
    given = argparse.ArgumentParser(description=__doc__, formatter_class=argparse.RawDescriptionHelpFormatter)
    given.add_argument("--minorder", default=f"{TOP}/crates/minorder/out/minorder")
    given.add_argument("--peers", required=True)
    given.add_argument("--runs", type=int, default=5)
    given.add_argument("--limit", type=int, default=60)
    given.add_argument("out")
    given = given.parse_args()
    with tempfile.TemporaryDirectory() as room:
        draw({family: measure(family, given, room) for family in FAMILIES}, given.out)


if __name__ == "__main__":
    main()
