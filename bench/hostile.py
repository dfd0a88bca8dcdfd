#!/usr/bin/env python3
"""hostile.py [--minorder PROGRAM] [--ordercheck PROGRAM] [NAME ..]

Times ordercheck on the certificate that minorder writes and on three that list every set of variables but the full one: each
at cost 0, each at 999,999, and each at a share of the total by its size, which has all edges judged up to the first that fails.
The least wall time of three runs.
"""
import argparse
import os
import subprocess
import sys
import tempfile
import time

import files

TOP = os.path.dirname(os.path.dirname(os.path.abspath(__file__)))
sys.path.append(f"{TOP}/build")
import tools  # noqa: E402


def timed(words):
    best, said = float("inf"), ""
    for _ in range(3):
        start = time.monotonic()
        said = subprocess.run(words, stdout=subprocess.PIPE, text=True).stdout.strip()
        best = min(best, time.monotonic() - start)
    return best, said


def hostile_certificates(head):
    """The three certificates, with the lines of the good one above its sets."""
    inputs, total = int(head.split("inputs ")[1].split()[0]), int(head.split("total ")[1].split()[0])
    full = (1 << inputs) - 1

    def by_size(mask):
        return max(0, total * bin(mask).count("1") // inputs - inputs)

    for cost in (lambda mask: 0, lambda mask: 999_999, by_size):
        cells = "".join(f"{mask:04x} {cost(mask)}\n" for mask in range(full))
        yield f"{head}cells {full}\n{cells}end\n"


def main():
    given = argparse.ArgumentParser(description=__doc__, formatter_class=argparse.RawDescriptionHelpFormatter)
    given.add_argument("--minorder", default=f"{TOP}/crates/minorder/out/minorder")
    given.add_argument("--ordercheck", default=f"{TOP}/crates/ordercheck/out/ordercheck")
    given.add_argument("names", nargs="*", default=["rand16_16", "mul8x8", "add8x8"])
    given = given.parse_args()
    tools.need(given.minorder, given.ordercheck)
    print("| File | good, s | every cost 0 | s | every cost 999,999 | s | by size | s |\n|---|---|---|---|---|---|---|---|")
    with tempfile.TemporaryDirectory() as room:
        for name in given.names:
            pla, cert = f"{room}/{name}.pla", f"{room}/{name}.cert"
            with open(pla, "w") as file:
                file.write(files.FILES[name]())
            subprocess.run([given.minorder, "--cert", cert, pla], stdout=subprocess.DEVNULL, check=True)
            good, _ = timed([given.ordercheck, pla, cert])
            with open(cert) as file:
                head = file.read().split("cells ")[0]
            cells = [name, f"{good:.2f}"]
            for text in hostile_certificates(head):
                with open(cert, "w") as file:
                    file.write(text)
                seconds, said = timed([given.ordercheck, pla, cert])
                cells += [said, f"{seconds:.2f}"]
            print("| " + " | ".join(cells) + " |", flush=True)


if __name__ == "__main__":
    main()
