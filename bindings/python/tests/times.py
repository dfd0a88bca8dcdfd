#!/usr/bin/env python3
"""times.py [WORKERS]      prints, by inputs, how many random functions a second are done: in C by one call for many, and in
Python by a call each and by exact_many, with one worker and with WORKERS, 4 if that is left out"""
import os
import random
import sys
import time

sys.path.insert(0, os.path.dirname(os.path.dirname(os.path.abspath(__file__))))
import minorder  # noqa: E402
from minorder import _many  # noqa: E402

# how long each rate is measured, in seconds
LEAST = 1.0


def rate(call, functions):
    """Functions a second: of as many calls, each of all functions, as end within the time."""
    start, calls = time.perf_counter(), 0
    while True:
        call(functions)
        calls += 1
        seconds = time.perf_counter() - start
        if seconds >= LEAST:
            return calls * len(functions) / seconds


def main(workers):
    print(f"| Inputs | C, one call for all | Python, `exact` | `exact_many`, 1 worker | `exact_many`, {workers} workers |")
    print("|---|---|---|---|---|")
    draw = random.Random(1)
    for inputs in (3, 4, 5, 6, 8, 10, 12, 14):
        count = {3: 20_000, 4: 20_000, 5: 10_000, 6: 10_000, 8: 2_000, 10: 400, 12: 80, 14: 16}[inputs]
        functions = [draw.getrandbits(1 << inputs) for _ in range(count)]
        chunk, = _many.chunks_of(functions, inputs, 1, count, [])
        rates = (
            rate(lambda functions: _many.exact_chunk(chunk), functions),
            rate(lambda functions: [minorder.exact(it, inputs) for it in functions], functions),
            rate(lambda functions: minorder.exact_many(functions, inputs, workers=1), functions),
            rate(lambda functions: minorder.exact_many(functions, inputs, workers=workers), functions))
        print(f"| {inputs} |", " | ".join(f"{it:,.0f}" for it in rates), "|", flush=True)


main(int(sys.argv[1]) if len(sys.argv) > 1 else 4)
