#!/usr/bin/env python3
"""compare.py TEST COUNT      compares the order, the level counts and the size that TEST prints of
random functions with the program's report"""
import os
import random
import subprocess
import sys
import tempfile

TOP = os.path.dirname(os.path.dirname(os.path.dirname(os.path.abspath(__file__))))


def pla(inputs, tables):
    """The functions as a PLA file: a line for each point where one of them is 1."""
    lines = [f".i {inputs}", f".o {len(tables)}"]
    for point in range(1 << inputs):
        values = [table >> point & 1 for table in tables]
        if any(values):
            lines.append("".join(str(point >> i & 1) for i in range(inputs)) + " " + "".join(map(str, values)))
    return "\n".join([*lines, ".e", ""])


def output_of(words, given=None):
    return subprocess.run(words, input=given, stdout=subprocess.PIPE, text=True, check=True).stdout


def main(test, count):
    draw = random.Random(1)
    with tempfile.TemporaryDirectory() as folder:
        for number in range(count):
            inputs, outputs = draw.randint(1, 9), draw.randint(1, 4)
            tables = [draw.getrandbits(1 << inputs) & draw.getrandbits(1 << inputs) for _ in range(outputs)]
            words = [table >> 64 * word & (1 << 64) - 1 for table in tables for word in range(max(1, (1 << inputs) // 64))]
            found = output_of([test, str(inputs), str(outputs)], " ".join(f"{word:x}" for word in words))
            with open(f"{folder}/it.pla", "w") as file:
                file.write(pla(inputs, tables))
            report = output_of([f"{TOP}/minorder", f"{folder}/it.pla"])
            lines = [line for line in report.splitlines() if line.split(":")[0] in ("order", "levels", "nodes")]
            if found.splitlines() != lines:
                sys.exit(f"function {number} of {inputs} inputs and {outputs} outputs:\n{found}is not\n" + "\n".join(lines))
    print(f"{count} random functions: the orders, level counts and sizes are those of the program's reports")


main(sys.argv[1], int(sys.argv[2]))
