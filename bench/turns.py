#!/usr/bin/env python3
"""turns.py RUNS PROGRAM.. -- FILE..   runs programs on files in turns, and prints of each the least wall time and processor time
in seconds. A PROGRAM may have options, as "minorder --workers 1", and a FILE further words, as "mul8x8.pla mul8x8.cert"."""
import os
import subprocess
import sys
import time


def run(program, file):
    begin = time.perf_counter()
    ran = subprocess.Popen([*program.split(), *file.split()], stdout=subprocess.DEVNULL)
    _, status, used = os.wait4(ran.pid, 0)
    if status:
        sys.exit(f"{program} {file}: status {status}")
    return time.perf_counter() - begin, used.ru_utime + used.ru_stime


def main():
    if "--" not in sys.argv or len(sys.argv) < 5 or not sys.argv[1].isdigit():
        sys.exit(__doc__)
    at = sys.argv.index("--")
    runs, programs, files = int(sys.argv[1]), sys.argv[2:at], sys.argv[at + 1:]
    for file in files:
        found = {program: [] for program in programs}
        for _ in range(runs):
            for program in programs:
                found[program].append(run(program, file))
        for program in programs:
            wall, processor = map(min, zip(*found[program]))
            name = os.path.basename(file.split()[0])
            print(f"{name} {program}: wall {wall:.4f}, processor {processor:.3f}", flush=True)


if __name__ == "__main__":
    main()
