#!/usr/bin/env python3
"""small.py INPUTS OUTPUTS COUNT [PEERS]    what COUNT random problems of at most 10 inputs take, by several ways

The ways are the library, the dynamic program in C in its plainest form and with truth tables in place of class tables, the
program in a loop and by four at a time, and, where bench/peers.sh built it in PEERS, CUDD's exact reordering in one process.
Each is run five times, in turns, and the fastest run counts."""
import os
import random
import subprocess
import sys
import tempfile
import time

TOP = os.path.dirname(os.path.dirname(os.path.abspath(__file__)))
sys.path.append(f"{TOP}/build")
import tools  # noqa: E402


def write_files(room, inputs, outputs, count):
    chosen = random.Random(inputs)
    for number in range(count):
        rows = [f"{point:0{inputs}b} {chosen.getrandbits(outputs):0{outputs}b}" for point in range(1 << inputs)]
        with open(f"{room}/{number}.pla", "w") as file:
            print(f".i {inputs}", f".o {outputs}", *rows, ".e", sep="\n", file=file)
    return [f"{room}/{number}.pla" for number in range(count)]


def told(command):
    """The milliseconds a file that a harness prints."""
    return float(subprocess.run(command, check=True, capture_output=True, text=True).stdout.split()[0])


def measured(script, files):
    """The milliseconds a file that a shell's script takes for the files, which it is given as a list of lines."""
    start = time.monotonic()
    subprocess.run(["sh", "-c", script], check=True, input="\n".join(files), text=True, stdout=subprocess.DEVNULL)
    return (time.monotonic() - start) * 1000 / len(files)


def main():
    if not 4 <= len(sys.argv) <= 5 or not all(word.isdigit() for word in sys.argv[1:4]):
        sys.exit(__doc__)
    inputs, outputs, count = (int(word) for word in sys.argv[1:4])
    peers = sys.argv[4] if len(sys.argv) > 4 else None
    compiler = os.environ.get("CC", "cc")
    tools.need(compiler)
    for made in ([f"{TOP}/minorder", "--help"], [f"{TOP}/libminorder"]):
        if subprocess.run(made, stdout=subprocess.DEVNULL).returncode:
            # it has said why
            sys.exit(1)
    program = f"{TOP}/crates/minorder/out/minorder"
    with tempfile.TemporaryDirectory() as room:
        files = write_files(room, inputs, outputs, count)
        include = ["-I", f"{TOP}/include", f"{TOP}/bench/small.c", f"{TOP}/lib/libminorder.a"]
        subprocess.run([compiler, "-O2", *include, "-o", f"{room}/small"], check=True)
        for name in ("plain", "values"):
            subprocess.run([compiler, "-O3", "-march=native", f"{TOP}/bench/{name}.c", "-o", f"{room}/{name}"], check=True)
        ways = {
            "libminorder, one process": lambda: told([f"{room}/small", *files]),
            "the plain program in C, one process": lambda: told([f"{room}/plain", *files]),
            "the program in C by truth tables, one process": lambda: told([f"{room}/values", *files]),
            "minorder --workers 1, in a loop": lambda: measured(f"while read -r it; do {program} --workers 1 $it; done", files),
            "minorder --workers 1, xargs -P 4": lambda: measured(f"xargs -n 1 -P 4 {program} --workers 1", files),
        }
        if peers:
            ways["CUDD's exact reordering, one process"] = lambda: told([f"{peers}/cudd", "exact", *files])
        taken = {name: [] for name in ways}
        for _ in range(5):
            for name, way in ways.items():
                taken[name].append(way())
        least = {name: min(times) for name, times in taken.items()}
        library = least["libminorder, one process"]
        print(f"the library: {1000 * library:.3g} microseconds a problem\n")
        print("| Way | Times as long as the library |", "|---|---|", sep="\n")
        for name, time_of_it in least.items():
            print(f"| {name} | {time_of_it / library:.3g} |")


if __name__ == "__main__":
    main()
