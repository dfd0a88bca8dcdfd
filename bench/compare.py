#!/usr/bin/env python3
"""compare.py [--peers FOLDER] [--runs K] [--limit SECONDS] [--workers W] [NAME ..]

Runs minorder (alone, and with a certificate), ordercheck on that certificate, the native baseline and CUDD's exact reordering
in turns on the same files, and prints a table: the least wall and processor time of K runs of minorder and its peak memory, and
the processor time of the others as multiples of minorder's. A run of more seconds of processor time than the limit is late. The
baseline runs twice, over all sets and with the optimum as its bound, which is the tightest one. An answer that differs ends the
comparison.
FOLDER is what peers.sh made; without it both programs run alone. The names are those of files.py, all where none is given.
"""
import argparse
import os
import resource
import subprocess
import sys
import tempfile
import time

import files

TOP = os.path.dirname(os.path.dirname(os.path.abspath(__file__)))
sys.path += [f"{TOP}/bindings/python", f"{TOP}/build"]
import tools  # noqa: E402
from minorder.files import parts_of  # noqa: E402


def peak_of(process):
    """The peak memory so far of a running process in megabytes. What wait4 tells has the memory of this script in it."""
    try:
        with open(f"/proc/{process}/status") as status:
            return next((int(line.split()[1]) / 1024 for line in status if line.startswith("VmHWM")), 0)
    except OSError:
        return 0


class Ran:
    """The least times of some runs of a command, its peak memory, and what it printed."""

    def __init__(self):
        self.wall, self.processor, self.peak, self.text = float("inf"), float("inf"), 0, None

    def again(self, words, limit):
        """Whether a run ends within so many seconds of processor time."""
        start = time.monotonic()
        with tempfile.TemporaryFile() as out:
            process = subprocess.Popen(words, stdin=subprocess.DEVNULL, stdout=out, stderr=subprocess.DEVNULL,
                                       preexec_fn=lambda: resource.setrlimit(resource.RLIMIT_CPU, (limit, limit)))
            while process.returncode is None:
                pid, status, used = os.wait4(process.pid, os.WNOHANG)
                if pid:
                    process.returncode = status
                else:
                    self.peak = max(self.peak, peak_of(process.pid))
                    time.sleep(0.001)
            if status:
                return False
            out.seek(0)
            self.text = out.read().decode()
        self.wall = min(self.wall, time.monotonic() - start)
        self.processor = min(self.processor, used.ru_utime + used.ru_stime)
        return True

    def line(self, name):
        return parts_of(self.text or "").get(name, "-")


def ratio(one, other):
    return f"{one.processor / other.processor:.2f}" if one.processor != float("inf") else "-"


def commands_of(given, pla, cert):
    """What is run on a file, by its tool."""
    minorder = [given.minorder, "--workers", str(given.workers)]
    commands = {
        "minorder": [*minorder, pla],
        "certificate": [*minorder, "--cert", cert, pla],
        "check": [given.ordercheck, pla, cert],
    }
    if given.peers:
        commands["native"] = [f"{given.peers}/baseline", str(given.workers), pla]
        if os.path.exists(f"{given.peers}/cudd"):
            commands["CUDD"] = [f"{given.peers}/cudd", "exact", pla]
    return commands


def run_in_turns(given, pla, cert):
    """What each tool took, by its name, and the tools that were late."""
    ran = {tool: Ran() for tool in ("minorder", "certificate", "check", "native", "bounded", "CUDD")}
    commands, late = commands_of(given, pla, cert), set()
    for _ in range(given.runs):
        for tool, words in commands.items():
            if tool not in late and not ran[tool].again(words, given.limit):
                late.add(tool)
        if given.peers and "minorder" not in late:
            bound = ["--bound", ran["minorder"].line("nodes")]
            ran["bounded"].again([f"{given.peers}/baseline", *bound, str(given.workers), pla], given.limit)
    return ran, late


def judge(name, ran):
    """Ends the comparison if an answer differs."""
    found, best = ran["minorder"], ran["minorder"].line("nodes")
    for native in ("native", "bounded"):
        if ran[native].text and (ran[native].line("nodes"), ran[native].line("order")) != (best, found.line("order")):
            sys.exit(f"{name}: the baseline found another answer")
    if ran["check"].text and ran["check"].text != f"valid {best}\n":
        sys.exit(f"{name}: ordercheck says {ran['check'].text}")


def compare(name, given, room):
    pla, cert = f"{room}/{name}.pla", f"{room}/{name}.cert"
    with open(pla, "w") as file:
        file.write(files.FILES[name]())
    ran, late = run_in_turns(given, pla, cert)
    judge(name, ran)
    found = ran["minorder"]
    cells = [name, f"{found.wall:.3f}", f"{found.processor:.2f}", f"{found.peak:.0f}"]
    others = "certificate", "check", "native", "bounded", "CUDD"
    cells += ["late" if tool in late else ratio(ran[tool], found) for tool in others]
    print("| " + " | ".join(cells) + " |", flush=True)


def main():
    given = argparse.ArgumentParser(description=__doc__, formatter_class=argparse.RawDescriptionHelpFormatter)
    given.add_argument("--minorder", default=f"{TOP}/crates/minorder/out/minorder")
    given.add_argument("--ordercheck", default=f"{TOP}/crates/ordercheck/out/ordercheck")
    given.add_argument("--peers")
    given.add_argument("--runs", type=int, default=3)
    given.add_argument("--limit", type=int, default=30)
    given.add_argument("--workers", type=int, default=4)
    given.add_argument("names", nargs="*")
    given = given.parse_args()
    tools.need(given.minorder, given.ordercheck)
    heads = ["File", "minorder, s", "processor, s", "MB", "--cert", "ordercheck", "native", "native, bound", "CUDD exact"]
    print("| " + " | ".join(heads) + " |\n|" + "---|" * len(heads))
    with tempfile.TemporaryDirectory() as room:
        for name in given.names or files.FILES:
            compare(name, given, room)


if __name__ == "__main__":
    main()
