"""How far a build is, on standard error."""
from __future__ import annotations

import contextlib
import shutil
import sys
import threading
import time
from typing import Dict, Tuple

from crates import Seconds, Uses, chains

# each job of a proof reads all libraries below anew: two take two thirds of the time of one, and all crates an eighth more in all
CHAIN_SPEED = 1.5
ALL_JOBS = 1.125
# a proof that takes less than this share of what is expected was kept by an earlier build
KEPT = 0.25


def spoken(seconds: float) -> str:
    whole, seconds = divmod(int(seconds), 60)
    return f"{whole} min {seconds:02} s"


def minutes(seconds: float) -> str:
    whole = round(seconds / 60)
    return f"some {whole} minutes" if whole > 1 else "a minute or so"


class Report:
    """Says how far a build is: one line that is written over on a terminal, else a line for each crate. Threads may share it."""

    def __init__(self, name: str, seconds: Seconds, uses: Uses, processors: int) -> None:
        self.name, self.seconds, self.uses, self.processors = name, seconds, uses, processors
        self.start, self.taken = time.monotonic(), 0.0
        # the work of each proof that has ended, and when each that is under way began, with its jobs
        self.done: Seconds = {}
        self.running: Dict[str, Tuple[float, int]] = {}
        self.is_terminal = sys.stderr.isatty()
        self.writing = threading.Lock()

    def say(self, *lines: str) -> None:
        clear = "\r\x1b[K" if self.is_terminal else ""
        self.write(clear + "".join(f"{self.name}: {line}\n" for line in lines))

    def write(self, text: str) -> None:
        """A build goes on where nobody takes what it says."""
        with self.writing, contextlib.suppress(OSError):
            print(text, end="", file=sys.stderr, flush=True)

    def passed(self) -> float:
        return time.monotonic() - self.start

    def work(self, crate: str) -> float:
        """How many seconds one job had needed for what a proof that is under way has done."""
        since, jobs = self.running[crate]
        return (time.monotonic() - since) * (1 + jobs) / 2

    def slowness(self) -> float:
        """How many times as long as expected proofs take here."""
        proved = [it for it, work in self.done.items() if work > KEPT * self.seconds[it]]
        return sum(self.done[it] for it in proved) / sum(self.seconds[it] for it in proved) if proved else 1.0

    def left(self) -> Seconds:
        """The expected seconds that are left of each crate that isn't proved."""
        slowness = self.slowness()
        left = {it: seconds for it, seconds in self.seconds.items() if it not in self.done}
        for it in self.running:
            left[it] = max(left[it] - self.work(it) / slowness, left[it] / 10)
        return left

    def seconds_left(self) -> float:
        """As many as the longest chain takes, or all crates by all processors, whichever is more."""
        left = self.left()
        longest = max(chains(left, self.uses).values(), default=0.0)
        return self.slowness() * max(longest / CHAIN_SPEED, ALL_JOBS * sum(left.values()) / self.processors)

    def so_far(self) -> str:
        left = sum(self.left().values())
        share = int(100 - 100 * left / sum(self.seconds.values()))
        return f"{share} % after {spoken(self.passed())}" + (f", {minutes(self.seconds_left())} left" if left else "")

    def begin_again(self, why: str) -> None:
        self.done.clear()
        self.running.clear()
        self.say(why)

    def show(self) -> None:
        if self.is_terminal:
            width = shutil.get_terminal_size().columns - 1
            line = f"{self.name}: {self.so_far()}, proving {', '.join(self.running)}"
            self.write(f"\r\x1b[K{line[:width]}")

    def start_crate(self, crate: str, jobs: int) -> None:
        self.running[crate] = time.monotonic(), jobs
        self.show()

    def end_crate(self, crate: str, taken: float) -> None:
        self.done[crate] = self.work(crate)
        del self.running[crate]
        self.taken += taken
        if self.is_terminal:
            self.show()
        else:
            self.say(f"{self.so_far()}: {crate} is proved, in {taken:.0f} s of processor time")
