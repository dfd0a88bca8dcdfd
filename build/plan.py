"""Which library is proved next, by the processors and the memory that are free."""
from __future__ import annotations

import os
from typing import Collection, Dict, Optional, Tuple

import preview
from crates import Seconds, Uses, chains

GIGABYTES_A_JOB = 3
GIGABYTES_A_FURTHER_JOB = 1
FIRST_JOBS = 2
# more take no less time
MOST_JOBS = 3


def processors() -> int:
    return len(os.sched_getaffinity(0))


def free_gigabytes() -> int:
    with open("/proc/meminfo") as lines:
        return next(int(line.split()[1]) for line in lines if line.startswith("MemAvailable")) >> 20


class Plan:
    """Which library is proved next, and with how many jobs: that with the longest chain of libraries behind it.

    It has several jobs if none that is under way has a longer one, since the build waits for it; else one, and more only if no
    other library could use a processor. One job more than there are processors keeps them busy while one has work for one job."""

    def __init__(self, libraries: Seconds, uses: Uses, answer: Optional[preview.Preview] = None) -> None:
        """`answer` is the preview beside it. Until it ends it has its processors, and may still be about to take its memory."""
        self.answer, self.uses, self.behind = answer, uses, chains(libraries, uses)
        self.left = sorted(libraries, key=lambda it: -self.behind[it])
        self.running: Dict[str, int] = {}

    def start_next(self, done: Collection[str]) -> Optional[Tuple[str, int]]:
        """The library that starts now, with its jobs; None if none is to start before another one has ended."""
        ready = [it for it in self.left if all(dep in done for dep in self.uses[it])]
        is_answering = bool(self.answer and self.answer.is_running())
        memory = free_gigabytes() - preview.GIGABYTES * is_answering
        if not ready or (self.running and memory < GIGABYTES_A_JOB):
            return None
        crate = ready[0]
        idle = processors() - preview.PROCESSORS * is_answering - sum(self.running.values())
        is_first = all(self.behind[crate] >= self.behind[it] for it in self.running)
        least = FIRST_JOBS if is_first else min(1, idle + (not is_answering))
        jobs = min(max(least, idle - len(ready) + 1), MOST_JOBS, 1 + max(0, memory - GIGABYTES_A_JOB) // GIGABYTES_A_FURTHER_JOB)
        if jobs < 1:
            return None
        self.left.remove(crate)
        self.running[crate] = jobs
        return crate, jobs
