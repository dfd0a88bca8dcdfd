"""Builds of programs and static libraries: the libraries below, several at a time, then what is built over them."""
from __future__ import annotations

import contextlib
import os
import re
import shutil
import subprocess
import sys
import time
from concurrent.futures import FIRST_COMPLETED, Future, ThreadPoolExecutor, wait
from typing import ContextManager, Dict, Iterable, Optional, Sequence, Set, Tuple

import library
import preview
import tools
from calls import called, go_on, kept_alone
from crates import TOP, all_of, command_of, is_static, listed, named, seconds_of
from plan import GIGABYTES_A_JOB, Plan, free_gigabytes, processors
from progress import Report, minutes, spoken
from sources import is_touched, made_of, sum_of

# what rattle and rt say of a library that is damaged, or was proved over other builds of those below than lie there
UNUSABLE = re.compile(r"help: rebuild `(\w+)`|rt: the kept work of (\w+) cannot be used")
TWICE = "edited more than once during the build: {}; call this again"


class Refused(Exception):
    """Why a crate isn't built. It is tried once more after `again`, libraries that are built again with all above them."""

    def __init__(self, said: str, edited: Iterable[str] = ()) -> None:
        super().__init__(said)
        self.again = set(edited) or {one or other for one, other in UNUSABLE.findall(said)}.intersection(named())


class Build:
    """The build of a program or a static library."""

    def __init__(self, name: str) -> None:
        self.name, self.uses, self.crates = name, named(), all_of(name)
        self.seconds = seconds_of(self.crates)
        self.report = Report(command_of(name), self.seconds, self.uses, processors())
        self.answer: Optional[preview.Preview] = None
        # whether build/library.py can use the kit
        self.has_kit = True

    def begin(self, words: Sequence[str]) -> ContextManager[Optional[preview.Preview]]:
        """Says what is to come, and begins with the unproved answer, if one is to come."""
        passed = preview.passed_on(words)
        obstacle = preview.obstacle(passed, processors(), free_gigabytes(), GIGABYTES_A_JOB)
        comes = "an unproved answer comes in some two minutes" if obstacle is None else obstacle
        estimate, seconds = self.report.seconds_left(), sum(self.seconds.values())
        self.report.say(
            "; ".join(filter(None, (comes, 'a release needs no proof (README.md, "Install")'))),
            f"proving and building {len(self.crates)} crates; from nothing it takes {minutes(estimate)} here, "
            f"{int(seconds) // 60} of processor time, {GIGABYTES_A_JOB} GB of memory for each crate that is proved at a time, "
            "and 1 GB of disk")
        if obstacle is not None:
            return contextlib.nullcontext()
        rows = {it: row for it, row in listed().items() if it in self.crates}
        return preview.beside(TOP, self.name, rows, passed, self.report.say)

    def words_of(self, crate: str, jobs: int) -> Sequence[str]:
        """The command that builds a library."""
        if self.has_kit:
            return sys.executable, f"{TOP}/build/library.py", library.kit(), crate, str(jobs)
        return "rt", "lib", "--jobs", str(jobs)

    def prove_all(self, held: Sequence[int]) -> None:
        """Proves the libraries, several at a time."""
        plan = Plan({it: self.seconds[it] for it in self.crates[:-1]}, self.uses, self.answer)
        proofs: Dict[Future[Tuple[int, str, float]], str] = {}
        with ThreadPoolExecutor(len(plan.left)) as pool:
            while plan.left or proofs:
                while started := plan.start_next(self.report.done):
                    crate, jobs = started
                    self.report.start_crate(crate, jobs)
                    proofs[pool.submit(called, crate, self.words_of(crate, jobs), held)] = crate
                for ended in wait(proofs, timeout=1, return_when=FIRST_COMPLETED).done:
                    go_on()
                    crate = proofs.pop(ended)
                    plan.running.pop(crate)
                    status, said, taken = ended.result()
                    if status:
                        refused = Refused(said)
                        if not refused.again:
                            self.report.say(f"{crate} is not proved")
                        raise refused
                    self.report.end_crate(crate, taken)
                self.report.show()

    def prove_libraries(self) -> None:
        """Proves the libraries. Those that are edited meanwhile are to be built again: those above may be of before the edit."""
        before, start = {it: sum_of(it) for it in self.crates[:-1]}, time.time_ns()
        refused: Optional[Refused] = None
        # `rt lib` itself keeps others out
        with kept_alone(before if self.has_kit else ()) as held:
            try:
                self.prove_all(held)
            except Refused as error:
                refused = error
            finally:
                edited = {it for it in before if sum_of(it) != before[it] or is_touched(it, start)}
                library.forget(edited)
        if edited:
            refused = Refused(TWICE.format(", ".join(sorted(edited))), edited)
        if refused:
            raise refused

    def build_over_libraries(self) -> None:
        """Proves the crate of the program or the static library itself, and builds it."""
        self.report.start_crate(self.name, 1)
        start = time.time_ns()
        words = ("rt", "lib") if is_static(self.name) else ("rt", "run", "--", "--help")
        with ThreadPoolExecutor(1) as pool:
            call = pool.submit(called, self.name, words)
            while not wait([call], timeout=1).done:
                self.report.show()
        go_on()
        status, said, taken = call.result()
        if status:
            raise Refused(said)
        if is_touched(self.name, start):
            raise Refused(TWICE.format(self.name), {self.name})
        if is_static(self.name):
            add_allocator(made_of(self.name)[1])
        self.report.end_crate(self.name, taken)

    def build(self) -> None:
        """Proves and builds all, and again what doesn't fit the sources, or the libraries below, by then."""
        if lacking := library.lacking(library.kit()):
            self.has_kit = False
            self.report.say(
                f"build/library.py doesn't know this kit ({lacking}): `rt lib` builds libraries one at a time, with their proofs")
        known: Set[str] = set()
        while True:
            try:
                self.prove_libraries()
                return self.build_over_libraries()
            except Refused as refused:
                if refused.again <= known:
                    raise
                known |= refused.again
                with kept_alone(refused.again):
                    library.forget(refused.again)
                names = ", ".join(sorted(refused.again))
                self.report.begin_again(f"building again what was edited or can't be used as it is, with all above: {names}")


def add_allocator(made: str) -> None:
    """Puts what the library calls of the kit, its allocator over malloc, into the archive."""
    script = f"open {made}\naddlib {library.kit()}/c/liblibc_c.a\nsave\nend\n"
    subprocess.run(["ar", "-M"], check=True, input=script, text=True)


def build(name: str, words: Sequence[str]) -> None:
    """Builds a program or a static library. The words are those that a program is run with next."""
    tools.need("rt", *["ar"] * is_static(name), of=command_of(name), instead='a release needs none (README.md, "Install")')
    made = Build(name)
    # what rt leaves there serves the next edit alone, unless it was there before as someone's work
    left = f"{TOP}/crates/{name}/out/incremental"
    is_new = not os.path.isdir(left)
    try:
        with made.begin(words) as made.answer:
            made.build()
    except Refused as refused:
        stands = f"\n{name}: the answer above stands unproved" if made.answer and made.answer.has_answered else ""
        sys.exit(f"{refused}{stands}")
    if is_new:
        shutil.rmtree(left, ignore_errors=True)
    made.report.say(f"built in {spoken(made.report.passed())}, of {spoken(made.report.taken)} of processor time")
