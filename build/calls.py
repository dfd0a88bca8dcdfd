"""Calls of rt in the folders of crates. Signals end them."""
from __future__ import annotations

import contextlib
import fcntl
import os
import signal
import subprocess
import time
from typing import IO, Iterable, Iterator, List, Sequence, Set, Tuple, Union

from crates import TOP

SIGNALS = (signal.SIGINT, signal.SIGTERM, signal.SIGHUP, signal.SIGQUIT)


class Interrupt(Exception):
    """The signal that ends a build."""


under_way: Set[subprocess.Popen[str]] = set()
interrupts: List[int] = []


def end_on_signals() -> None:
    """A signal ends the calls that are under way. The build itself ends where it waits, by `go_on`. What the caller ignores
    stays ignored."""

    def end(number: int, _: object) -> None:
        interrupts.append(number)
        for it in list(under_way):
            with contextlib.suppress(ProcessLookupError):
                os.kill(it.pid, signal.SIGTERM)

    for it in SIGNALS:
        if signal.getsignal(it) is not signal.SIG_IGN:
            signal.signal(it, end)


def go_on() -> None:
    if interrupts:
        raise Interrupt(interrupts[0])


def lock(file: Union[int, IO[str]]) -> None:
    """Waits until nobody else has locked a file or a folder."""
    while True:
        go_on()
        with contextlib.suppress(BlockingIOError):
            return fcntl.flock(file, fcntl.LOCK_EX | fcntl.LOCK_NB)
        time.sleep(0.1)


@contextlib.contextmanager
def kept_alone(crates: Iterable[str]) -> Iterator[List[int]]:
    """Waits until no rt works in the folders of these crates, and keeps others out as long as what it gives is open."""
    with contextlib.ExitStack() as opened:
        held: List[int] = []
        for crate in sorted(crates):
            held.append(os.open(f"{TOP}/crates/{crate}", os.O_RDONLY))
            opened.callback(os.close, held[-1])
            lock(held[-1])
        yield held


def called(crate: str, words: Sequence[str], held: Sequence[int] = ()) -> Tuple[int, str, float]:
    """Calls a command in a crate's folder, by a thread of its own. Returns its status, what it said, and its processor seconds.
    What is held stays open until it ends, also if this process is killed."""
    go_on()
    with subprocess.Popen(words, cwd=f"{TOP}/crates/{crate}", pass_fds=held, stdin=subprocess.DEVNULL, stdout=subprocess.PIPE,
                          stderr=subprocess.STDOUT, text=True, errors="replace") as ran:
        under_way.add(ran)
        if interrupts:
            os.kill(ran.pid, signal.SIGTERM)
        assert ran.stdout
        said = ran.stdout.read()
        under_way.discard(ran)
        _, status, usage = os.wait4(ran.pid, 0)
        ran.returncode = os.waitstatus_to_exitcode(status)
    return ran.returncode, said, usage.ru_utime + usage.ru_stime
