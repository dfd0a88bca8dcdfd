"""Work on processes of one's own, which end with the one that made them."""
from __future__ import annotations

import os
from collections import deque
from ctypes import CDLL
from multiprocessing import get_context
from multiprocessing.connection import Connection, wait
from signal import SIGKILL
from typing import Any, Callable, Optional, Sequence, TypeVar, cast

from ._threads import workers_of

# PR_SET_PDEATHSIG
DEATH_SIGNAL = 1
Task = TypeVar("Task")
Found = TypeVar("Found")


def each(
        work: Callable[[Task], Found], tasks: Sequence[Task], workers: Optional[int] = None,
        step: Callable[[], None] = lambda: None,
) -> list[Found]:
    """What the work gives for each task, in their order, by so many processes, as many as there are processors if that is left
    out. ``step`` is called for each task that is done. Raises what the work does, and MemoryError if a process is lost."""
    count = min(workers_of(workers), len(tasks))
    if count < 2:
        return _alone(work, tasks, step)
    crew = _Crew(work, count)
    try:
        return crew.done(tasks, step)
    finally:
        crew.end()


def _alone(work: Callable[[Task], Found], tasks: Sequence[Task], step: Callable[[], None]) -> list[Found]:
    found = []
    for task in tasks:
        found.append(work(task))
        step()
    return found


class _Crew:
    """Processes with a pipe each, which are given one task at a time."""

    def __init__(self, work: Callable[[Any], Any], count: int) -> None:
        self.context, self.work = get_context("fork"), work
        self.processes: dict[Connection, Any] = {}
        for _ in range(count):
            try:
                self.begin()
            except OSError:
                # as many as there is room for
                break

    def begin(self) -> None:
        here, there = self.context.Pipe()
        process = self.context.Process(target=_serve, args=(self.work, there, [here, *self.processes], os.getpid()))
        try:
            process.start()
        except OSError:
            here.close()
            raise
        finally:
            there.close()
        self.processes[here] = process

    def done(self, tasks: Sequence[Any], step: Callable[[], None]) -> list[Any]:
        if not self.processes:
            return _alone(self.work, tasks, step)
        found: dict[int, Any] = {}
        left = deque(enumerate(tasks))
        busy: dict[Connection, int] = {}
        for free in self.processes:
            if left:
                busy[free] = _give(free, left)
        while busy:
            for ready in wait(list(busy)):
                pipe = cast(Connection, ready)
                found[busy.pop(pipe)] = _answer(pipe)
                step()
                if left:
                    busy[pipe] = _give(pipe, left)
        return [found[number] for number in range(len(tasks))]

    def end(self) -> None:
        for pipe, process in self.processes.items():
            process.kill()
            process.join()
            pipe.close()


def _give(pipe: Connection, left: "deque[tuple[int, Any]]") -> int:
    number, task = left.popleft()
    try:
        pipe.send(task)
    except OSError:
        raise MemoryError("a process is lost") from None
    return number


def _answer(pipe: Connection) -> Any:
    try:
        is_done, value = pipe.recv()
    except (EOFError, OSError):
        raise MemoryError("a process is lost") from None
    if not is_done:
        raise value
    return value


def _serve(work: Callable[[Any], Any], pipe: Connection, others: Sequence[Connection], maker: int) -> None:
    """Answers each task of a pipe, until that is closed or the process that it was copied from ends."""
    try:
        CDLL(None).prctl(DEATH_SIGNAL, SIGKILL)
        for other in others:
            other.close()
        if os.getppid() != maker:
            return
        while True:
            task = pipe.recv()
            try:
                answer = True, work(task)
            except SystemError:
                # an interpreter without memory may raise it
                answer = False, MemoryError()
            except Exception as error:
                answer = False, error
            pipe.send(answer)
    except (EOFError, OSError, MemoryError):
        pass
    finally:
        # nothing of the process that it was copied from is to be done again
        os._exit(0)
