"""Work on threads that the interpreter needn't wait for, and by executors of other packages."""
import os
import warnings
from concurrent.futures import BrokenExecutor, Executor, Future
from contextlib import suppress
from ctypes import CDLL
from mmap import mmap
from queue import SimpleQueue
from signal import SIG_BLOCK, SIG_SETMASK, SIGHUP, SIGINT, SIGTERM, pthread_sigmask
from threading import Thread, current_thread, main_thread
from typing import Any, Callable, Dict, Generic, Optional, Tuple, TypeVar

from ._arguments import shown, whole
from ._errors import BadArgument, BadShape

T = TypeVar("T")
Key = TypeVar("Key")
# calls with so many inputs may take longer than a few milliseconds
LASTING = 12
# how many tasks an executor is given before the first one's outcome is waited for
AHEAD = 256
# a thread that gets no memory while it starts is never heard of again, and the one that starts it waits for ever
THREAD_BYTES = 16 << 20
MOST_WORKERS = 1024
# the tasks that a crew has take so many bytes at most, where they are more than one
MOST_BYTES = 1 << 28

with suppress(OSError):
    # glibc loads it where a thread ends, and aborts if memory is out by then
    CDLL("libgcc_s.so.1")


def aside(inputs: int, call: Callable[..., T], *arguments: object) -> T:
    """What a call gives. If it may last, Ctrl-C leaves it: the main thread waits for another one that makes it."""
    if inputs < LASTING or current_thread() is not main_thread():
        return call(*arguments)
    try:
        one = Threads(1)
    except MemoryError:
        # there is no room for a thread
        return call(*arguments)
    try:
        return one.submit(call, *arguments).result()
    finally:
        one.shutdown()


class Threads(Executor):
    """Threads that end with the interpreter, also in the midst of a call, and so let it end. Raises MemoryError if one can't be
    had."""

    def __init__(self, workers: int) -> None:
        self._started = 0
        self._tasks: "SimpleQueue[Optional[Tuple[Future[Any], Callable[[], Any]]]]" = SimpleQueue()
        # signals are for the main thread
        before = pthread_sigmask(SIG_BLOCK, (SIGHUP, SIGINT, SIGTERM))
        try:
            for _ in range(workers):
                mmap(-1, THREAD_BYTES).close()
                Thread(target=self._work, daemon=True).start()
                self._started += 1
        except (OSError, RuntimeError) as error:
            self.shutdown()
            raise MemoryError(str(error)) from None
        finally:
            pthread_sigmask(SIG_SETMASK, before)

    def _work(self) -> None:
        while (task := self._tasks.get()) is not None:
            future, call = task
            if future.set_running_or_notify_cancel():
                try:
                    future.set_result(call())
                except BaseException as error:
                    future.set_exception(error)

    def submit(self, fn: Callable[..., T], /, *args: Any, **kwargs: Any) -> "Future[T]":
        future: "Future[T]" = Future()
        self._tasks.put((future, lambda: fn(*args, **kwargs)))
        return future

    def shutdown(self, wait: bool = False, *, cancel_futures: bool = False) -> None:
        """Lets each thread end behind what it was given."""
        for _ in range(self._started):
            self._tasks.put(None)


def workers_of(workers: Optional[int]) -> int:
    """A number of threads, or of a cluster's workers; as many as there are processors if it is left out."""
    if workers is None:
        return len(os.sched_getaffinity(0))
    number = whole(workers, "workers")
    if not 1 <= number <= MOST_WORKERS:
        raise BadShape(f"workers: {shown(number)}: there are 1 to {MOST_WORKERS}")
    return number


def checked_executor(executor: Optional[Executor]) -> Optional[Executor]:
    """Raises BadArgument."""
    if executor is not None and (isinstance(executor, type) or not callable(getattr(executor, "submit", None))):
        raise BadArgument(f"executor: {shown(executor)} is no executor of concurrent.futures")
    return executor


class Crew(Generic[Key]):
    """Threads, or an executor's workers, which are given tasks, each with a key, and give what the work makes of them as it is
    done. A task that fails with an executor is done here, with a warning. Raises BadArgument, BadShape."""

    def __init__(self, work: Callable[[bytes], bytes], workers: Optional[int], executor: Optional[Executor]) -> None:
        count = workers_of(workers)
        self._work, self._executor = work, checked_executor(executor)
        self._pool = Threads(count) if executor is None else executor
        # one more than there are threads, so that none waits for its next task
        self._room = count + 1 if executor is None else max(AHEAD, 2 * count)
        self._given: "Dict[Future[bytes], Tuple[Key, bytes]]" = {}
        self._bytes = 0
        self._done: "SimpleQueue[Future[bytes]]" = SimpleQueue()

    def __enter__(self) -> "Crew[Key]":
        return self

    def __exit__(self, *_: object) -> None:
        for future in self._given:
            future.cancel()
        if self._executor is None:
            self._pool.shutdown(wait=False)

    def has_tasks(self) -> bool:
        return bool(self._given)

    def has_room(self) -> bool:
        return len(self._given) < self._room and self._bytes < MOST_BYTES

    def is_any_done(self) -> bool:
        return not self._done.empty()

    def give(self, key: Key, task: bytes) -> None:
        future = _submitted(self._pool, self._work, task)
        self._given[future] = key, task
        self._bytes += len(task)
        future.add_done_callback(self._done.put)

    def take(self) -> Tuple[Key, bytes]:
        """The key and the outcome of a task that is done; waits for one."""
        future = self._done.get()
        key, task = self._given.pop(future)
        self._bytes -= len(task)
        return key, future.result() if self._executor is None else _outcome(self._work, task, future)


def _submitted(pool: Executor, work: Callable[[bytes], bytes], task: bytes) -> "Future[bytes]":
    try:
        return pool.submit(work, task)
    except BrokenExecutor as error:
        lost: "Future[bytes]" = Future()
        lost.set_exception(error)
        return lost


def _outcome(work: Callable[[bytes], bytes], task: bytes, future: "Future[bytes]") -> bytes:
    """What an executor gives for a task, else what the work gives here."""
    try:
        return future.result()
    except Exception as error:
        warnings.warn(f"the workers failed with {error!r}: this process does their part", RuntimeWarning, stacklevel=2)
    return aside(LASTING, work, task)
