"""Clusters whose workers take chunks of files."""
import importlib
import logging
from concurrent.futures import BrokenExecutor, Executor, Future, InvalidStateError
from contextlib import contextmanager, suppress
from threading import Event
from typing import Any, Callable, Iterator, NamedTuple, Optional, Set, TypeVar

from ._ends import BAD_WORDS, DEVICE, NO_LIBRARY, Refused
from ._arguments import shown
from ._threads import Threads

T = TypeVar("T")
# how long a scheduler may take to answer
SECONDS = 10


class Cluster(NamedTuple):
    """An executor, and how many workers it has."""
    executor: Optional[Executor]
    workers: Optional[int]


class _Watched(Executor):
    """The executor of a client of Dask's. When the client loses its scheduler, Dask leaves some futures without an end; here they
    fail."""

    def __init__(self, client: Any, thread: Threads) -> None:
        self._client, self._executor = client, client.get_executor()
        self._left: "Set[Future[Any]]" = set()
        self._ended = Event()
        thread.submit(self._watch)

    def submit(self, fn: Callable[..., T], /, *args: Any, **kwargs: Any) -> "Future[T]":
        if self._client.status == "closed":
            raise self._lost()
        future: "Future[T]" = self._executor.submit(fn, *args, **kwargs)
        self._left.add(future)
        future.add_done_callback(self._left.discard)
        return future

    def end(self) -> None:
        self._ended.set()

    def _watch(self) -> None:
        while not self._ended.wait(1):
            if self._client.status == "closed":
                for future in self._left.copy():
                    with suppress(InvalidStateError):
                        future.set_exception(self._lost())

    @staticmethod
    def _lost() -> BrokenExecutor:
        return BrokenExecutor("the scheduler is lost")


@contextmanager
def cluster_at(address: str) -> Iterator[Cluster]:
    """The Dask cluster whose scheduler has an address. Raises Refused."""
    try:
        distributed, comm = map(importlib.import_module, ("distributed", "distributed.comm"))
    except ImportError:
        raise Refused(NO_LIBRARY, "--dask: Dask isn't here (Debian's python3-distributed)") from None

    def client_there() -> Any:
        # a client of no address takes long to end
        comm.resolve_address(address)
        return distributed.Client(address, timeout=SECONDS, set_as_default=False)

    # on a thread, so that those that Dask begins leave signals to the main thread
    thread = Threads(1)
    # what fails is said by a warning
    logging.disable()
    try:
        with _begun(thread, client_there, address) as client:
            executor = _Watched(client, thread)
            try:
                yield Cluster(executor, max(1, sum(client.nthreads().values())))
            finally:
                executor.end()
    finally:
        logging.disable(logging.NOTSET)
        thread.shutdown()


def _begun(thread: Threads, client_there: Callable[[], Any], address: str) -> Any:
    try:
        return thread.submit(client_there).result()
    except Exception as error:
        status = BAD_WORDS if isinstance(error, ValueError) else DEVICE
        raise Refused(status, f"--dask: {shown(address)}: {error}") from None
