"""Files, and lines of files, that are written as a whole or not at all."""
from __future__ import annotations

import fcntl
import os
import select
import shutil
import signal
import stat
import tempfile
from contextlib import contextmanager, nullcontext, suppress
from threading import current_thread, main_thread
from types import FrameType
from typing import Callable, Iterable, Iterator, Mapping, Optional, Sequence

from ._arguments import shown
from ._errors import BadArgument, BadPath

SIGNALS = (signal.SIGINT, signal.SIGTERM, signal.SIGHUP)


def path_of(path: object, argument: str = "path") -> str:
    """A path as a text. Raises BadArgument."""
    with suppress(TypeError, UnicodeEncodeError):
        text = os.fspath(path) if isinstance(path, (str, os.PathLike)) else None
        if isinstance(text, str) and b"\0" not in os.fsencode(text):
            return text
    raise BadArgument(f"{argument}: {shown(path)} is no path")


def suffix_among(path: str, suffixes: Sequence[str], said: str) -> str:
    """What the name of a file ends in, one of these suffixes. Raises BadPath."""
    suffix = os.path.splitext(path)[1].lower()
    if os.path.basename(path).lower() in suffixes:
        raise BadPath(f"{path}: {said} has a name in front of its suffix")
    if suffix not in suffixes:
        ends = f"{', '.join(suffixes[:-1])} or {suffixes[-1]}"
        raise BadPath(f"{path or repr(path)}: the name of {said} ends in {ends}")
    return suffix


def named(error: OSError, path: str) -> OSError:
    """An error like this one, of the file with a name."""
    return OSError(error.errno, error.strerror or str(error), path)


@contextmanager
def undisturbed() -> Iterator[None]:
    """Lets signals wait while something is done that is to be whole."""
    before = signal.pthread_sigmask(signal.SIG_BLOCK, SIGNALS)
    try:
        yield
    finally:
        signal.pthread_sigmask(signal.SIG_SETMASK, before)


def write_file(path: str, content: bytes) -> None:
    """Writes a plain file as a whole, or leaves what was there; one that was there keeps its mode, and a link what it leads to.
    A pipe or a device is written into. Raises OSError with its name."""
    try:
        mode = _mode_of(path)
        if mode is None or stat.S_ISREG(mode) or stat.S_ISDIR(mode):
            _replace(os.path.realpath(path), mode, content)
        else:
            with open(os.open(path, os.O_WRONLY | os.O_NOCTTY), "wb") as file:
                file.write(content)
    except OSError as error:
        raise named(error, path) from None


def _mode_of(path: str) -> Optional[int]:
    """The mode of what is there, None if nothing is. Raises OSError, also for links that lead round."""
    try:
        return os.stat(path).st_mode
    except FileNotFoundError:
        return None


def _replace(place: str, mode: Optional[int], content: bytes) -> None:
    """Puts a file into a place, with the mode of one that is there and may be written. Raises OSError."""
    part = f"{place}.{os.getpid()}.part"
    with undisturbed():
        try:
            with open(part, "wb") as file:
                if mode is not None and stat.S_ISREG(mode):
                    open(place, "ab").close()
                    os.fchmod(file.fileno(), stat.S_IMODE(mode))
                file.write(content)
            os.replace(part, place)
        except BaseException:
            with suppress(OSError):
                os.unlink(part)
            raise


def overwritten(written: Iterable[str], read: Iterable[str]) -> Optional[str]:
    """The first of the paths to be written that leads to a plain file which is read; None if none does."""
    known = {_identity(path) for path in read} - {None}
    return next((path for path in written if _identity(path) in known), None)


def _identity(path: str) -> Optional[tuple[int, int]]:
    """What all paths to a plain file have alike; None if there is none."""
    with suppress(OSError, ValueError):
        found = os.stat(path)
        if stat.S_ISREG(found.st_mode):
            return found.st_dev, found.st_ino
    return None


def write_whole(number: int, line: bytes) -> None:
    """Writes a line to an open file at once, so that no signal but SIGKILL cuts it. A pipe takes a short line as a whole or not
    at all, so a signal may end the wait for it."""
    is_short = len(line) <= select.PIPE_BUF and not stat.S_ISREG(os.fstat(number).st_mode)
    with nullcontext() if is_short else undisturbed():
        rest = memoryview(line)
        while rest:
            try:
                rest = rest[os.write(number, rest):]
            except BlockingIOError:
                select.select((), (number,), ())


def write_all(folder: str, contents: Callable[[], Mapping[str, bytes]]) -> None:
    """Writes files into a folder, which is made if it isn't there: all of them or none. What they are is asked for when no
    other process writes there so. Raises OSError with a name."""
    made: list[str] = []
    places: list[str] = []

    def undo() -> None:
        for place in places:
            shutil.rmtree(place, ignore_errors=True)
        for above in made:
            with suppress(OSError):
                os.rmdir(above)

    with undone(undo):
        with undisturbed():
            made += _made(folder)
            places.append(_room_in(folder))
        with _locked(folder):
            names = []
            for name, content in contents().items():
                names.append(name)
                try:
                    with open(os.path.join(places[0], name), "wb") as file:
                        file.write(content)
                except OSError as error:
                    raise named(error, os.path.join(folder, name)) from None
            with undisturbed():
                for name in names:
                    os.replace(os.path.join(places[0], name), os.path.join(folder, name))
                os.rmdir(places.pop())
                made.clear()


def _made(folder: str) -> list[str]:
    """Makes a folder and those above it; those that it made, the lowest first."""
    made, above = [], os.path.abspath(folder)
    while not os.path.lexists(above):
        made.append(above)
        above = os.path.dirname(above)
    os.makedirs(folder, exist_ok=True)
    return made


def _room_in(folder: str) -> str:
    """A new folder in a folder."""
    try:
        return tempfile.mkdtemp(prefix=".minorder-", dir=folder)
    except OSError as error:
        raise named(error, folder) from None


@contextmanager
def _locked(folder: str) -> Iterator[None]:
    """Waits for other processes that have the folder so, where its file system has locks."""
    number = os.open(folder, os.O_RDONLY)
    try:
        with suppress(OSError):
            fcntl.flock(number, fcntl.LOCK_EX)
        yield
    finally:
        os.close(number)


@contextmanager
def undone(undo: Callable[[], None]) -> Iterator[None]:
    """Undoes what was begun if it fails, or if a signal ends the process."""
    def end(number: int, _: Optional[FrameType]) -> None:
        undo()
        signal.signal(number, signal.SIG_DFL)
        os.kill(os.getpid(), number)

    is_main = current_thread() is main_thread()
    ending = [number for number in SIGNALS if is_main and signal.getsignal(number) == signal.SIG_DFL]
    for number in ending:
        signal.signal(number, end)
    try:
        yield
    except BaseException:
        undo()
        raise
    finally:
        for number in ending:
            signal.signal(number, signal.SIG_DFL)
