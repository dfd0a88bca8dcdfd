"""How far a command is: a bar on the line of a terminal that is standard error."""
from __future__ import annotations

import os
import sys
import time
from contextlib import contextmanager, suppress
from typing import Iterator, Optional

from ._writing import undone

WIDTH = 20
# seconds between two of its states
PAUSE = 0.1


class Bar:
    """How many of a number are done, the first ones before it began, on a terminal that is an open file; nothing is drawn without
    one."""

    def __init__(self, terminal: Optional[int], what: str, whole: int, done: int) -> None:
        self._terminal, self._what, self._whole = terminal, what, whole
        self._first = self._done = done
        self._start = time.monotonic()
        self._last = float("-inf")
        self._length = 0

    def show(self) -> None:
        now = time.monotonic()
        if now - self._last >= PAUSE:
            self._last = now
            self._draw(self._text(now - self._start))

    def step(self) -> None:
        """Another one is done."""
        self._done += 1
        self.show()

    def clear(self) -> None:
        # the terminal may have shown a ^C
        self._length += 2
        self._draw("")

    def _text(self, seconds: float) -> str:
        full = WIDTH * self._done // max(1, self._whole)
        text = f"[{'#' * full}{' ' * (WIDTH - full)}] {self._done}/{self._whole} {self._what}"
        if self._done == self._first:
            return text
        left = round(seconds / (self._done - self._first) * (self._whole - self._done))
        return f"{text}, {left // 3600}:{left // 60 % 60:02}:{left % 60:02} left"

    def _draw(self, text: str) -> None:
        if self._terminal is None or self._whole == 0:
            return
        with suppress(OSError):
            columns = os.get_terminal_size(self._terminal).columns or 80
            line = text.ljust(self._length)[:columns - 1]
            # not by a stream: a signal's handler may clear it meanwhile
            os.write(self._terminal, f"\r{line}{'' if text else chr(13)}".encode("ascii"))
        self._length = len(text)


@contextmanager
def progress(what: str, whole: int, done: int = 0, is_wanted: bool = True) -> Iterator[Bar]:
    """A bar where it is wanted and standard error is a terminal that isn't dumb; it is cleared at the end."""
    if not is_wanted or sys.stderr is None or not sys.stderr.isatty() or os.environ.get("TERM") == "dumb":
        yield Bar(None, what, whole, done)
        return
    bar = Bar(sys.stderr.fileno(), what, whole, done)
    with undone(bar.clear):
        bar.show()
        yield bar
    bar.clear()
