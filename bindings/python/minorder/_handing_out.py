"""Which of many files the workers get next."""
import os
import re
from typing import Dict, List, NamedTuple, Sequence

from ._arguments import MOST

# a file's `.i` and `.o` are looked for in so many bytes at its front
FRONT = 4096
INPUTS, OUTPUTS = (re.compile(rb"^[ \t\r]*\." + letter + rb"[ \t]+(\d{1,9})\b", re.MULTILINE) for letter in (b"i", b"o"))
# files of less together are one task: they take some milliseconds
LIGHT = 3 ** 12
MOST_FILES = 8
# for each worker so many files are looked at ahead
LOOKED_AT = 64


def estimate(path: str) -> int:
    """About how long a file takes, in a few nanoseconds. The search goes over pairs of a set and a subset for each output;
    of another file than a plain one nothing is read, since that can be read once."""
    try:
        if not os.path.isfile(path):
            return 0
        with open(path, "rb") as file:
            front, size = file.read(FRONT), os.fstat(file.fileno()).st_size
    except (OSError, ValueError):
        return 0
    inputs, outputs = (int(found[1]) if found else 0 for found in (INPUTS.search(front), OUTPUTS.search(front)))
    if not (1 <= inputs <= MOST and 1 <= outputs <= MOST):
        return size
    pairs: int = 3 ** inputs
    return outputs * pairs + size


class _Known(NamedTuple):
    file: str
    cost: int


class Waiting:
    """Files that are handed out in their order, but for one that is estimated to take more than half of a worker's share of
    those looked at: that one goes first, so that it doesn't go on alone at the end."""

    def __init__(self, files: Sequence[str], workers: int) -> None:
        self._files, self._workers = files, workers
        # by number those that were looked at, in their order, and what they cost together
        self._known: Dict[int, _Known] = {}
        self._cost = self._looked_at = 0

    def _look_ahead(self, end: int) -> None:
        most = LOOKED_AT * self._workers
        while self._looked_at < min(end, len(self._files)) and len(self._known) < most:
            file = self._files[self._looked_at]
            self._known[self._looked_at] = known = _Known(file, estimate(file))
            self._cost += known.cost
            self._looked_at += 1

    def next(self, end: int) -> List[int]:
        """The numbers of the files that are one task, all before an end; none if there are no more there."""
        self._look_ahead(end)
        chosen = self._chosen()
        for number in chosen:
            self._cost -= self._known.pop(number).cost
        return chosen

    def _chosen(self) -> List[int]:
        if not self._known:
            return []
        costliest = max(self._known, key=lambda number: self._known[number].cost)
        if self._known[costliest].cost > max(LIGHT, self._cost // (2 * self._workers)):
            return [costliest]
        chosen: List[int] = []
        cost = 0
        for number, known in self._known.items():
            cost += known.cost
            if chosen and (cost > LIGHT or len(chosen) == MOST_FILES):
                break
            chosen.append(number)
        return chosen
