"""The orders that methods begin with: the file's, and for small functions ten random ones."""
from __future__ import annotations

import hashlib
from typing import Iterator

FILE, RANDOM = "file", "random"
# the league has random orders for functions of so many inputs
MOST_INPUTS = 12
NUMBERS = range(1, 11)


def random_start(inputs: int, number: int) -> tuple[int, ...]:
    """A random order, the same in all versions: the inputs i by the SHA-256 of `bakchuon start INPUTS NUMBER i`."""
    words = (f"bakchuon start {inputs} {number} {i}".encode() for i in range(inputs))
    sums = [hashlib.sha256(word).digest() for word in words]
    return tuple(sorted(range(inputs), key=lambda i: sums[i]))


def random_starts(inputs: int) -> Iterator[tuple[int, tuple[int, ...]]]:
    """The random orders with their numbers; none of more inputs than the league has them for."""
    if inputs <= MOST_INPUTS:
        yield from ((number, random_start(inputs, number)) for number in NUMBERS)
