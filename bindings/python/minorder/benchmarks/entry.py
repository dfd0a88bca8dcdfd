"""A function of the table, and what its formulas are written with."""
from __future__ import annotations

from dataclasses import dataclass
from typing import Callable, Sequence

from . import covers

Bits = Sequence[int]
# of the bits, and of two numbers; a lambda may have its loop's variables as further arguments with defaults
Formula = Callable[..., Sequence[object]]
OfNumbers = Callable[..., Sequence[object]]


@dataclass(frozen=True)
class Entry:
    """A function: its family and name, the names of its inputs in the file's order, its outputs, a
    formula in words, and the formula itself."""
    family: str
    name: str
    inputs: list[str]
    outputs: int
    words: str
    values: Formula

    def tables(self) -> list[int]:
        """A truth table for each output, as a whole number: bit p is the value at the point whose bit i is input i."""
        n = len(self.inputs)
        values = [self.values([point >> i & 1 for i in range(n)]) for point in range(1 << n)]
        return [int("".join("1" if value[output] else "0" for value in reversed(values)), 2) for output in range(self.outputs)]

    def pla(self) -> str:
        lines = covers.lines(len(self.inputs), self.tables())
        counts = [f".i {len(self.inputs)}", f".o {self.outputs}"]
        head = [f"# {self.words}", *counts, ".ilb " + " ".join(self.inputs), f".p {len(lines)}"]
        return "\n".join([*head, *lines, ".e", ""])


def number(bits: Bits) -> int:
    return sum(bit << i for i, bit in enumerate(bits))


def bits_of(value: int, count: int) -> list[int]:
    return [value >> i & 1 for i in range(count)]


def named(letter: str, count: int) -> list[str]:
    return [f"{letter}{i}" for i in range(count)]


def two_words(k: int) -> tuple[list[str], Callable[[OfNumbers], Formula]]:
    """Inputs a0 .. b0 .., and what takes a formula on the two numbers to one on the bits."""
    return named("a", k) + named("b", k), lambda f: lambda x: f(number(x[:k]), number(x[k:]))


def interleaved(k: int) -> tuple[list[str], Callable[[OfNumbers], Formula]]:
    """The same with the inputs in the order a0 b0 a1 b1 .."""
    return [name for i in range(k) for name in (f"a{i}", f"b{i}")], lambda f: lambda x: f(number(x[0::2]), number(x[1::2]))


def of_table(family: str, name: str, inputs: int, outputs: int, words: str, table: Sequence[int]) -> Entry:
    """The function that takes a number to its value in a table; the lowest bit is the first input."""
    return Entry(family, name, named("x", inputs), outputs, words, lambda x: bits_of(table[number(x)], outputs))
