"""The functions of the textbooks: arithmetic, symmetric functions, multiplexers, hidden weighted bit, random ones."""
from __future__ import annotations

import hashlib
from typing import Iterator

from .entry import Bits, Entry, Formula, OfNumbers, bits_of, interleaved, named, number, two_words

ROOTS: dict[int, list[int]] = {}


def isqrt(value: int) -> int:
    root = 0
    while (root + 1) ** 2 <= value:
        root += 1
    return root


def random_values(n: int, m: int) -> Formula:
    """m random functions of n inputs: bit p of the SHA-256 stream of the blocks `bakchuon n m j k`
    is the value of function j at point p."""
    tables = []
    for j in range(m):
        blocks = (f"bakchuon {n} {m} {j} {k}".encode() for k in range(max(1, (1 << n) // 256)))
        tables.append(b"".join(hashlib.sha256(block).digest() for block in blocks))
    return lambda x: [tables[j][number(x) // 8] >> number(x) % 8 & 1 for j in range(m)]


def storage(k: int, w: int) -> Formula:
    """Indirect storage access: k bits choose a word of w bits of a memory of 2^w bits, and the word
    chooses a bit of the memory."""
    def value(x: Bits) -> list[int]:
        memory, start = x[k:], number(x[:k]) * w
        return [memory[number([memory[(start + i) % (1 << w)] for i in range(w)])]]
    return value


def isqrt_table(n: int) -> list[int]:
    if n not in ROOTS:
        ROOTS[n] = [isqrt(value) for value in range(1 << n)]
    return ROOTS[n]


def hidden_weighted_bit(x: Bits) -> list[int]:
    return [x[sum(x) - 1] if sum(x) else 0]


def quotient_and_remainder(k: int) -> OfNumbers:
    """Of two numbers of k bits; both 0 where the divisor is 0."""
    return lambda a, b: bits_of(a // b, k) + bits_of(a % b, k) if b else [0] * (2 * k)


def achilles(k: int) -> Formula:
    return lambda x: [any(x[i] and x[k + i] for i in range(k))]


def arithmetic() -> Iterator[Entry]:
    for n in range(4, 17):
        yield Entry("hidden weighted bit", f"hwb{n}", [f"x{i + 1}" for i in range(n)], 1,
                    "x[w], w being the number of ones among x1 .. xn; 0 where w is 0 (Bryant 1991)", hidden_weighted_bit)
    yield Entry("multiplexer", "mux2", ["a", "b", "s"], 1, "a where s is 0, else b", lambda x: [x[x[2]]])
    for s in (2, 3):
        yield Entry("multiplexer", f"mux{1 << s}", named("d", 1 << s) + named("s", s), 1,
                    "data bit d[s], data before the selector", lambda x, s=s: [x[number(x[1 << s:])]])
    for k in range(2, 9):
        inputs, of = two_words(k)
        yield Entry("adder", f"add{k}", inputs, k + 1, "a + b, all bits, a before b", of(lambda a, b, k=k: bits_of(a + b, k + 1)))
        inputs, of = interleaved(k)
        yield Entry("adder", f"add{k}i", inputs, k + 1, "a + b, all bits, inputs interleaved",
                    of(lambda a, b, k=k: bits_of(a + b, k + 1)))
        inputs, of = two_words(k)
        yield Entry("comparator", f"less{k}", inputs, 1, "a < b, a before b", of(lambda a, b: [a < b]))
        yield Entry("multiplier", f"mul{k}", inputs, 2 * k, "a * b, all bits, a before b",
                    of(lambda a, b, k=k: bits_of(a * b, 2 * k)))
        yield Entry("multiplier, middle bit", f"mulmid{k}", inputs, 1,
                    "bit k - 1 of a * b for two k-bit numbers (Bryant 1991)", of(lambda a, b, k=k: [a * b >> (k - 1) & 1]))
    for k in (4, 5, 6, 7, 8):
        yield Entry("squarer", f"square{k}", named("x", k), 2 * k, "x * x, all bits",
                    lambda x, k=k: bits_of(number(x) ** 2, 2 * k))
    for k in (3, 4, 5, 6, 7, 8):
        inputs, of = two_words(k)
        yield Entry("divider", f"div{k}", inputs, 2 * k, "quotient and remainder of a by b; both 0 where b is 0",
                    of(quotient_and_remainder(k)))
    for n in (8, 10, 12, 14, 16):
        yield Entry("square root", f"root{n}", named("x", n), n // 2, "the whole part of the square root of x",
                    lambda x, n=n: bits_of(isqrt_table(n)[number(x)], n // 2))


def others() -> Iterator[Entry]:
    for n in (8, 16):
        yield Entry("codes", f"gray{n}", named("x", n), n, "binary to Gray: x xor x / 2",
                    lambda x, n=n: bits_of(number(x) ^ number(x) >> 1, n))
    segments = [0x3F, 0x06, 0x5B, 0x4F, 0x66, 0x6D, 0x7D, 0x07, 0x7F, 0x6F]
    yield Entry("codes", "bcd7seg", named("d", 4), 7, "a decimal digit to the segments a .. g of a display; dark above 9",
                lambda x: bits_of(segments[number(x)], 7) if number(x) < 10 else [0] * 7)
    for n in (5, 7, 9, 11, 13, 15):
        yield Entry("symmetric", f"majority{n}", named("x", n), 1, "more ones than zeros", lambda x: [2 * sum(x) > len(x)])
    for name, n, m in (("rd53", 5, 3), ("rd73", 7, 3), ("rd84", 8, 4)):
        yield Entry("symmetric", name, named("x", n), m, "the number of ones, in binary (MCNC)",
                    lambda x, m=m: bits_of(sum(x), m))
    yield Entry("symmetric", "9sym", named("x", 9), 1, "three to six ones among nine (MCNC)", lambda x: [3 <= sum(x) <= 6])
    for n in (8, 12, 16):
        yield Entry("symmetric", f"parity{n}", named("x", n), 1, "an odd number of ones", lambda x: [sum(x) % 2])
    for k, w in ((1, 2), (2, 2), (2, 3), (3, 3)):
        chooses = f"{k} bits choose" if k > 1 else "one bit chooses"
        words = f"{chooses} a word of {w} bits of a memory of {1 << w} bits (words wrap), which chooses a bit of it"
        yield Entry("indirect storage access", f"isa{k}_{w}", named("s", k) + named("m", 1 << w), 1, words, storage(k, w))
    for k in range(2, 9):
        yield Entry("products of pairs", f"achilles{k}", named("x", k) + named("y", k), 1,
                    "x0 y0 + x1 y1 + .., all x before all y (Achilles' heel)", achilles(k))
    for n in (8, 10, 12, 14, 16):
        for m in (1, 4, 16):
            said = f"{m} random functions" if m > 1 else "a random function"
            words = f"{said} of {n} inputs, by the SHA-256 stream that textbook.py states"
            yield Entry("random", f"random{n}_{m}", named("x", n), m, words, random_values(n, m))


def entries() -> Iterator[Entry]:
    yield from arithmetic()
    yield from others()
