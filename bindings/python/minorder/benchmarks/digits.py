"""Decimal digits and arithmetic beyond the textbook's."""
from __future__ import annotations

from typing import Iterator, Sequence

from .entry import Bits, Entry, Formula, OfNumbers, bits_of, named, number, two_words


def decimal_adder(offset: int) -> Formula:
    """The sum of two digits, each written as the digit + offset, and a carry: its digit and its
    carry; all 0 where an input is no digit."""
    def values(x: Bits) -> Sequence[object]:
        a, b = number(x[:4]) - offset, number(x[4:8]) - offset
        if not (0 <= a <= 9 and 0 <= b <= 9):
            return [0] * 5
        total = a + b + x[8]
        return bits_of(total % 10 + offset, 4) + [total > 9]
    return values


def to_decimal(digits: int) -> Formula:
    """A number to its decimal digits, four bits each, the lowest first."""
    return lambda x: [bit for i in range(digits) for bit in bits_of(number(x) // 10 ** i % 10, 4)]


def from_decimal(x: Bits) -> Sequence[object]:
    """Two decimal digits to a number; 0 where one is none."""
    low, high = number(x[:4]), number(x[4:])
    return bits_of(10 * high + low if low < 10 and high < 10 else 0, 7)


def signed(value: int, count: int) -> int:
    return value - (1 << count) if value >> count - 1 else value


def saturated(k: int) -> OfNumbers:
    """The sum of two numbers of k bits with a sign, held between the least and the greatest."""
    def values(a: int, b: int) -> list[int]:
        total = signed(a, k) + signed(b, k)
        return bits_of(max(-(1 << k - 1), min((1 << k - 1) - 1, total)), k)
    return values


def is_prime(value: int) -> bool:
    return value > 1 and all(value % divisor for divisor in range(2, int(value ** 0.5) + 1))


def of_digits() -> Iterator[Entry]:
    family, digit = "decimal digits", named("x", 4)
    inputs = named("a", 4) + named("b", 4) + ["carry"]
    yield Entry(family, "bcdadd", inputs, 5,
                "sum of two binary-coded digits and a carry, and its carry; 0 where one is no digit", decimal_adder(0))
    yield Entry(family, "excess3add", inputs, 5, "the same in excess-3", decimal_adder(3))
    yield Entry(family, "excess3", digit, 4, "a binary-coded digit to excess-3; 0 where it is none",
                lambda x: bits_of(number(x) + 3 if number(x) < 10 else 0, 4))
    yield Entry(family, "ninescomplement", digit, 4, "9 - x; 0 where x is no digit",
                lambda x: bits_of(9 - number(x) if number(x) < 10 else 0, 4))
    yield Entry(family, "todecimal8", named("x", 8), 12, "a number of 8 bits to three decimal digits", to_decimal(3))
    yield Entry(family, "todecimal10", named("x", 10), 16, "a number of 10 bits to four decimal digits", to_decimal(4))
    yield Entry(family, "fromdecimal2", named("x", 8), 7, "two decimal digits to a number; 0 where one is none", from_decimal)


def of_numbers() -> Iterator[Entry]:
    family = "more arithmetic"
    yield Entry(family, "affine7", named("x", 7), 10, "5 x + 1, all bits", lambda x: bits_of(5 * number(x) + 1, 10))
    yield Entry(family, "affine8", named("x", 8), 8, "5 x + 1 modulo 256", lambda x: bits_of(5 * number(x) + 1, 8))
    for k in (2, 3, 5, 7):
        inputs, of = two_words(k)
        yield Entry(family, f"addc{k}", inputs + ["carry"], k + 1, "a + b + carry, a before b",
                    lambda x, k=k: bits_of(number(x[:k]) + number(x[k:2 * k]) + x[2 * k], k + 1))
    for k in (4, 6, 8):
        inputs, of = two_words(k)
        yield Entry(family, f"distance{k}", inputs, k, "the absolute value of a - b, a before b",
                    of(lambda a, b, k=k: bits_of(abs(a - b), k)))
        yield Entry(family, f"greater{k}", inputs, k, "the greater one of a and b, a before b",
                    of(lambda a, b, k=k: bits_of(max(a, b), k)))
        yield Entry(family, f"saturated{k}", inputs, k, "a + b, both with a sign, held between the least and the greatest",
                    of(saturated(k)))
    for n in (8, 12, 16):
        for m in (3, 5, 7):
            bits = 2 if m == 3 else 3
            yield Entry(family, f"rest{n}_{m}", named("x", n), bits, f"the rest of x by {m}",
                        lambda x, m=m, bits=bits: bits_of(number(x) % m, bits))
    for n in (8, 12, 16):
        yield Entry(family, f"prime{n}", named("x", n), 1, "x is a prime number", lambda x: [is_prime(number(x))])


def entries() -> Iterator[Entry]:
    yield from of_digits()
    yield from of_numbers()
