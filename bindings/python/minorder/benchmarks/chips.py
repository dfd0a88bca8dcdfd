"""Chips of the 74 series, by the function tables of their data sheets (Texas Instruments). The value 1 is the high level; a
name that ends in `n` is active low. Inputs stand in the order in which the sheets name them."""
from __future__ import annotations

from typing import Callable, Iterator, Optional, Sequence

from .entry import Bits, Entry, Formula, bits_of, named, number

# the segments a .. g of 0 to 15, a in the lowest bit; 6 and 9 have no tail
SEGMENTS = [0x3F, 0x06, 0x5B, 0x4F, 0x66, 0x6D, 0x7C, 0x07, 0x7F, 0x67, 0x58, 0x4C, 0x62, 0x69, 0x78, 0x00]


def low(bits: Sequence[int]) -> list[int]:
    return [1 - bit for bit in bits]


def one_of(index: Optional[int], count: int) -> list[int]:
    return [i == index for i in range(count)]


def decoder_of(code: Callable[[int], int]) -> Formula:
    """Output i is low where the code is that of the digit i."""
    digits = {code(digit): digit for digit in range(10)}
    return lambda x: low(one_of(digits.get(number(x)), 10))


def segments(x: Bits) -> Sequence[object]:
    """7447: inputs A to D, lamp test and ripple blanking input, the blanking input open; segments a
    .. g and the ripple blanking output."""
    digit, testn, ripplen = number(x[:4]), x[4], x[5]
    if not testn:
        return [0] * 7 + [1]
    if not ripplen and digit == 0:
        return [1] * 7 + [0]
    return low(bits_of(SEGMENTS[digit], 7)) + [1]


def magnitude(x: Bits) -> Sequence[object]:
    """7485: where A = B the inputs A > B, A < B, A = B of the lower places decide; the sheet says
    what all eight of their values give."""
    a, b, (greater, less, equal) = number(x[:4]), number(x[4:8]), x[8:]
    return [a > b, a < b, 0] if a != b else [not less and not equal, not greater and not equal, equal]


def decoder(x: Bits) -> Sequence[object]:
    """74138: the selected output is low where G1 is high and both of G2 are low."""
    return low(one_of(number(x[:3]) if x[3:] == [1, 0, 0] else None, 8))


def digit_priority(x: Bits) -> Sequence[object]:
    """74147: the highest of the inputs 1 .. 9 that is low, in binary, all active low."""
    return low(bits_of(max((i + 1 for i in range(9) if not x[i]), default=0), 4))


def priority(x: Bits) -> Sequence[object]:
    """74148: the enabling input and 0 .. 7; A0 to A2, GS (some input is low) and the enabling output (none is)."""
    found = max((i for i in range(8) if not x[1 + i]), default=None)
    if x[0]:
        return [1] * 5
    if found is None:
        return [1, 1, 1, 1, 0]
    return low(bits_of(found, 3)) + [0, 1]


def selector(x: Bits) -> Sequence[object]:
    """74151: D0 .. D7, A to C and the strobe; Y and its complement W."""
    y = 0 if x[11] else x[number(x[8:11])]
    return [y, 1 - y]


def two_selectors(x: Bits) -> Sequence[object]:
    """74153: A, B; for each half four data and a strobe."""
    return [0 if half[4] else half[number(x[:2])] for half in (x[2:7], x[7:12])]


def decoder_of_four(x: Bits) -> Sequence[object]:
    """74154: A to D, two enabling inputs, both active low."""
    return low(one_of(number(x[:4]) if x[4:] == [0, 0] else None, 16))


def four_selectors(x: Bits) -> Sequence[object]:
    """74157: select, strobe, four pairs A, B."""
    return [0 if x[1] else x[2 + 2 * i + x[0]] for i in range(4)]


def parity_generator(x: Bits) -> Sequence[object]:
    """74180: eight data and the even and the odd input; the even and the odd output."""
    even, odd = x[8:]
    if even == odd:
        return [1 - even, 1 - even]
    return [even, odd] if sum(x[:8]) % 2 == 0 else [odd, even]


def unit(x: Bits) -> Sequence[object]:
    """74181: A, B, S0 .. S3, M and the carry in; F0 .. F3, A = B, P, G and the carry out, as
    levels: with high levels as ones both carries are active low."""
    a, b, (s0, s1, s2, s3, mode, carryn) = x[:4], x[4:8], x[8:]
    upper = [p | q & s0 | (1 - q) & s1 for p, q in zip(a, b)]
    lower = [p & (1 - q) & s2 | p & q & s3 for p, q in zip(a, b)]
    total = number(upper) + number(lower) + 1 - carryn
    f = [1 ^ p ^ q for p, q in zip(upper, lower)] if mode else bits_of(total, 4)
    # a place with neither term passes on the low level of no carry: P and G are active low in the sheet's other reading, low
    # levels as ones
    g = 1
    for p, q in zip(upper, lower):
        g = p & (q | g)
    return [*f, all(f), any(lower), g, 1 - (total >> 4)]


def look_ahead(x: Bits) -> Sequence[object]:
    """74182: the carry, P0 .. P3 and G0 .. G3 (active low); the carries x, y, z and P and G of the whole (active low)."""
    carry, p, g = x[0], low(x[1:5]), low(x[5:])
    carries = []
    for i in range(3):
        carry = g[i] | p[i] & carry
        carries.append(carry)
    whole = 0
    for i in range(4):
        whole = g[i] | p[i] & whole
    return [*carries, *low([all(p), whole])]


def adder(x: Bits) -> Sequence[object]:
    """74283: A1, B1 .. A4, B4 and the carry in; the sum with its carry."""
    return bits_of(number(x[0:8:2]) + number(x[1:8:2]) + x[8], 5)


def entries() -> Iterator[Entry]:
    family, address, operands = "74 series", ["a", "b", "c", "d"], named("a", 4) + named("b", 4)
    yield Entry(family, "sn7442", address, 10, "7442, binary-coded digit to one of ten", decoder_of(lambda digit: digit))
    yield Entry(family, "sn7443", address, 10, "7443, excess-3 digit to one of ten", decoder_of(lambda digit: digit + 3))
    yield Entry(family, "sn7447", address + ["ltn", "rbin"], 8,
                "7447, digit to seven segments, lamp test, ripple blanking", segments)
    yield Entry(family, "sn7485", operands + ["gt", "lt", "eq"], 3,
                "7485, comparator of four bits with cascading inputs", magnitude)
    yield Entry(family, "sn74138", ["a", "b", "c", "g1", "g2an", "g2bn"], 8, "74138, decoder of three bits", decoder)
    yield Entry(family, "sn74147", [f"i{i}n" for i in range(1, 10)], 4, "74147, priority encoder of ten lines", digit_priority)
    yield Entry(family, "sn74148", ["ein"] + [f"i{i}n" for i in range(8)], 5,
                "74148, priority encoder of eight lines", priority)
    yield Entry(family, "sn74151", named("d", 8) + ["a", "b", "c", "strobe"], 2, "74151, selector of eight data", selector)
    halves = [f"{half}{it}" for half in "cd" for it in ("0", "1", "2", "3", "strobe")]
    yield Entry(family, "sn74153", ["a", "b"] + halves, 2, "74153, two selectors of four data", two_selectors)
    yield Entry(family, "sn74154", address + ["g1n", "g2n"], 16, "74154, decoder of four bits", decoder_of_four)
    pairs = [f"{it}{i}" for i in range(4) for it in "ab"]
    yield Entry(family, "sn74157", ["select", "strobe"] + pairs, 4, "74157, four selectors of two data", four_selectors)
    yield Entry(family, "sn74180", named("d", 8) + ["even", "odd"], 2,
                "74180, parity of eight bits with cascading inputs", parity_generator)
    yield Entry(family, "sn74181", operands + named("s", 4) + ["m", "cn"], 8,
                "74181, arithmetic and logic unit of four bits", unit)
    yield Entry(family, "sn74182", ["cn"] + [f"p{i}n" for i in range(4)] + [f"g{i}n" for i in range(4)], 5,
                "74182, look-ahead carry generator", look_ahead)
    yield Entry(family, "sn74280", named("d", 9), 2, "74280, parity of nine bits: even and odd",
                lambda x: [1 - sum(x) % 2, sum(x) % 2])
    places = [f"{it}{i}" for i in range(1, 5) for it in "ab"]
    yield Entry(family, "sn74283", places + ["c0"], 5, "74283, adder of four bits with a carry in", adder)
