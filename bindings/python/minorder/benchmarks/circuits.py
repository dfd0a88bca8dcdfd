"""Parts of processors and networks: shifters, counters, arbiters, units, sorters."""
from __future__ import annotations

from typing import Iterator, Sequence

from .entry import Bits, Entry, Formula, bits_of, named, number


def leading_zeros(x: Bits) -> int:
    return next((i for i, bit in enumerate(reversed(x)) if bit), len(x))


def rotated(x: Bits) -> Sequence[object]:
    """Eight bits turned left by three bits' amount."""
    return [x[(i - number(x[8:])) % 8] for i in range(8)]


def shifted(x: Bits) -> Sequence[object]:
    return bits_of(number(x[:8]) << number(x[8:]), 8)


def shifted_with_sign(x: Bits) -> Sequence[object]:
    """To the right, with copies of the highest bit coming in."""
    return [x[min(7, i + number(x[8:]))] for i in range(8)]


def first_request(x: Bits) -> Sequence[object]:
    """The request with the smallest number is granted."""
    return [x[i] and not any(x[:i]) for i in range(len(x))]


def one_line(x: Bits) -> Sequence[object]:
    """Line i is 1 where the enabling input is and the four bits are i."""
    return [x[4] and i == number(x[:4]) for i in range(16)]


def nand(*bits: object) -> bool:
    return not all(bits)


def six_gates(x: Bits) -> Sequence[object]:
    """The netlist c17, whose inputs are the nodes 1, 2, 3, 6 and 7, and whose outputs are 22 and 23."""
    n1, n2, n3, n6, n7 = x
    n11 = nand(n3, n6)
    n16 = nand(n2, n11)
    return [nand(nand(n1, n3), n16), nand(n16, nand(n11, n7))]


def round_robin(n: int) -> Formula:
    """The first request from a pointer on, round the ring, is granted."""
    def values(x: Bits) -> Sequence[object]:
        pointer = number(x[n:])
        turn = [(pointer + i) % n for i in range(n)]
        granted = next((i for i in turn if x[i]), None)
        return [i == granted for i in range(n)]
    return values


def arithmetic_logic(k: int) -> Formula:
    """a, b of k bits and an operation: +, -, and, or, exclusive or, not a, a < b without a sign, a
    < b with one; the carry of + and of a + not b + 1."""
    half, mask = 1 << k - 1, (1 << k) - 1

    def values(x: Bits) -> Sequence[object]:
        a, b, op = number(x[:k]), number(x[k:2 * k]), number(x[2 * k:])
        sums = (a + b, a + (b ^ mask) + 1)
        results = (*sums, a & b, a | b, a ^ b, a ^ mask, a < b, (a ^ half) < (b ^ half))
        return bits_of(results[op] & mask, k) + [sums[op] >> k if op < 2 else 0]
    return values


def words(x: Bits, k: int) -> list[int]:
    return [number(x[i:i + k]) for i in range(0, len(x), k)]


def sorted_words(k: int) -> Formula:
    return lambda x: [bit for word in sorted(words(x, k)) for bit in bits_of(word, k)]


def median(k: int) -> Formula:
    def values(x: Bits) -> Sequence[object]:
        each = sorted(words(x, k))
        return bits_of(each[len(each) // 2], k)
    return values


def rank(k: int) -> Formula:
    """How many of the other words are smaller than the first."""
    def values(x: Bits) -> Sequence[object]:
        first, *others = words(x, k)
        return bits_of(sum(other < first for other in others), len(others).bit_length())
    return values


def several(letters: str, k: int) -> list[str]:
    return [f"{letter}{i}" for letter in letters for i in range(k)]


def of_words() -> Iterator[Entry]:
    family = "processor parts"
    for n in (8, 12, 16):
        yield Entry(family, f"leadingzeros{n}", named("x", n), n.bit_length(), "how many zeros stand above the highest one",
                    lambda x, n=n: bits_of(leading_zeros(x), n.bit_length()))
    shifters = (
        ("rotate8", "8 bits turned left by s", rotated),
        ("shift8", "8 bits shifted left by s", shifted),
        ("shiftsign8", "8 bits with a sign shifted right by s", shifted_with_sign),
    )
    for name, said, values in shifters:
        yield Entry(family, name, named("x", 8) + named("s", 3), 8, said, values)
    for n in (8, 16):
        yield Entry(family, f"arbiter{n}", named("r", n), n, "the first request is granted", first_request)
    for n, bits in ((4, 2), (8, 3)):
        yield Entry(family, f"roundrobin{n}", named("r", n) + named("p", bits), n,
                    "the first request from p on, round the ring, is granted", round_robin(n))
    yield Entry(family, "decoder4", named("x", 4) + ["enable"], 16, "one of 16 lines by four bits, where enable is 1",
                one_line)
    yield Entry(family, "c17", [f"n{i}" for i in (1, 2, 3, 6, 7)], 2,
                "nand(nand(n1, n3), u) and nand(u, nand(v, n7)), u being nand(n2, v) and v nand(n3, n6) "
                "(Brglez and Fujiwara 1985)",
                six_gates)
    for k in (2, 4):
        said = f"{k} bits: a + b, a - b, and, or, exclusive or, not a, a < b without and with a sign; the carry"
        inputs = named("a", k) + named("b", k) + named("op", 3)
        yield Entry(family, f"arithmeticlogic{k}", inputs, k + 1, said, arithmetic_logic(k))


def of_networks() -> Iterator[Entry]:
    family = "counting and sorting"
    for n in (6, 10, 12, 15, 16):
        yield Entry(family, f"ones{n}", named("x", n), n.bit_length(), "the number of ones, in binary",
                    lambda x, n=n: bits_of(sum(x), n.bit_length()))
    for n in (8, 12, 16):
        yield Entry(family, f"sort{n}", named("x", n), n, "the bits in descending order",
                    lambda x: [sum(x) > i for i in range(len(x))])
    for letters, k in (("abc", 2), ("abcd", 2), ("abc", 4), ("abcd", 4)):
        n = len(letters)
        yield Entry(family, f"sortwords{n}_{k}", several(letters, k), n * k, f"{n} numbers of {k} bits in ascending order",
                    sorted_words(k))
    for letters, k in (("abc", 2), ("abc", 3), ("abc", 4), ("abc", 5), ("abcde", 2), ("abcde", 3)):
        n = len(letters)
        yield Entry(family, f"median{n}_{k}", several(letters, k), k, f"the median of {n} numbers of {k} bits", median(k))
    for letters, k in (("abcd", 2), ("abcd", 3), ("abcd", 4)):
        n = len(letters)
        yield Entry(family, f"rank{n}_{k}", several(letters, k), (n - 1).bit_length(),
                    f"how many of b .. are smaller than a, {n} numbers of {k} bits", rank(k))


def entries() -> Iterator[Entry]:
    yield from of_words()
    yield from of_networks()
