#!/usr/bin/env python3
"""The files that speed is measured on. files.py NAME writes one, files.py alone lists them.

Functions of up to 16 inputs, as disjoint products (a table is split by the first inputs until its halves are
equal), so that most have many terms. Random ones come from Python's generator with the seed that stands beside them.
"""
import random
import sys


def products(inputs, rows):
    """Disjoint products of the points with the same row, by splitting on the first inputs."""
    found = []

    def split(input_, base, product):
        step = 1 << input_
        if all(rows[point] == rows[base] for point in range(base, 1 << inputs, step)):
            if rows[base]:
                found.append((product + "-" * (inputs - input_), rows[base]))
            return
        split(input_ + 1, base, product + "0")
        split(input_ + 1, base + step, product + "1")

    split(0, 0, "")
    return found


def pla(inputs, outputs, row_of):
    """A file whose outputs at a point are the bits of a number."""
    rows = [row_of(point) for point in range(1 << inputs)]
    terms = products(inputs, rows)
    lines = [f"{product} {''.join(str(row >> output & 1) for output in range(outputs))}" for product, row in terms]
    return "\n".join([f".i {inputs}", f".o {outputs}", f".p {len(terms)}", *lines, ".e", ""])


def ones(point):
    return bin(point).count("1")


def halves(bits, formula):
    return lambda point: formula(point & (1 << bits) - 1, point >> bits)


def chance(outputs, seed, density=0.5):
    source = random.Random(seed)
    return lambda point: sum((source.random() < density) << output for output in range(outputs))


def quarter(value):
    return (value & value >> 1 & 1) ^ ((value >> 2 | value >> 3) & 1)


def unit(p):
    """An arithmetic unit of four bits, like a 74181, of 14 inputs: two numbers, the operation, the mode and the carry."""
    a, b, op, is_logic, carry = p & 15, p >> 4 & 15, p >> 8 & 15, p >> 12 & 1, p >> 13 & 1
    spread = [(a >> i | (b >> i & op) | (~b >> i & op >> 1)) & 1 for i in range(4)]
    made = [a >> i & ((~b >> i & op >> 2) | (b >> i & op >> 3)) & 1 for i in range(4)]
    sums = 0
    for i in range(4):
        sums |= (spread[i] ^ made[i] ^ (1 if is_logic else carry)) << i
        carry = made[i] | spread[i] & carry
    return sums | carry << 4 | (sums == 15) << 5 | all(spread) << 6 | any(made) << 7


def stored(p):
    """The bit of 13 whose number stands from the place on that the three lowest bits say, four bits long, around the end."""
    address, data = p & 7, p >> 3
    word = sum((data >> (4 * address + i) % 13 & 1) << i for i in range(4))
    return data >> word % 13 & 1


FILES = {
    "rand16_16": lambda: pla(16, 16, chance(16, 16016)),
    "sparse16_16": lambda: pla(16, 16, chance(16, 4242, 0.02)),
    "div8x8": lambda: pla(16, 16, halves(8, lambda a, b: a // b | a % b << 8 if b else 0xFFFF)),
    "mul8x8": lambda: pla(16, 16, halves(8, lambda a, b: a * b)),
    "sqr16": lambda: pla(16, 16, lambda point: point * point >> 8 & 0xFFFF),
    "root16": lambda: pla(16, 8, lambda point: int(point ** 0.5)),
    "add8x8": lambda: pla(16, 9, halves(8, lambda a, b: a + b)),
    "rand16_1": lambda: pla(16, 1, chance(1, 16001)),
    "rand16_4": lambda: pla(16, 4, chance(4, 16004)),
    "isa16": lambda: pla(16, 1, stored),
    "hwb16": lambda: pla(16, 1, lambda point: point >> ones(point) - 1 & 1 if point else 0),
    "cmp8x8": lambda: pla(16, 3, halves(8, lambda a, b: (a < b) | (a == b) << 1 | (a > b) << 2)),
    "count16": lambda: pla(16, 5, ones),
    "parity16": lambda: pla(16, 1, lambda point: ones(point) & 1),
    "sym16": lambda: pla(16, 1, lambda point: int(ones(point) in (3, 4, 5, 6, 9, 12))),
    "xor_and16": lambda: pla(16, 1, lambda p: (quarter(p) ^ quarter(p >> 4)) & (quarter(p >> 8) ^ quarter(p >> 12))),
    "pairs8": lambda: pla(16, 1, halves(8, lambda a, b: int(a & b > 0))),
    "and16": lambda: pla(16, 1, lambda point: int(point == 0xFFFF)),
    "alu4_like": lambda: pla(14, 8, unit),
    "rand14_4": lambda: pla(14, 4, chance(4, 14004)),
    "rand12_16": lambda: pla(12, 16, chance(16, 12016)),
    "addn14": lambda: pla(14, 8, halves(7, lambda a, b: a + b)),
    "rand8_1": lambda: pla(8, 1, chance(1, 8001)),
}

if __name__ == "__main__":
    if len(sys.argv) > 2 or not FILES.keys() >= set(sys.argv[1:]):
        sys.exit(__doc__)
    sys.stdout.write(FILES[sys.argv[1]]() if len(sys.argv) == 2 else "".join(f"{it}\n" for it in FILES))
