"""Codes that find and correct errors, codes of lines, and codes of digits and characters."""
from __future__ import annotations

from typing import Iterator, Sequence

from .entry import Bits, Entry, Formula, bits_of, named, number

# abcdei of the five bits EDCBA, and fghj of HGF, at the running disparity -1 (Widmer and Franaszek 1983)
SIX = """100111 011101 101101 110001 110101 101001 011001 111000 111001 100101 010101 110100 001101 101100 011100 010111
011011 100011 010011 110010 001011 101010 011010 111010 110011 100110 010110 110110 001110 101110 011110 101011""".split()
FOUR = "1011 1001 0101 1100 1101 1010 0110 1110".split()


def hamming_places(r: int) -> list[int]:
    """The places 1 to 2^r - 1 that carry data: those that are no powers of two."""
    return [place for place in range(1, 1 << r) if place & place - 1]


def hamming_encoder(r: int) -> Formula:
    """The word by places: the checks make the places of its ones add up to 0, bit by bit."""
    def values(x: Bits) -> Sequence[object]:
        word, syndrome = [0] * (1 << r), 0
        for place, bit in zip(hamming_places(r), x):
            word[place] = bit
            syndrome ^= place if bit else 0
        for i in range(r):
            word[1 << i] = syndrome >> i & 1
        return word[1:]
    return values


def syndrome(x: Bits) -> int:
    """The places of the ones, added up bit by bit: where the one wrong bit is, or 0."""
    found = 0
    for place, bit in enumerate(x, 1):
        found ^= place if bit else 0
    return found


def hamming_decoder(r: int) -> Formula:
    def values(x: Bits) -> Sequence[object]:
        wrong = syndrome(x)
        return [x[place - 1] ^ (place == wrong) for place in hamming_places(r)]
    return values


def remainder(generator: int, degree: int, length: int) -> Formula:
    """Of the message times x^degree by the generator (with its highest term); the highest bit of
    the message is the coefficient of the highest power."""
    def values(x: Bits) -> Sequence[object]:
        rest = number(x) << degree
        for i in reversed(range(degree, degree + length)):
            if rest >> i & 1:
                rest ^= generator << i - degree
        return bits_of(rest, degree)
    return values


def powers(count: int, modulus: int = 0b10011, high: int = 0b10000) -> list[int]:
    """The powers of the root x of x^4 + x + 1 in the field of 16 elements."""
    found = [1]
    while len(found) < count:
        twice = found[-1] << 1
        found.append(twice ^ modulus if twice & high else twice)
    return found


def bch_syndromes(x: Bits) -> Sequence[object]:
    """The sums of a^i and of a^3i over the ones i of the word."""
    alpha, first, third = powers(15), 0, 0
    for i, bit in enumerate(x):
        if bit:
            first ^= alpha[i]
            third ^= alpha[3 * i % 15]
    return bits_of(first, 4) + bits_of(third, 4)


def turned(word: list[int]) -> list[int]:
    return [1 - bit for bit in word]


def ten_bits(x: Bits) -> Sequence[object]:
    """8b/10b of a data byte, lowest bit A first, and the running disparity (1 for +1): a b c d e i
    f g h j, and the disparity after it."""
    low, high, disparity = number(x[:5]), number(x[5:8]), x[8]
    six = [int(bit) for bit in SIX[low]]
    if disparity and (sum(six) != 3 or low == 7):
        six = turned(six)
    middle = disparity ^ (sum(six) != 3)
    # three of each kind take the other form of x.7, so that five equal bits in a row stay out
    other = high == 7 and (low in (11, 13, 14) if middle else low in (17, 18, 20))
    four = [0, 1, 1, 1] if other else [int(bit) for bit in FOUR[high]]
    if middle and (sum(four) != 2 or high == 3):
        four = turned(four)
    return [*six, *four, middle ^ (sum(four) != 2)]


def hex_digit(x: Bits) -> Sequence[object]:
    """The value of a hexadecimal digit in ASCII, upper or lower case, and whether it is one."""
    character = chr(number(x))
    return bits_of(int(character, 16), 4) + [1] if character in "0123456789abcdefABCDEF" else [0] * 5


def classes(x: Bits) -> Sequence[object]:
    """Whether an ASCII character is an upper case letter, a lower case one, a digit, white space,
    another printing one, a control character."""
    code = number(x)
    upper, lower, digit = 65 <= code <= 90, 97 <= code <= 122, 48 <= code <= 57
    space = code == 32 or 9 <= code <= 13
    other = 33 <= code <= 126 and not (upper or lower or digit)
    return [upper, lower, digit, space, other, code < 32 or code == 127]


def sequence_length(x: Bits) -> Sequence[object]:
    """How many bytes a UTF-8 sequence with this first byte has; 0 where none begins with it (RFC 3629)."""
    first = number(x)
    starts = ((0x00, 0x7F, 1), (0xC2, 0xDF, 2), (0xE0, 0xEF, 3), (0xF0, 0xF4, 4))
    return bits_of(next((length for least, most, length in starts if least <= first <= most), 0), 3)


def from_gray(x: Bits) -> Sequence[object]:
    return [sum(x[i:]) % 2 for i in range(len(x))]


def entries() -> Iterator[Entry]:
    family = "error-correcting codes"
    for r, name in ((3, "7_4"), (4, "15_11")):
        n, k = (1 << r) - 1, (1 << r) - 1 - r
        yield Entry(family, f"hamming{name}", named("d", k), n, f"Hamming ({n}, {k}), encoder (Hamming 1950)", hamming_encoder(r))
        yield Entry(family, f"syndrome{name}", named("r", n), r, f"Hamming ({n}, {k}), syndrome",
                    lambda x, r=r: bits_of(syndrome(x), r))
        yield Entry(family, f"corrected{name}", named("r", n), k, f"Hamming ({n}, {k}), data with one error corrected",
                    hamming_decoder(r))
    yield Entry(family, "bch15_7", named("r", 15), 8, "BCH (15, 7), syndromes 1 and 3 over x^4 + x + 1", bch_syndromes)
    yield Entry(family, "crc5_11", named("x", 11), 5, "remainder of 11 bits by x^5 + x^2 + 1 (the generator of USB tokens)",
                remainder(0b100101, 5, 11))
    yield Entry(family, "crc8", named("x", 8), 8,
                "remainder of a byte by x^8 + x^2 + x + 1 (the generator of SMBus and ATM headers)", remainder(0x107, 8, 8))
    yield Entry(family, "crc16", named("x", 8), 16, "remainder of a byte by x^16 + x^12 + x^5 + 1 (CRC-16 of the CCITT)",
                remainder(0x11021, 16, 8))
    family = "lines and characters"
    yield Entry(family, "line8b10b", named("x", 8) + ["disparity"], 11,
                "8b/10b of a data byte and the disparity after it (Widmer and Franaszek 1983)", ten_bits)
    yield Entry(family, "ungray8", named("g", 8), 8, "Gray to binary", from_gray)
    yield Entry(family, "ungray16", named("g", 16), 16, "Gray to binary", from_gray)
    yield Entry(family, "hexdigit", named("x", 8), 5, "value of a hexadecimal digit in ASCII, and whether it is one", hex_digit)
    yield Entry(family, "asciiclass", named("x", 8), 6,
                "upper case, lower case, digit, space, other printing or control character of ASCII", classes)
    yield Entry(family, "utf8length", named("x", 8), 3,
                "length of the UTF-8 sequence with this first byte; 0 if there is none (RFC 3629)", sequence_length)
