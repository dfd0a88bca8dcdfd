"""S-boxes of ciphers and hash functions. Input x0 and output 0 are the lowest bits of the numbers that the standards write."""
from __future__ import annotations

from typing import Iterator

from .entry import Entry, of_table

# rows 0 to 3 of S1 to S8
DES = (
    "e4d12fb83a6c5907 0f74e2d1a6cb9538 41e8d62bfc973a50 fc8249175b3ea06d",
    "f18e6b34972dc05a 3d47f28ec01a69b5 0e7ba4d158c6932f d8a13f42b67c05e9",
    "a09e63f51dc7b428 d709346a285ecbf1 d6498f30b12c5ae7 1ad069874fe3b52c",
    "7de3069a1285bc4f d8b56f03472c1ae9 a690cb7df13e5284 3f06a1d8945bc72e",
    "2c417ab6853fd0e9 eb2c47d150fa3986 421bad78f9c5630e b8c71e2d6f09a453",
    "c1af92680d34e75b af427c9561de0b38 9ef528c3704a1db6 432c95fabe17608d",
    "4b2ef08d3c975a61 d0b7491ae35c2f86 14bdc37eaf680592 6bd814a7950fe23c",
    "d2846fb1a93e50c7 1fd8a374c56b0e92 7b419ce206adf358 21e74a8dfc90356b",
)
CAMELLIA_1 = bytes.fromhex(
    "70822cecb327c0e5e4855735ea0cae4123ef6b934519a521ed0e4f4e1d6592bd"
    "86b8af8f7ceb1fce3e30dc5f5ec50b1aa6e139cad5475d3dd9015ad651566c4d"
    "8b0d9a66fbccb02d74122b20f0b18499df4ccbc2347e76056db7a931d11704d7"
    "14583a61de1b111c320f9c165318f222fe44cfb2c3b57a912408e8a860fc6950"
    "aad0a07da1896297545b1e95e0ff64d210c40048a3f775db8a03e6da093fdd94"
    "875c8302cd4a90337367f6f39d7fbfe2529bd826c837c63b81966f4b13be632e"
    "e979a78c9f6ebc8e29f5f9b62ffdb4597898066ae74671bad425ab4288a28dfa"
    "7207b955f8eeac0a36492a683c38f1a44028d37bbbc943c115e3adf477c7809e"
)
SM4 = bytes.fromhex(
    "d690e9fecce13db716b614c228fb2c052b679a762abe04c3aa44132649860699"
    "9c4250f491ef987a33540b43edcfac62e4b31ca9c908e89580df94fa758f3fa6"
    "4707a7fcf37317ba83593c19e6854fa8686b81b27164da8bf8eb0f4b70569d35"
    "1e240e5e6358d1a225227c3b01217887d40046579fd327524c3602e7a0c4c89e"
    "eabf8ad240c738b5a3f7f2cef96115a1e0ae5da49b341a55ad933230f58cb1e3"
    "1df6e22e8266ca60c02923ab0d534e6fd5db3745defd8e2f03ff6a726d6c5b51"
    "8d1baf92bbddbc7f11d95c411f105ad80ac13188a5cd7bbd2d74d012b8e5b4b0"
    "8969974a0c96777e65b9f109c56ec68418f07dec3adc4d2079ee5f3ed7cb3948"
)
PRESENT = [int(digit, 16) for digit in "c56b90ad3ef84712"]
GIFT = [int(digit, 16) for digit in "1a4c6f392db7508e"]
ASCON = [0x04, 0x0B, 0x1F, 0x14, 0x1A, 0x15, 0x09, 0x02, 0x1B, 0x05, 0x08, 0x12, 0x1D, 0x03, 0x06, 0x1C,
         0x1E, 0x13, 0x07, 0x0E, 0x00, 0x0D, 0x11, 0x18, 0x10, 0x0C, 0x01, 0x19, 0x16, 0x0A, 0x0F, 0x17]


def product(a: int, b: int) -> int:
    """In the field of 256 elements of AES, the polynomials over two elements modulo x^8 + x^4 + x^3 + x + 1."""
    result = 0
    while b:
        result ^= a if b & 1 else 0
        a = a << 1 ^ (0x11B if a & 0x80 else 0)
        b >>= 1
    return result


def aes() -> list[int]:
    """The affine image of the inverse; 0 is its own inverse."""
    inverse = [0] + [next(y for y in range(1, 256) if product(x, y) == 1) for x in range(1, 256)]
    turned = [[(y << k | y >> 8 - k) & 0xFF for k in range(5)] for y in inverse]
    return [a ^ b ^ c ^ d ^ e ^ 0x63 for a, b, c, d, e in turned]


def inverse_of(table: list[int]) -> list[int]:
    return [table.index(value) for value in range(len(table))]


def des(i: int) -> list[int]:
    """S-box i from 0: the outer two of six bits choose the row, the inner four the column."""
    rows = [[int(digit, 16) for digit in row] for row in DES[i].split()]
    return [rows[x >> 4 & 2 | x & 1][x >> 1 & 15] for x in range(64)]


def chi() -> list[int]:
    """Bit i of a row of five is x[i] + (not x[i + 1]) x[i + 2]."""
    def bit(x: int, i: int) -> int:
        return x >> i % 5 & 1

    return [sum((bit(x, i) ^ (1 - bit(x, i + 1)) & bit(x, i + 2)) << i for i in range(5)) for x in range(32)]


def entries() -> Iterator[Entry]:
    family = "S-boxes"
    yield of_table(family, "aes", 8, 8, "AES, SubBytes (FIPS 197)", aes())
    yield of_table(family, "aes_inverse", 8, 8, "AES, InvSubBytes (FIPS 197)", inverse_of(aes()))
    for i in range(8):
        yield of_table(family, f"des{i + 1}", 6, 4, f"DES, S{i + 1} (FIPS 46-3)", des(i))
    yield of_table(family, "present", 4, 4, "PRESENT (Bogdanov et al. 2007, ISO/IEC 29192-2)", PRESENT)
    yield of_table(family, "gift", 4, 4, "GIFT (Banik et al. 2017)", GIFT)
    yield of_table(family, "ascon", 5, 5, "Ascon (NIST SP 800-232)", ASCON)
    yield of_table(family, "keccak_chi", 5, 5, "Keccak's chi on a row (FIPS 202)", chi())
    yield of_table(family, "sm4", 8, 8, "SM4 (GB/T 32907)", SM4)
    yield of_table(family, "camellia1", 8, 8, "Camellia, s1 (RFC 3713)", CAMELLIA_1)
