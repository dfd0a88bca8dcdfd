"""Tests of the functions of the table against what their sources say: python3 -m unittest discover -s optima"""
import os
import sys
import unittest

sys.path.insert(0, f"{os.path.dirname(os.path.abspath(__file__))}/../bindings/python")
from minorder.benchmarks import aliases, automata, chips, circuits, codings, digits, entries, sboxes  # noqa: E402
from minorder.benchmarks.entry import bits_of, number  # noqa: E402


def points(n):
    return ([point >> i & 1 for i in range(n)] for point in range(1 << n))


class Sboxes(unittest.TestCase):
    def test_values_that_the_standards_print(self):
        aes = sboxes.aes()
        self.assertEqual([aes[x] for x in (0x00, 0x01, 0x53, 0xFF)], [0x63, 0x7C, 0xED, 0x16])
        self.assertEqual(sboxes.inverse_of(aes)[0xED], 0x53)
        self.assertEqual(sboxes.des(0)[0b011011], 0b0101)
        self.assertEqual((sboxes.SM4[0xEF], sboxes.CAMELLIA_1[0], sboxes.CAMELLIA_1[255]), (0x84, 112, 158))

    def test_tables_are_permutations(self):
        for table in (sboxes.aes(), sboxes.SM4, sboxes.CAMELLIA_1, sboxes.PRESENT, sboxes.GIFT, sboxes.ASCON, sboxes.chi()):
            self.assertEqual(sorted(table), list(range(len(table))))
        for i in range(8):
            for row in sboxes.DES[i].split():
                self.assertEqual(sorted(row), sorted("0123456789abcdef"))


class Chips(unittest.TestCase):
    def unit(self, a, b, s, mode, carryn):
        return [int(bit) for bit in chips.unit(bits_of(a, 4) + bits_of(b, 4) + bits_of(s, 4) + [mode, carryn])]

    def test_the_unit_adds_and_subtracts(self):
        for a in range(16):
            for b in range(16):
                total = self.unit(a, b, 0b1001, 0, 1)
                self.assertEqual((number(total[:4]), total[7]), ((a + b) % 16, a + b < 16))
                difference = self.unit(a, b, 0b0110, 0, 0)
                self.assertEqual((number(difference[:4]), difference[7]), ((a - b) % 16, a < b))
                self.assertEqual(number(self.unit(a, b, 0b0110, 1, 0)[:4]), a ^ b)
                # subtraction without a carry gives all ones where the numbers are equal
                self.assertEqual(self.unit(a, b, 0b0110, 0, 1)[4], a == b)

    def test_the_unit_carries_as_the_look_ahead_says(self):
        for x in points(14):
            *_, p, g, carry = chips.unit(x)
            self.assertEqual(carry, (1 - g) | (1 - p) & x[13])

    def test_what_the_sheets_print(self):
        self.assertEqual([int(bit) for bit in chips.magnitude(bits_of(7, 4) * 2 + [0, 0, 0])], [1, 1, 0])
        self.assertEqual([int(bit) for bit in chips.priority([0] + [1] * 8)], [1, 1, 1, 1, 0])
        self.assertEqual(chips.segments(bits_of(6, 4) + [1, 1]), [1, 1, 0, 0, 0, 0, 0, 1])
        self.assertEqual(chips.segments(bits_of(0, 4) + [1, 0]), [1] * 7 + [0])


class Codings(unittest.TestCase):
    def test_one_error_is_corrected(self):
        for r in (3, 4):
            for x in points((1 << r) - 1 - r):
                word = codings.hamming_encoder(r)(x)
                self.assertEqual(codings.syndrome(word), 0)
                for i in range(len(word)):
                    self.assertEqual(codings.hamming_decoder(r)([bit ^ (i == j) for j, bit in enumerate(word)]), x)

    def test_the_check_value_of_a_byte(self):
        self.assertEqual(number(codings.remainder(0x107, 8, 8)(bits_of(0x31, 8))), 0x97)
        self.assertEqual(number(codings.remainder(0x11021, 16, 8)(bits_of(0x01, 8))), 0x1021)

    def test_ten_bits_keep_the_disparity(self):
        for disparity in (0, 1):
            seen = set()
            for byte in range(256):
                word = codings.ten_bits(bits_of(byte, 8) + [disparity])
                ones = sum(word[:10])
                self.assertEqual(2 * ones - 10, 2 * (word[10] - disparity))
                # the five bits e i f g h aren't equal, and the comma is in no data word
                self.assertEqual(len(set(word[4:9])), 2)
                text = "".join(map(str, map(int, word[:10])))
                self.assertFalse("0011111" in text or "1100000" in text)
                seen.add(tuple(word[:10]))
            self.assertEqual(len(seen), 256)

    def test_two_errors_have_syndromes_of_their_own(self):
        words = [[int(i in (j, k)) for i in range(15)] for j in range(15) for k in range(j + 1)]
        self.assertEqual(len({tuple(codings.bch_syndromes(word)) for word in words}), 120)


class Others(unittest.TestCase):
    def test_names_are_given_once_and_shapes_hold(self):
        seen = set()
        for entry in entries():
            self.assertNotIn(entry.name, seen)
            seen.add(entry.name)
            n = len(entry.inputs)
            self.assertEqual(len(set(entry.inputs)), n)
            self.assertTrue(1 <= n <= 16 and 1 <= entry.outputs <= 16)
            for x in ([0] * n, [1] * n, [i % 2 for i in range(n)]):
                self.assertEqual(len(entry.values(x)), entry.outputs)

    def test_names_of_the_field_are_of_functions_of_that_shape(self):
        shapes = {entry.name: (len(entry.inputs), entry.outputs) for entry in entries()}
        for alias, (here, *shape) in aliases.FIELD.items():
            self.assertEqual(shapes[here], tuple(shape), alias)
            self.assertTrue(alias == here or alias not in shapes, alias)

    def test_a_few_values(self):
        self.assertEqual(number([int(bit) for bit in digits.decimal_adder(0)(bits_of(7, 4) + bits_of(5, 4) + [1])]), 3 + 16)
        self.assertEqual(number(digits.to_decimal(4)(bits_of(1023, 10))), 0x1023)
        self.assertEqual(number(digits.from_decimal(bits_of(0x42, 8))), 42)
        self.assertEqual(number(circuits.rotated(bits_of(0x81, 8) + bits_of(1, 3))), 0x03)
        self.assertEqual(circuits.leading_zeros(bits_of(1, 8)), 7)
        for x in points(5):
            n1, n2, n3, n6, n7 = x
            not_both = 1 - (n3 & n6)
            wanted = [n1 & n3 | n2 & not_both, (n2 | n7) & not_both]
            self.assertEqual([int(bit) for bit in circuits.six_gates(x)], wanted)
            self.assertEqual(number([int(bit) for bit in circuits.one_line(x)]), x[4] << number(x[:4]))
        self.assertEqual(number(circuits.median(4)(bits_of(9, 4) + bits_of(2, 4) + bits_of(5, 4))), 5)
        # one black cell under rule 30: after two steps 11001, after three 1101111
        self.assertEqual(automata.stepped(30, automata.stepped(30, [0, 0, 0, 0, 1, 0, 0, 0, 0])), [1, 1, 0, 0, 1])
        self.assertEqual(sum(automata.is_queens(4)(x)[0] for x in points(16)), 2)
        self.assertEqual(sum(automata.is_connected(4)(x)[0] for x in points(6)), 38)
        self.assertEqual(sum(automata.determinant(3)(x)[0] for x in points(9)), 168)


if __name__ == "__main__":
    unittest.main()
