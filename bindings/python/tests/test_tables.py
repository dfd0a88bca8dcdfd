"""Truth tables as values: python3 -m unittest discover -s bindings/python/tests -p test_tables.py"""
import array
import concurrent.futures
import copy
import dataclasses
import operator
import os
import pickle
import sys
import unittest
from itertools import product

PACKAGE = os.path.dirname(os.path.dirname(os.path.abspath(__file__)))
sys.path.insert(0, PACKAGE)
import minorder  # noqa: E402
from minorder import TruthTable  # noqa: E402

try:
    import numpy
except ImportError:
    numpy = None

VALUES = [0, 1, 1, 0, 1, 0, 0, 1]


class Refusing(unittest.TestCase):
    def refused(self, error, text, call, *arguments, **words):
        """A call is refused by a message that has the text."""
        with self.assertRaises(error) as caught:
            call(*arguments, **words)
        self.assertIsInstance(caught.exception, minorder.MinorderError)
        self.assertIn(text, str(caught.exception))


class Operators(Refusing):
    def setUp(self):
        self.a, self.b, self.s = minorder.variables("a b s")

    def test_values_at_each_point(self):
        a, b, s = self.a, self.b, self.s
        functions = (
            (a & b, lambda a, b, s: a and b), (a | b, lambda a, b, s: a or b), (a ^ b, lambda a, b, s: a != b),
            (~a, lambda a, b, s: not a), (a & b | s, lambda a, b, s: a and b or s), (~(a ^ s), lambda a, b, s: a == s),
            (minorder.ite(s, b, a), lambda a, b, s: b if s else a))
        for table, function in functions:
            self.assertIsInstance(table, TruthTable)
            self.assertEqual((table.inputs, table.names), (3, ("a", "b", "s")))
            for point, (third, second, first) in enumerate(product((False, True), repeat=3)):
                self.assertEqual(bool(int(table) >> point & 1), bool(function(first, second, third)))

    def test_no_truth_and_no_order(self):
        a, b, s = self.a, self.b, self.s
        for call in (
                lambda: a and b or s, lambda: a or b, lambda: not a, lambda: b if s else a, lambda: a < b, lambda: a <= b,
                lambda: a > b, lambda: max(a, b), lambda: min(a, b), lambda: sorted([a, b]), lambda: any([a]),
                lambda: all([a]), lambda: bool(a), lambda: a < 1, lambda: 1 < a, lambda: a < b < s):
            for text in ("&", "|", "~", "ite(a, b, c) for `b if a else c`"):
                self.refused(TypeError, text, call)

    def test_no_arithmetic(self):
        a, b = self.a, self.b
        for call in (
                lambda: a + b, lambda: a - b, lambda: a * b, lambda: -a, lambda: a << 1, lambda: 1 << a, lambda: a >> 1,
                lambda: 2 * a, lambda: sum([a, b]), lambda: abs(a), lambda: a ** 2, lambda: len(a), lambda: list(a),
                lambda: a[0], lambda: a(1, 0, 0)):
            self.assertRaises(TypeError, call)

    def test_both_sides_are_tables(self):
        a, b, s = self.a, self.b, self.s
        others = 0, 1, 0xca, True, False, None, "a", 1.5, [a]
        for join, other in product((operator.and_, operator.or_, operator.xor), others):
            said = f"tables: {other!r} is no TruthTable: the constants are a & ~a"
            for left, right in ((a, other), (other, a)):
                self.refused(minorder.BadArgument, said, join, left, right)
        self.refused(minorder.BadArgument, "for a == b write ~(a ^ b)", lambda: s & (a == b))
        self.refused(minorder.BadArgument, "`high if test else low`", minorder.exact, lambda a, b, s: minorder.ite(s, b, a))
        for given in ((True, a, b), (a, 1, b), (a, b, None), (True, False, 1)):
            named = next(name for name, it in zip(("test", "high", "low"), given) if not isinstance(it, TruthTable))
            self.refused(minorder.BadArgument, f"{named}: ", minorder.ite, *given)

    def test_other_inputs(self):
        said, other = "a table of 3 variables beside one of 2", minorder.variables(2)[0]
        self.refused(minorder.BadShape, f"tables: {said}", lambda: self.a & other)
        self.refused(minorder.BadShape, f"test, high, low: {said}", minorder.ite, self.a, self.b, other)

    def test_names(self):
        a, x = self.a, minorder.variables(3)[0]
        for table in (a & x, x & a, minorder.ite(x, x, a), ~(x | a)):
            self.assertEqual(table.names, ("a", "b", "s"))
        self.assertEqual((x & x).names, ("x0", "x1", "x2"))
        u = minorder.variables(["u", "v", "w"])[0]
        for call in (lambda: a & u, lambda: minorder.exact([x, a, u]), lambda: minorder.levels([u, a], range(3))):
            self.refused(minorder.BadShape, "tables: one of the variables ", call)
        said = "test, high, low: one of the variables a, b, s beside one of u, v, w"
        self.refused(minorder.BadShape, said, minorder.ite, x, a, u)
        self.assertEqual((TruthTable(u, 3, ("a", "b", "s")) & a).names, a.names)

    @unittest.skipUnless(numpy, "no numpy here")
    def test_beside_numpy(self):
        for other in (numpy.True_, numpy.int64(1), numpy.array([True, False]), numpy.array([1, 2])):
            for call in (lambda: self.a & other, lambda: other & self.a, lambda: other ^ self.a):
                self.refused(minorder.BadArgument, " is no TruthTable", call)
            self.assertIs(self.a == other, False)
            self.assertRaises(TypeError, lambda: other + self.a)


class Values(unittest.TestCase):
    def test_it_is_an_immutable_value(self):
        parity = minorder.from_values(VALUES)
        self.assertEqual((parity.number, parity.inputs, parity.names), (0x96, 3, ("x0", "x1", "x2")))
        with self.assertRaises(dataclasses.FrozenInstanceError):
            parity.number = 1
        named = TruthTable(0x96, 3, ("a", "b", "s"))
        for again in (copy.copy(named), copy.deepcopy(named), pickle.loads(pickle.dumps(named)), eval(repr(named))):
            self.assertEqual((again, again.names), (named, named.names))
        self.assertEqual(repr(parity), "TruthTable(0x96, inputs=3)")
        self.assertEqual(repr(named), "TruthTable(0x96, inputs=3, names=('a', 'b', 's'))")

    def test_equality(self):
        a, b = minorder.variables("a b")
        x, y = minorder.variables(2)
        self.assertIs(a == x, True)
        self.assertIs(a != b, True)
        self.assertEqual({a, b, x, y, a & b, y & x}, {x, y, x & y})
        self.assertNotEqual(TruthTable(1, 1), TruthTable(1, 2))
        # it equals no number, of which it has two
        self.assertFalse(a == int(a) or int(a) == a or a in [int(a)] or a is None)
        self.assertEqual(dict([(int(a), 1), (a, 2)])[a], 2)

    def test_it_is_a_number_where_one_is_wanted(self):
        table = TruthTable(0xca, 3)
        self.assertEqual((int(table), operator.index(table), hex(table), bin(table)), (0xca, 0xca, "0xca", "0b11001010"))
        self.assertEqual(list(range(256))[table], 0xca)
        self.assertNotIsInstance(table, int)

    def test_what_is_refused(self):
        for number, inputs in ((16, 2), (-1, 2), (1, 0), (1, 17)):
            self.assertRaises(minorder.BadShape, TruthTable, number, inputs)
        for words in ((1, "2"), ("1", 2), (1.0, 2), (True, 2), (1, 2, "ab"), (1, 2, [0, 1]), (1, 2, {"a", "b"})):
            self.assertRaises(minorder.BadArgument, TruthTable, *words)
        for names in (("a",), ("a", "b", "c"), []):
            self.assertRaises(minorder.BadShape, TruthTable, 1, 2, names)

    def test_other_processes_take_and_give_them(self):
        a, b = minorder.variables("a b")
        with concurrent.futures.ProcessPoolExecutor(1) as pool:
            found = pool.submit(operator.and_, a, b).result()
            self.assertEqual((found, found.names), (a & b, ("a", "b")))
            self.assertEqual(minorder.exact_many([a & b, a ^ b], executor=pool), [minorder.exact(it) for it in (a & b, a ^ b)])
            self.assertEqual(minorder.exact_many([[a, b]], executor=pool), [minorder.exact([a, b])])


class Variables(Refusing):
    def test_tables(self):
        for inputs in (1, 7, 16):
            wanted = [sum(1 << p for p in range(1 << inputs) if p >> i & 1) for i in range(inputs)]
            self.assertEqual(list(map(int, minorder.variables(inputs))), wanted)

    def test_names(self):
        for inputs in ("a1 b1 a2", "a1, b1, a2", " a1\tb1\na2 ", ["a1", "b1", "a2"], iter(("a1", "b1", "a2"))):
            found = minorder.variables(inputs)
            self.assertEqual((found, {it.names for it in found}), (minorder.variables(3), {("a1", "b1", "a2")}))
        self.assertEqual(minorder.variables(["a,b", "c d"])[0].names, ("a,b", "c d"))

    def test_what_is_refused(self):
        for inputs in (0, 17, "", " ", [], "a " * 17):
            self.refused(minorder.BadShape, "inputs: ", minorder.variables, inputs)
        self.refused(minorder.BadShape, "inputs: a stands twice", minorder.variables, "a b a")
        self.refused(minorder.BadArgument, "inputs: '' is no name", minorder.variables, ["a", ""])
        for inputs in (None, 1.5, True, b"a b", {"a", "b"}, {"a": 1}, [1, 2]):
            self.refused(minorder.BadArgument, "inputs: ", minorder.variables, inputs)


class OfValues(Refusing):
    def test_sequences(self):
        bools = list(map(bool, VALUES))
        arrays = array.array("b", bools), memoryview(bytes(bools)), *((numpy.array(bools), numpy.array(VALUES)) if numpy else ())
        for values in (VALUES, bools, tuple(bools), iter(bools), *arrays, (it for it in bools)):
            self.assertEqual(minorder.from_values(values), TruthTable(0x96, 3))
        # the multiplexer: 1 at the points 1, 3, 6 and 7
        for first, number in ((None, 0xca), ("lowest", 0xca), ("highest", 0x53)):
            self.assertEqual(minorder.from_values([0, 1, 0, 1, 0, 0, 1, 1], first), TruthTable(number, 3))

    def test_texts(self):
        for text, first in (("01010011", "lowest"), ("11001010", "highest")):
            self.assertEqual(minorder.from_values(text, first=first), TruthTable(0xca, 3))
        self.assertEqual(minorder.from_values("01", first="lowest"), minorder.variables(1)[0])
        # ABC reads the leftmost digit as that of the highest points
        for digits, first in (("ca", "highest"), ("CA", "highest"), ("53", "lowest")):
            self.assertEqual(minorder.from_hexadecimal(digits, first=first), TruthTable(0xca, 3))
        self.assertEqual(minorder.from_hexadecimal("8", first="highest"), TruthTable(8, 2))
        self.assertEqual(minorder.from_hexadecimal("cafe" * 4096, first="highest").inputs, 16)
        self.assertEqual(int(minorder.from_hexadecimal("00000001", first="highest")), 1)
        self.assertEqual(int(minorder.from_hexadecimal("00000001", first="lowest")), 1 << 31)

    def test_what_is_refused(self):
        tables = [*minorder.variables(1)] * 2
        for values in ([], [1], [0, 1, 1], [0, 2], [0, "1"], [0.5, 1], [[0, 1], [1, 0]], [0] * (1 << 17), tables):
            self.refused(minorder.BadShape, "values: ", minorder.from_values, values)
        for values in (b"\0\1", {0, 1}, {0: 1, 1: 0}, 5, None, minorder.variables(1)[0]):
            self.refused(minorder.BadArgument, "values: ", minorder.from_values, values)
        for text in ("", "0", "011", "0 11", "0x11", "0121", "0_11", "\u0661\u0661"):
            self.refused(minorder.BadShape, "values: ", minorder.from_values, text, first="lowest")
        for digits in ("", "cab", "0xca", "c a", "xy", "\uff11"):
            self.refused(minorder.BadShape, "digits: ", minorder.from_hexadecimal, digits, first="highest")
        for digits in (0xca, b"ca", None):
            self.refused(minorder.BadArgument, "digits: ", minorder.from_hexadecimal, digits, first="highest")

    def test_the_end_is_no_guess(self):
        for call, text in ((minorder.from_values, "11001010"), (minorder.from_hexadecimal, "ca")):
            self.refused(minorder.BadArgument, 'first: a text is read from either end: write first="highest"', call, text)
            for first in ("left", "", 0, True, ["lowest"]):
                self.refused(minorder.BadArgument, "first: ", call, text, first=first)
        self.refused(minorder.BadArgument, "first: ", minorder.from_values, VALUES, first="msb")


if __name__ == "__main__":
    unittest.main()
