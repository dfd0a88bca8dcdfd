"""Worked cases, each refusal, random functions beside the program and random_tests/plain.py, several threads.

    python3 -m unittest discover -s bindings/python/tests

MINORDER_PROGRAM is the program that the reports come from, ./minorder at the top of the repository if it isn't set.
"""
import array
import os
import random
import subprocess
import sys
import tempfile
import threading
import unittest

HERE = os.path.dirname(os.path.abspath(__file__))
TOP = os.path.dirname(os.path.dirname(os.path.dirname(HERE)))
sys.path[:0] = [os.path.dirname(HERE), f"{TOP}/random_tests"]

import plain  # noqa: E402

import minorder  # noqa: E402
from minorder import _calls, _library  # noqa: E402

PROGRAM = os.environ.get("MINORDER_PROGRAM", f"{TOP}/minorder")
COUNT = int(os.environ.get("MINORDER_COUNT", "200"))


def load_tests(loader, tests, pattern):
    """Without the library no test is begun."""
    try:
        _library.library()
    except minorder.NoLibrary as error:
        sys.exit(f"{os.path.basename(__file__)}: {error}")
    return tests


def multiplexer(a, b, s):
    return b if s else a


def products(*x):
    return x[0] and x[3] or x[1] and x[4] or x[2] and x[5]


def widths(tables, order):
    """Level counts by the definition: of the functions got by fixing the variables above a level, those that depend on
    the level's."""
    inputs = len(order)

    def below(table, level):
        """The table over the variables from a level on, top first, for each assignment of those above."""
        rows = {}
        for point in range(1 << inputs):
            above = tuple(point >> x & 1 for x in order[:level])
            place = sum((point >> x & 1) << (inputs - 1 - i) for i, x in enumerate(order))
            rows.setdefault(above, {})[place & (1 << (inputs - level)) - 1] = table >> point & 1
        return [tuple(row[place] for place in sorted(row)) for row in rows.values()]

    counts = []
    for level in range(inputs):
        reached = {row for table in tables for row in below(table, level)}
        counts.append(sum(row[:len(row) // 2] != row[len(row) // 2:] for row in reached))
    return tuple(counts)


def random_tables(source, inputs, outputs):
    numbers = [source.getrandbits(1 << inputs) & source.getrandbits(1 << inputs) for _ in range(outputs)]
    return [minorder.TruthTable(number, inputs) for number in numbers]


def pla(inputs, tables):
    """The functions as a PLA file: a line for each point where one of them is 1."""
    lines = [f".i {inputs}", f".o {len(tables)}"]
    for point in range(1 << inputs):
        values = [int(table) >> point & 1 for table in tables]
        if any(values):
            lines.append("".join(str(point >> i & 1) for i in range(inputs)) + " " + "".join(map(str, values)))
    return "\n".join([*lines, ".e", ""])


class Folder(unittest.TestCase):
    def setUp(self):
        folder = tempfile.TemporaryDirectory()
        self.addCleanup(folder.cleanup)
        self.path = f"{folder.name}/it"

    def report(self, inputs, tables, *words):
        """What the program reports of functions."""
        with open(f"{self.path}.pla", "w") as file:
            file.write(pla(inputs, tables))
        return subprocess.run([PROGRAM, *words, f"{self.path}.pla"], stdout=subprocess.PIPE, text=True, check=True).stdout


class WorkedCases(Folder):
    def test_multiplexer(self):
        found = minorder.exact(multiplexer, 3)
        self.assertEqual(found, ((2, 0, 1), (1, 1, 1), 3))
        self.assertEqual((found.order, found.levels, found.total), tuple(found))

    def test_a_table_in_each_form(self):
        number = 0b11001010
        values = minorder.from_values([0, 1, 0, 1, 0, 0, 1, 1])
        arrays = [bytes([number]), bytearray([number]), memoryview(bytes([number])), array.array("B", [number])]
        for table in (number, *arrays, multiplexer, values, [number], (multiplexer,), [values]):
            self.assertEqual(minorder.exact(table, 3).total, 3)
        self.assertEqual(minorder.exact(values), minorder.exact(number, 3))
        self.assertEqual(minorder.exact([values, values]).total, 3)

    def test_values_are_told_from_tables(self):
        self.assertEqual(minorder.exact(minorder.from_values([0, 1, 1, 0, 1, 0, 0, 1])).total, 5)
        self.assertEqual(minorder.exact([0, 1, 6], 2).total, minorder.exact([1, 6], 2).total)
        # tables of from_values may be as many as there are points, and each of no or one point
        self.assertEqual(minorder.exact([minorder.TruthTable(it, 1) for it in (0, 1)]).total, 1)

    def test_a_file(self):
        tables, inputs, outputs = minorder.read_pla(f"{TOP}/examples/mux2.pla")
        found = minorder.exact(tables)
        self.assertEqual([inputs[x] for x in found.order], ["s", "a", "b"])
        pla = minorder.read_pla(f"{TOP}/examples/mux2.pla")
        self.assertEqual(minorder.exact(pla), found)
        self.assertEqual(minorder.levels(pla, found.order), found.levels)
        self.assertTrue(minorder.check(pla, minorder.certify(pla)))
        with open(f"{TOP}/examples/mux2.cert") as file:
            self.assertTrue(minorder.check(tables, file.read()))

    def test_products(self):
        self.assertEqual(minorder.exact(products, inputs=6), ((0, 3, 1, 4, 2, 5), (1,) * 6, 6))
        self.assertEqual(minorder.levels(products, range(6)), (1, 2, 4, 4, 2, 1))
        self.assertEqual(minorder.levels([products], [0, 3, 1, 4, 2, 5]), (1,) * 6)
        self.assertEqual(minorder.sift(products, [0, 3, 1, 4, 2, 5]).total, 6)

    def test_pairs(self):
        self.assertEqual(minorder.exact(products, 6, above=[(3, 0)]).order, (1, 4, 2, 5, 3, 0))
        halves = [(a, b) for a in range(3) for b in range(3, 6)]
        self.assertEqual(minorder.exact(products, 6, halves), ((0, 1, 2, 3, 4, 5), (1, 2, 4, 4, 2, 1), 14))
        self.assertEqual(minorder.exact(products, 6, iter([(0, 3), (0, 3)])).total, 6)

    def test_functions_say_how_many_inputs_they_have(self):
        for function in (multiplexer, lambda a, b, s, /: b if s else a):
            self.assertEqual(minorder.exact(function), ((2, 0, 1), (1, 1, 1), 3))
        for tables in ([multiplexer, 0b11001010], [0b11001010, multiplexer], [lambda *x: x[1] if x[2] else x[0], multiplexer]):
            self.assertEqual(minorder.exact(tables).total, 3)
        self.assertEqual(minorder.exact_many([multiplexer, lambda x, y, z: x])[0].total, 3)
        self.assertEqual(minorder.certify(multiplexer), minorder.certify(0b11001010, 3))

    def test_a_result_is_an_order(self):
        found = minorder.exact(multiplexer)
        self.assertEqual(minorder.levels(multiplexer, found), found.levels)
        self.assertEqual(minorder.sift(multiplexer, found), minorder.sift(multiplexer, [2, 0, 1]))
        self.assertEqual(minorder.diagram(multiplexer, found), minorder.diagram(multiplexer, [2, 0, 1]))

    def test_names_of_an_order(self):
        a, b, s = minorder.variables("a b s")
        mux = minorder.read_pla(f"{TOP}/examples/mux2.pla")
        for tables in (minorder.ite(s, b, a), multiplexer, [0b11001010, multiplexer], mux):
            self.assertEqual(minorder.exact(tables, 3).names, ("s", "a", "b"))
        self.assertEqual(minorder.sift(multiplexer, range(3)).names, ("s", "a", "b"))
        for tables in (0b11001010, lambda *x: x[1] if x[2] else x[0]):
            self.assertEqual(minorder.exact(tables, 3).names, ("x2", "x0", "x1"))
        self.assertEqual(minorder.Result((1, 0), (1, 1), 2).names, ("x1", "x0"))

    def test_several_outputs_and_constants(self):
        self.assertEqual(minorder.exact([0b1000, 0b0110], 2), ((0, 1), (2, 2), 4))
        self.assertEqual(minorder.exact([0, 0xF], 2), ((0, 1), (0, 0), 0))

    def test_certificates(self):
        self.report(3, [0b11001010], "--cert", f"{self.path}.cert")
        with open(f"{self.path}.cert") as file:
            text = file.read()
        good = minorder.check(multiplexer, text)
        self.assertTrue(good)
        self.assertEqual(good, ("Valid", 0, 0, 3, ()))
        self.assertEqual(minorder.check(multiplexer, text.encode(), inputs=3), good)
        self.assertEqual(minorder.certify(multiplexer, 3), text)
        self.assertIn("pairs 1\n0 2\n", minorder.certify(multiplexer, 3, above=[(0, 2)]))
        under = minorder.check(multiplexer, minorder.certify(multiplexer, 3, above=[(1, 2), (0, 1)]))
        self.assertTrue(under)
        self.assertEqual((under.total, under.pairs), (5, ((0, 1), (1, 2))))
        self.assertNotEqual(under, good)
        bad = minorder.check(multiplexer, text.replace("total 3", "total 2"))
        self.assertFalse(bad)
        self.assertEqual(bad.reason, "Total")
        self.assertEqual(minorder.check([multiplexer, multiplexer], text).reason, "Shape")
        self.assertEqual(minorder.check(0b10, text, inputs=1).reason, "Shape")
        self.assertEqual(minorder.check(0b11001100, text).reason, "Levels")

    def test_long_certificates(self):
        table = random.Random(1).getrandbits(1 << 13)
        text = minorder.certify(table, 13)
        self.assertGreater(len(text), 1 << 16)
        self.assertTrue(minorder.check(table, text))


class Refusals(unittest.TestCase):
    def refused(self, error, named, call, *arguments, **words):
        """A call is refused, and the message begins with the argument's name."""
        with self.assertRaises(error) as caught:
            call(*arguments, **words)
        self.assertIsInstance(caught.exception, minorder.MinorderError)
        self.assertTrue(str(caught.exception).startswith(f"{named}: "), caught.exception)
        return caught.exception

    def test_shapes(self):
        wrong = (([], 3), ([2] * 17, 3), (256, 3), (-1, 3), (b"", 3), (bytes(2), 3), (b"\x10", 2), ([1, 1 << 8], 3))
        for tables, inputs in wrong:
            self.refused(minorder.BadShape, "tables", minorder.exact, tables, inputs)
        for inputs in (0, 17, -1, 10 ** 12, 10 ** 5000):
            self.refused(minorder.BadShape, "inputs", minorder.exact, 0, inputs)
        self.refused(minorder.BadShape, "order", minorder.levels, 0, [])
        self.refused(minorder.BadShape, "order", minorder.sift, 0, range(17))
        self.refused(minorder.BadShape, "inputs", minorder.check, 0, "", inputs=17)
        self.refused(minorder.BadShape, "inputs", minorder.exact, multiplexer, 4)
        self.refused(minorder.BadShape, "inputs", minorder.exact, minorder.variables(2), 3)

    def test_values_are_no_tables(self):
        values = [0, 1, 1, 0, 1, 0, 0, 1]
        several = (tuple(values), 3), ([0, 1, 1, 0], 2), ([0, 1], 1), (values * 4, 5)
        for tables, inputs in ((values, 3), *several):
            said = self.refused(minorder.BadShape, "tables", minorder.exact, tables, inputs)
            self.assertIn("from_values", str(said))
        for tables in (list(map(bool, values)), [True], [False, True, True], True, False):
            for inputs in (3, None):
                said = self.refused(minorder.BadArgument, "tables", minorder.exact, tables, inputs)
                self.assertRegex(str(said), r"from_values .* ~\(a \^ b\)")
        self.assertIn("from_values", str(self.refused(minorder.BadArgument, "inputs", minorder.exact, values)))
        found = minorder.exact(multiplexer)
        for tables in ({0, 1}, frozenset([3]), {3: 1}, iter([3]), 1.5, None, ["a & b"], [[1]], [1, 1.5], "", "a & b", found):
            for inputs in (3, None):
                self.refused(minorder.BadArgument, "tables", minorder.exact, tables, inputs)
        words = array.array("Q", [1])
        for tables in (words, [words], array.array("i", values), memoryview(bytes(64)).cast("B", (8, 8))):
            said = self.refused(minorder.BadShape, "tables", minorder.exact, tables, 6)
            self.assertIn("from_values(array)", str(said))

    def test_texts_are_no_tables(self):
        for text, call in (("ca", "from_hexadecimal('ca', first="), ("11001010", "from_values('11001010', first=")):
            for tables in (text, [text]):
                said = self.refused(minorder.BadArgument, "tables", minorder.exact, tables, 3)
                self.assertIn(call, str(said))
                self.assertLess(len(str(said)), 100)

    def test_values_of_functions(self):
        for value in (None, "0", 2, 1.0, [], -1, -2):
            said = self.refused(minorder.BadShape, "tables", minorder.exact, lambda a, b: value if a and not b else 0, 2)
            self.assertIn(f"gives {value!r} at the point 1", str(said))
            self.assertEqual("`not` or `^ 1`" in str(said), value in (-1, -2))
        self.refused(minorder.BadShape, "tables", minorder.exact, lambda a, b: ~(a & b), 2)
        x, y = minorder.variables(2)
        said = self.refused(minorder.BadShape, "tables", minorder.exact, lambda a, b: x & y)
        self.assertIn("a table is given itself", str(said))
        self.assertEqual(minorder.exact([lambda a, b: a & b ^ 1, lambda a, b: int(a)], 2).total, 3)

    def test_tables_of_other_inputs(self):
        table = minorder.from_values([0, 1, 1, 0])
        self.refused(minorder.BadShape, "inputs", minorder.exact, table, 3)
        self.refused(minorder.BadArgument, "inputs", minorder.exact, table, table)
        for call in (minorder.levels, minorder.sift, minorder.diagram):
            for order in ([0, 1, 2], [0], minorder.exact(multiplexer)):
                self.refused(minorder.BadOrder, "order", call, [table], order)
        self.refused(minorder.BadShape, "tables", minorder.exact, [table, minorder.from_values([0, 1])])
        self.refused(minorder.BadArgument, "inputs", minorder.exact, 6)

    def test_functions_that_leave_their_inputs_open(self):
        for function, named in ((products, "(*x)"), (lambda a, b=False: a, "(a, b=False)"), (lambda a, *, b: a, "(a, *, b)"),
                                (max, "(..)")):
            said = self.refused(minorder.BadArgument, "inputs", minorder.exact, function)
            self.assertIn(named, str(said))
        self.assertEqual(minorder.exact(lambda a, b=False: a or b, 2).total, 2)
        self.assertEqual(minorder.exact(lambda a, b=False: a or b, 1).total, 1)
        for inputs in (3, 16):
            self.refused(minorder.BadShape, "tables", minorder.exact, lambda a, b=False: a, inputs)
        self.refused(minorder.BadShape, "tables", minorder.exact, [multiplexer, lambda a, b: a])
        self.refused(minorder.BadShape, "inputs", minorder.exact, lambda: True)

    def test_orders(self):
        for order in ([0, 1, 1], [0, 1, 3], [-1, 0, 1], [0, 1, 256]):
            self.refused(minorder.BadOrder, "order", minorder.levels, 1, order)
            self.refused(minorder.BadOrder, "order", minorder.sift, 1, order)
        for order in ("012", b"012", {0, 1, 2}, {0: 1}, 3, None, ["0"], [0, 1.5], [False, True]):
            self.refused(minorder.BadArgument, "order", minorder.levels, 1, order)

    def test_pairs(self):
        for pairs in ([(0, 0)], [(0, 1), (1, 0)], [(0, 3)], [(-1, 0)], [(256, 0)], [(0, 1, 2)], [()]):
            self.refused(minorder.BadPairs, "above", minorder.exact, 1, 3, above=pairs)
        for pairs in ("01", "0,1", ["01"], [0, 1], [{0, 1}], {0: 1}, 1, None, [("0", "1")], [(0, True)]):
            self.refused(minorder.BadArgument, "above", minorder.exact, 1, 3, above=pairs)

    def test_certificates(self):
        faults = (
            ("", 1, "MissingLine"), ("certificate", 1, "MissingLine"), (b"\xff\n", 1, "BadLine"),
            ("x" * (1 << 20 | 1), None, "TooLong"),
            ("bddorder-certificate 1\ninputs 3\n", 3, "MissingLine"),
            ("bddorder-certificate 1\ninputs 03\n", 2, "BadNumber"))
        for text, line, kind in faults:
            for inputs in (3, None):
                said = self.refused(minorder.BadCertificate, "certificate", minorder.check, 1, text, inputs=inputs)
                self.assertEqual((said.line, said.kind), (line, kind))
        for text in (10 ** 12, None, 1.5, ["end"], "\ud800"):
            self.refused(minorder.BadArgument, "certificate", minorder.check, 1, text, 3)

    def test_texts_that_no_file_holds(self):
        found, table = minorder.exact(multiplexer), minorder.TruthTable(0b10, 1)
        self.refused(minorder.BadArgument, "path", minorder.read_pla, "\ud800")
        self.refused(minorder.BadArgument, "path", found._diagram.save, "\ud800.svg")
        self.refused(minorder.BadArgument, "certificates", minorder.report_files, ["a.pla"], certificates="\ud800")
        for names in ("\ud800 b", ["\ud800", "b"], ["\udc80"]):
            self.refused(minorder.BadArgument, "inputs", minorder.variables, names)
        self.refused(minorder.BadArgument, "names", minorder.TruthTable, 0b10, 1, ("\ud800",))
        self.refused(minorder.BadArgument, "inputs", minorder.Pla, (table,), ("\ud800",), ("f",))
        self.refused(minorder.BadArgument, "outputs", minorder.Pla, (table,), ("a",), ("\ud800",))
        self.refused(minorder.BadArgument, "marked", minorder.sizes(multiplexer).marked, **{"\ud800": 3})

    def test_what_the_library_refuses(self):
        others = (3, minorder.MinorderError), (99, minorder.MinorderError)
        refusals = ((2, minorder.BadShape), (5, minorder.BadOrder), (8, minorder.BadPairs), *others)
        for status, error in refusals:
            with self.assertRaises(error):
                _calls.done(status)
        with self.assertRaises(MemoryError):
            _calls.done(4)

    def test_types(self):
        for tables, inputs in ((1.5, 3), (1, "3"), (1, 3.0), (1, True)):
            for error in (minorder.BadArgument, TypeError):
                self.assertRaises(error, minorder.exact, tables, inputs)

    def test_a_function_that_fails(self):
        self.assertRaises(ZeroDivisionError, minorder.exact, lambda a: 1 // 0, 1)


class BesideTheProgram(Folder):
    def test_random_functions(self):
        source = random.Random(2)
        for number in range(COUNT):
            inputs, outputs = source.randint(1, 8), source.randint(1, 4)
            tables = random_tables(source, inputs, outputs)
            several = range(source.randint(0, 3) if inputs > 1 else 0)
            pairs = [tuple(sorted(source.sample(range(inputs), 2), reverse=True)) for _ in several]
            words = ["--above", ":".join(f"{a},{b}" for a, b in pairs)] if pairs else []
            report = self.report(inputs, tables, "--cert", f"{self.path}.cert", *words)
            with self.subTest(number=number, inputs=inputs, tables=tables, pairs=pairs):
                cover = plain.cover_of(pla(inputs, tables).encode())
                functions = plain.Functions(cover)
                self.assertEqual(report, plain.report(cover, functions, tuple(pairs)))
                self.agrees(minorder.exact(tables, inputs, pairs), functions, functions.best(tuple(pairs)))
                self.agrees(minorder.sift(tables, range(inputs)), functions, functions.sifted(()))
                self.assertEqual(minorder.levels(tables, range(inputs)), tuple(functions.levels(range(inputs))))
                with open(f"{self.path}.cert") as file:
                    self.assertTrue(minorder.check(tables, file.read()))

    def agrees(self, found, functions, order):
        """A call's result has an order, and the level counts and the size that both definitions give."""
        self.assertEqual(found, (tuple(order), widths(functions.tables, order), functions.size(order)))


class Threads(unittest.TestCase):
    def test_four_at_a_time(self):
        source = random.Random(3)
        cases = [random_tables(source, 10, 2) for _ in range(16)]
        alone = [minorder.exact(tables, 10) for tables in cases]
        found = [None] * len(cases)

        def work(first):
            for number in range(first, len(cases), 4):
                found[number] = minorder.exact(cases[number], 10)

        threads = [threading.Thread(target=work, args=(first,)) for first in range(4)]
        for thread in threads:
            thread.start()
        for thread in threads:
            thread.join()
        self.assertEqual(found, alone)

    def test_the_interpreter_goes_on_during_a_call(self):
        tables = random_tables(random.Random(4), 14, 4)
        began, done = threading.Event(), threading.Event()

        def work():
            began.set()
            minorder.exact(tables, 14)
            done.set()

        thread = threading.Thread(target=work)
        thread.start()
        began.wait()
        steps = 0
        while not done.is_set():
            steps += 1
        thread.join()
        self.assertGreater(steps, 1000)


if __name__ == "__main__":
    unittest.main()
