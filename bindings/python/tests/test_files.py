"""The reader of PLA files and the faults of certificates beside random_tests/plain.py, and reports.

    python3 -m unittest discover -s bindings/python/tests -p test_files.py
"""
import copy
import os
import pathlib
import pickle
import random
import re
import sys
import tempfile
import unittest
import unittest.mock

HERE = os.path.dirname(os.path.abspath(__file__))
TOP = os.path.dirname(os.path.dirname(os.path.dirname(HERE)))
sys.path[:0] = [os.path.dirname(HERE), f"{TOP}/random_tests"]

import plain  # noqa: E402
import random_texts  # noqa: E402

import minorder  # noqa: E402
from minorder import _certificates, files  # noqa: E402


def answer(fault, work):
    """What a piece of work gives, or its fault's text."""
    try:
        return work()
    except fault as error:
        return str(error).replace("certificate: ", "certificate ")


class Pla(unittest.TestCase):
    def test_multiplexer(self):
        path = f"{TOP}/examples/mux2.pla"
        tables, inputs, outputs = minorder.read_pla(path)
        self.assertEqual((inputs, outputs), (("a", "b", "s"), ("f",)))
        self.assertEqual(tables, (minorder.TruthTable(0b11001010, 3),))
        self.assertEqual(tables[0].names, inputs)
        found = files.pla_of(b".i 2\n.o 2\n-1 1~\n11 01\n")
        self.assertEqual((list(map(int, found.tables)), *found[1:]), ([0b1100, 0b1000], ("x0", "x1"), ("f0", "f1")))

    def test_what_is_refused(self):
        with tempfile.TemporaryDirectory() as folder:
            path = f"{folder}/it.pla"
            with open(path, "w") as file:
                file.write(".i 2\n.o 1\n11 -\n")
            with self.assertRaises(minorder.BadPla) as caught:
                minorder.read_pla(path)
            self.assertEqual((caught.exception.line, caught.exception.kind), (3, "DontCare"))
            self.assertEqual(str(caught.exception), f"{path}: line 3: DontCare")
            self.assertRaises(FileNotFoundError, minorder.read_pla, f"{folder}/none.pla")
        self.assertEqual(minorder.read_pla(pathlib.Path(TOP, "examples", "mux2.pla")).outputs, ("f",))
        of_bytes = unittest.mock.Mock(__fspath__=lambda _: os.fsencode(f"{TOP}/examples/mux2.pla"))
        for path in (None, 3, "\0", ["it.pla"], of_bytes):
            self.assertRaises(minorder.BadArgument, minorder.read_pla, path)
        with self.assertRaises(minorder.BadPla) as caught:
            files.pla_of(b"#" * (files.LIMIT + 1))
        self.assertEqual((caught.exception.line, caught.exception.kind), (None, "TooLong"))
        self.assertEqual(str(pickle.loads(pickle.dumps(caught.exception))), "TooLong")

    def test_it_is_a_value_of_tuples(self):
        found = minorder.read_pla(f"{TOP}/examples/mux2.pla")
        of_lists = minorder.Pla(*map(list, found))
        self.assertEqual({found, of_lists, pickle.loads(pickle.dumps(found)), copy.copy(found)}, {found})
        self.assertEqual(repr(of_lists._replace(inputs=["x0", "x1", "x2"])),
                         "Pla(tables=(TruthTable(0xca, inputs=3),), inputs=('x0', 'x1', 'x2'), outputs=('f',))")
        self.assertEqual(of_lists._replace(inputs=["c", "d", "t"]).tables[0].names, ("c", "d", "t"))
        for refused, error, text in (
                (lambda: minorder.Pla(found.tables, ["a", "b"], ["f"]), minorder.BadShape, "inputs: 2 names where there are 3"),
                (lambda: found._replace(outputs=()), minorder.BadShape, "outputs: 0 names where there are 1"),
                (lambda: found._replace(inputs="abs"), minorder.BadArgument, "inputs: 'abs' is no sequence of names"),
                (lambda: found._replace(inputs={"a", "b", "s"}), minorder.BadArgument, "inputs: {"),
                (lambda: found._replace(tables=[0xca]), minorder.BadArgument, "tables: 202 is no TruthTable"),
                (lambda: found._replace(tables=[]), minorder.BadShape, "tables: 0 tables"),
                (lambda: found._replace(tables=found.tables + minorder.variables(2)), minorder.BadShape, "tables: a table of 2")):
            with self.assertRaises(error) as raised:
                refused()
            self.assertTrue(str(raised.exception).startswith(text), raised.exception)

    def test_the_most_inputs_and_outputs(self):
        rows = ["-" * 16 + " " + "0" * 15 + "1", "1" + "-" * 15 + " 1" + "0" * 15, "-" * 15 + "1 1" + "0" * 15]
        tables, inputs, outputs = files.pla_of(("\n".join([".i 16", ".o 16", *rows]) + "\n").encode())
        first = sum(1 << p for p in range(1 << 16) if p & 1 or p >> 15)
        self.assertEqual(list(map(int, tables)), [first, *[0] * 14, (1 << (1 << 16)) - 1])
        self.assertEqual((inputs[-1], outputs[-1]), ("x15", "f15"))

    def test_random_files_and_certificates(self):
        source = random_texts.Files(random.Random(5))
        for _ in range(1000):
            content = source.pla()
            if source.chance(0.5):
                content = source.damaged(content)
            try:
                wanted = plain.cover_of(content)
            except NotImplementedError:
                continue
            except plain.Fault as fault:
                self.assertEqual(answer(minorder.BadPla, lambda: files.pla_of(content)), fault.text)
                continue
            found = files.pla_of(content)
            self.assertEqual((list(found.inputs), list(map(int, found.tables))), (wanted.names, wanted.tables))
            if wanted.inputs < 6:
                text = source.edited(source.made(wanted, plain.Functions(wanted)))
                said = answer(plain.Fault, lambda: plain.certificate_of(text))
                told = answer(minorder.BadCertificate, lambda: _certificates.check_text(text))
                self.assertEqual(told, said if isinstance(said, str) else None)


class Reports(unittest.TestCase):
    def test_parts(self):
        reports = sorted(pathlib.Path(TOP, "examples").glob("*.report"))
        self.assertGreater(len(reports), 10)
        for path in reports:
            text = path.read_text()
            found = files.parts_of(text)
            self.assertEqual(list(found.items()), re.findall("^([^:]+): (.+)$", text, re.MULTILINE))
            self.assertEqual(len(found), text.count("\n"))


if __name__ == "__main__":
    unittest.main()
