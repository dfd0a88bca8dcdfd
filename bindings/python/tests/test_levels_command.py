"""Tests of minorder-levels: python3 -m unittest discover -s bindings/python/tests"""
import os
import subprocess
import sys
import tempfile
import unittest

PACKAGE = os.path.dirname(os.path.dirname(os.path.abspath(__file__)))
sys.path.insert(0, PACKAGE)
from minorder._orders import fault_of, numbered, orders_of  # noqa: E402

MULTIPLEXER = f"{PACKAGE}/../../examples/mux2.pla"
LONG = "9" * 57 + "..."


def ran(*words, **environment):
    command = [sys.executable, "-m", "minorder.levels_command", *words]
    found = subprocess.run(command, env={**os.environ, "PYTHONPATH": PACKAGE, **environment}, capture_output=True, text=True)
    return found.returncode, found.stdout, found.stderr


class Orders(unittest.TestCase):
    def test_they_are_spelled_as_in_reports_and_with_commas(self):
        for words in (["2", "0", "1"], ["2 0 1"], ["2,0,1"], ["2,", "0,", "1"]):
            self.assertEqual(orders_of(words, "abs"), [["2", "0", "1"]])
        self.assertEqual(orders_of(["2,0,1", "0 1 2"], "abs"), [["2", "0", "1"], ["0", "1", "2"]])
        self.assertEqual(orders_of(["0", "0"], "a"), [["0"], ["0"]])

    def test_a_name_is_one_word_whatever_commas_it_has(self):
        names = ["a,b", "c", "s,t"]
        for words in (["c", "a,b", "s,t"], ["c a,b s,t"]):
            self.assertEqual(orders_of(words, names), [["c", "a,b", "s,t"]])
        self.assertEqual(orders_of(["2,1,0", "c a,b s,t"], names), [["2", "1", "0"], ["c", "a,b", "s,t"]])
        self.assertEqual(orders_of(["a,b"], names), [["a,b"]])

    def test_names_become_numbers(self):
        self.assertEqual(numbered(["s", "a", "b"], ["a", "b", "s"]), ["2", "0", "1"])
        self.assertEqual(numbered(["s", "0", "b"], ["a", "b", "s"]), ["2", "0", "1"])
        # an order by number stays one where the names are numbers, too
        self.assertEqual(numbered(["0", "1"], ["1", "0"]), ["0", "1"])
        self.assertEqual(numbered(["7", "1", "3"], ["1", "3", "7"]), ["2", "0", "1"])
        self.assertEqual(numbered(["x", "y", "x"], ["x", "x", "y"]), ["0", "2", "1"])

    def test_what_is_no_order_is_told(self):
        for words, fault in (("0 0 1", "0 is repeated"), ("0 1", "2 is missing"), ("0 1 x", "x is no input of the file"),
                             ("00 1 2", "00 is no input of the file"),
                             ("2", "0, 1 are missing"), ("0 1 2", None)):
            self.assertEqual(fault_of(words.split(), 3), fault)
        self.assertEqual(fault_of([], 3), "an order is empty")
        self.assertEqual(fault_of(["2", "0"], 3, ["a", "b", "s"]), "b is missing")
        self.assertEqual(fault_of(["2", "2"], 3, ["a", "b", "s"]), "s is repeated")
        # Python makes no number of so many digits
        for digit in "19":
            self.assertEqual(fault_of([digit * 5000], 3), f"{digit * 57}... is out of range: the file's inputs are 0 to 2")


class Command(unittest.TestCase):
    def test_orders_by_number_and_by_name_have_their_level_counts(self):
        best = "order: 2 0 1\nnames: s a b\nlevels: 1 1 1\nnodes: 3\n"
        file_order = "order: 0 1 2\nnames: a b s\nlevels: 1 2 2\nnodes: 5\n"
        for words in (["2", "0", "1"], ["s,a,b"], ["s a b"]):
            self.assertEqual(ran(MULTIPLEXER, *words), (0, best, ""))
        self.assertEqual(ran(MULTIPLEXER, "s,a,b", "0,1,2"), (0, best + file_order, ""))

    def test_refusals_are_a_line(self):
        with tempfile.NamedTemporaryFile("w", suffix=".pla") as file:
            file.write("hello\n")
            file.flush()
            for words, status, message in (
                    (("/no/file", "0"), 5, "/no/file: No such file or directory"),
                    ((file.name, "0"), 3, f"{file.name}: line 1: MissingHead"),
                    ((MULTIPLEXER, "2", "0"), 2, "2 0: 1 is missing"),
                    ((MULTIPLEXER, "s,a"), 2, "s a: b is missing"),
                    ((MULTIPLEXER, ""), 2, "an order is empty"),
                    ((MULTIPLEXER, "9" * 5000), 2, f"{LONG}: {LONG} is out of range: the file's inputs are 0 to 2"),
                    ((MULTIPLEXER, "2,0,1", "0,1,3"), 2, "0 1 3: 3 is out of range: the file's inputs are 0 to 2")):
                self.assertEqual(ran(*words), (status, "", f"minorder-levels: {message}\n"))
        status, output, errors = ran(MULTIPLEXER, "2", "0", "1", MINORDER_LIBRARY="/there/is/none.so")
        self.assertEqual((status, output, errors.count("\n")), (1, "", 1))
        self.assertIn("MINORDER_LIBRARY", errors)
        self.assertEqual(ran(MULTIPLEXER)[0], 2)
        self.assertEqual(ran("--help")[0], 0)


if __name__ == "__main__":
    unittest.main()
