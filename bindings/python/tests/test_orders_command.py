"""Tests of minorder-orders: python3 -m unittest discover -s bindings/python/tests -p test_orders_command.py"""
import json
import os
import shutil
import stat
import subprocess
import sys
import tempfile
import unittest
from importlib.util import find_spec

PACKAGE = os.path.dirname(os.path.dirname(os.path.abspath(__file__)))
TOP = os.path.abspath(f"{PACKAGE}/../..")
MULTIPLEXER, HIDDEN = f"{TOP}/examples/mux2.pla", f"{TOP}/examples/hwb8.pla"
sys.path.insert(0, PACKAGE)
from minorder.orders_command import percent  # noqa: E402

TEXT = "orders: 6\nfewest: 3 nodes in 2 orders\nmost: 5 nodes in 2 orders\nmean: 4.00 nodes\nmedian: 4 nodes\n"


class Command(unittest.TestCase):
    def setUp(self):
        folder = tempfile.TemporaryDirectory()
        self.addCleanup(folder.cleanup)
        self.folder = folder.name

    def ran(self, *words, **environment):
        command = [sys.executable, "-m", "minorder.orders_command", *words]
        environment = {**os.environ, "PYTHONPATH": PACKAGE, **environment}
        found = subprocess.run(command, cwd=self.folder, env=environment, capture_output=True, text=True)
        return found.returncode, found.stdout, found.stderr

    def content(self, name):
        with open(f"{self.folder}/{name}", encoding="utf-8") as file:
            return file.read()

    def test_text(self):
        self.assertEqual(self.ran(MULTIPLEXER), (0, f"file: {MULTIPLEXER}\n{TEXT}", ""))
        _, text, _ = self.ran(HIDDEN, MULTIPLEXER)
        self.assertEqual(text.splitlines()[1:5], [
            "orders: 40320", "fewest: 44 nodes in 48 orders", "most: 64 nodes in 576 orders", "mean: 56.93 nodes"])
        self.assertTrue(text.endswith(f"file: {MULTIPLEXER}\n{TEXT}"))

    def test_a_name_with_lines_is_a_line(self):
        name = "it\nfewest: 1 node in 6 orders\n.pla"
        shutil.copy(MULTIPLEXER, f"{self.folder}/{name}")
        self.assertEqual(self.ran(name), (0, f"file: it?fewest: 1 node in 6 orders?.pla\n{TEXT}", ""))

    def test_a_file_that_is_there_keeps_its_mode_and_a_link_its_file(self):
        with open(f"{self.folder}/it.csv", "w") as file:
            os.fchmod(file.fileno(), 0o600)
        os.symlink("it.csv", f"{self.folder}/link.csv")
        self.assertEqual(self.ran("-o", "link.csv", MULTIPLEXER)[0], 0)
        self.assertTrue(os.path.islink(f"{self.folder}/link.csv"))
        self.assertEqual(self.content("it.csv"), self.ran("--csv", MULTIPLEXER)[1])
        self.assertEqual(stat.S_IMODE(os.stat(f"{self.folder}/it.csv").st_mode), 0o600)

    def test_marks(self):
        marks = "own=0,1,2", "by name=s a b", "claim=4", "a=b=2"
        wanted = ("mark own: 5 nodes, fewer in 4 orders (66.67 %)\nmark by name: 3 nodes, fewer in 0 orders (0.00 %)\n"
                  "mark claim: 4 nodes, fewer in 2 orders (33.33 %)\n")
        found = self.ran(MULTIPLEXER, *(word for mark in marks[:3] for word in ("--mark", mark)))
        self.assertEqual(found, (0, f"file: {MULTIPLEXER}\n{TEXT}{wanted}", ""))
        self.assertIn("mark x: 2 nodes, which no order has, fewer in 0 orders", self.ran(MULTIPLEXER, "--mark", "x=2")[1])
        self.assertIn("--mark a: b=2: ", self.ran(MULTIPLEXER, "--mark", marks[3])[2])

    def test_shares_of_few_orders(self):
        for count, said in ((0, "0.00 %"), (1, "below 0.01 %"), (10 ** 6, "0.01 %"), (5 * 10 ** 9, "50.00 %"),
                            (10 ** 10 - 1, "above 99.99 %"), (10 ** 10, "100.00 %")):
            self.assertEqual(percent(count, 10 ** 10), said)

    def test_pairs_and_bounds(self):
        wanted = "orders: 3\nfewest: 3 nodes in 2 orders\nmost: 4 nodes in 1 order\nmean: 3.33 nodes\nmedian: 3 nodes\n"
        self.assertEqual(self.ran("--above", "2,0", MULTIPLEXER), (0, f"file: {MULTIPLEXER}\n{wanted}", ""))
        wanted = TEXT.replace("median: 4 nodes", "median: above 3 nodes")
        self.assertEqual(self.ran("--most", "3", MULTIPLEXER), (0, f"file: {MULTIPLEXER}\n{wanted}", ""))

    def test_marks_of_orders_that_do_not_keep_the_pairs(self):
        note = "minorder-orders: --mark m: the order doesn't keep the pairs of --above\n"
        for words in ((), ("--json",), ("-o", "it.svg")):
            status, _, errors = self.ran(*words, "--above", "0,2", "--mark", "m=2,0,1", "--mark", "n=0,1,2", MULTIPLEXER)
            self.assertEqual((status, errors), (0, note))
        status, _, errors = self.ran("--above", "2,0", "--most", "3", "--mark", "m=0,1,2", MULTIPLEXER)
        beyond = "minorder-orders: --mark m: 5: beyond 3 nodes, up to which sizes are counted\n"
        self.assertEqual((status, errors), (2, note + beyond))

    def test_a_file_that_is_read_is_not_written(self):
        shutil.copy(MULTIPLEXER, f"{self.folder}/it.csv")
        os.link(f"{self.folder}/it.csv", f"{self.folder}/same.csv")
        os.symlink("it.csv", f"{self.folder}/link.csv")
        for name in ("it.csv", "./it.csv", "same.csv", "link.csv"):
            self.assertEqual(self.ran("-o", name, MULTIPLEXER, "it.csv"), (
                2, "", f"minorder-orders: {name}: it is one of the files that are read\n"))
        with open(MULTIPLEXER) as file:
            self.assertEqual([file.read()] * 2, [self.content("it.csv"), self.content("same.csv")])

    def test_json_and_csv(self):
        status, text, _ = self.ran("--json", MULTIPLEXER, HIDDEN, "--mark", "own=5")
        rows = [json.loads(line) for line in text.splitlines()]
        self.assertEqual((status, [row["file"] for row in rows], rows[1]["median"]), (0, [MULTIPLEXER, HIDDEN], 57))
        self.assertEqual((rows[0]["sizes"], rows[0]["marks"]["own"]["fewer"]), ([[3, 2], [4, 2], [5, 2]], 4))
        table = "file,nodes,orders\n" + "".join(f"{MULTIPLEXER},{size},2\n" for size in (3, 4, 5))
        self.assertEqual(self.ran("--csv", MULTIPLEXER), (0, table, ""))
        for name, wanted in (("it.csv", table), ("it.json", self.ran("--json", MULTIPLEXER)[1])):
            self.assertEqual(self.ran("-o", name, MULTIPLEXER), (0, "", ""))
            self.assertEqual(self.content(name), wanted)

    def test_pictures(self):
        self.assertEqual(self.ran("-o", "it.svg", HIDDEN, MULTIPLEXER, "--mark", "own=44"), (0, "", ""))
        text = self.content("it.svg")
        for name in ("hwb8.pla: 40,320 orders", "mux2.pla: 6 orders", "own: 44", "optimum: 44", "optimum: 3"):
            self.assertIn(f">{name}</text>", text)
        status, _, errors = self.ran("-o", "it.png", MULTIPLEXER)
        there = bool(find_spec("matplotlib"))
        self.assertEqual((status, os.path.exists(f"{self.folder}/it.png"), errors == ""), (0 if there else 1, there, there))

    def test_the_picture_of_the_page(self):
        words = "--mark", "sifted=0,1,2,3,4,5,7,6", "-o", "it.svg"
        self.assertEqual(self.ran(HIDDEN, *words)[0], 0)
        with open(f"{TOP}/docs/orders.svg", encoding="utf-8") as file:
            self.assertEqual(file.read(), self.content("it.svg"))

    def test_refusals_are_a_line(self):
        with open(f"{self.folder}/no.pla", "w") as file:
            file.write("hello\n")
        long = "9" * 57 + "..."
        for words, status, message in (
                (("none.pla",), 5, "none.pla: No such file or directory"),
                (("no.pla",), 3, "no.pla: line 1: MissingHead"),
                ((MULTIPLEXER, "--mark", "x"), 2, "--mark x: a mark is NAME=ORDER or NAME=SIZE"),
                ((MULTIPLEXER, "--mark", "=3"), 2, "--mark =3: a mark is NAME=ORDER or NAME=SIZE"),
                ((MULTIPLEXER, "--mark", "a\nb=3"), 2, r"--mark 'a\nb': a name is a line of printable text"),
                ((MULTIPLEXER, "--mark", "x="), 2, "--mark x: an order is empty"),
                ((MULTIPLEXER, "--mark", "x=s,a"), 2, "--mark x: s a: b is missing"),
                ((MULTIPLEXER, "--mark", "x=s,a,a"), 2, "--mark x: s a a: a is repeated"),
                ((MULTIPLEXER, "--mark", "x=3", "--csv"), 2, "--mark: CSV has no marks"),
                ((MULTIPLEXER, "--mark", "x=3", "-o", "it.CSV"), 2, "--mark: CSV has no marks"),
                (("no\nsuch\x1b.pla",), 5, "no?such?.pla: No such file or directory"),
                ((MULTIPLEXER, HIDDEN, "--mark", "x=s,a,b"), 2,
                 f"{HIDDEN}: --mark x: s a b: s is no input of the file"),
                ((MULTIPLEXER, "--mark", "x=3", "--mark", "x=4"), 2, "--mark x: the name is given twice"),
                ((MULTIPLEXER, "--mark", f"x={'9' * 5000}"), 2, f"--mark x: {long}: no diagram has so many nodes"),
                ((MULTIPLEXER, "--mark", "x=9999999"), 2,
                 "--mark x: 9999999: no diagram has so many nodes; sizes are 0 to 1048575"),
                ((MULTIPLEXER, "--mark", "x=5", "--most", "4"), 2, "--mark x: 5: beyond 4 nodes, up to which sizes are counted"),
                ((MULTIPLEXER, "--most", "-1"), 2, "most: -1: a bound is at least 0 nodes"),
                ((MULTIPLEXER, "--above", "2-0"), 2, "--above 2-0: pairs of inputs by number are spelled 2,0:1,0"),
                ((MULTIPLEXER, "--above", "02,0"), 2, "--above 02,0: pairs of inputs by number are spelled 2,0:1,0"),
                ((MULTIPLEXER, "--above", ""), 2, "--above : pairs of inputs by number are spelled 2,0:1,0"),
                ((MULTIPLEXER, "--above", "0,3"), 2, "above: (0, 3): variables are 0 to 2"),
                ((MULTIPLEXER, "--above", "0,1:1,0"), 2, "above: the pairs lead from a variable back to itself"),
                ((MULTIPLEXER, "-o", "it.gif"), 2,
                 "it.gif: the name of a file of sizes ends in .csv, .json, .svg, .pdf or .png"),
                ((MULTIPLEXER, "-o", "none/it.svg"), 5, "none/it.svg: No such file or directory")):
            self.assertEqual(self.ran(*words), (status, "", f"minorder-orders: {message}\n"))
        status, output, errors = self.ran(MULTIPLEXER, MINORDER_LIBRARY="/there/is/none.so")
        self.assertEqual((status, output, errors.count("\n")), (1, "", 1))
        for words in ((), ("--json", "--csv", MULTIPLEXER), ("--json", "-o", "it.json", MULTIPLEXER)):
            self.assertEqual(self.ran(*words)[0], 2)
        self.assertEqual(os.listdir(self.folder), ["no.pla"])


if __name__ == "__main__":
    unittest.main()
