"""What minorder-score reads of results, and what it refuses by line and word; none of it calls the library.

    python3 -m unittest discover -s bindings/python/tests -p test_results.py
"""
import json
import os
import sys
import time
import unittest

sys.path.insert(0, os.path.dirname(os.path.dirname(os.path.abspath(__file__))))

from minorder import benchmarks  # noqa: E402
from minorder._results import BadResults, Run, read_results  # noqa: E402

EXAMPLES = f"{os.path.dirname(os.path.abspath(__file__))}/../../../examples"


class Reading(unittest.TestCase):
    def test_the_same_results_in_each_form(self):
        wanted = [Run("mux2", "file", (2, 0, 1), None, 0.5), Run("add4", "7", None, 40, None)]
        comma = 'name, order, nodes, seconds, start\nmux2,s a b,,0.5\nadr4,,40,,7\n'
        quoted = '\ufeff\n  \nNAME,ORDER,NODES,SECONDS,START\nmux2,"2,0,1",,0.5,file\n\nadd4,,40,,7\n'
        lines = '{"name": "mux2", "order": [2, 0, 1], "seconds": 0.5}\n\n{"name": "add4", "nodes": 40, "start": 7}\n'
        several = json.dumps([json.loads(line) for line in lines.splitlines() if line])
        others = [comma.replace("\n", "\r"), comma.replace("\n", "\r\n"), comma.replace(",", ";"), comma.replace(",", "\t")]
        for text in (comma, quoted, lines, several, f"\ufeff\n{lines}", f"\ufeff{several}", *others):
            self.assertEqual(read_results(text), wanted)
        noted = 'name;"a note,\nof two lines";order\nmux2;"x\ny;";2\t0 1\n', f'name,note,order\nmux2,{"n" * 200_000},2 0 1\n'
        for text in noted:
            self.assertEqual(read_results(text), [Run("mux2", "file", (2, 0, 1), None, None)])
        self.assertEqual(read_results("name,order\nmux2,late\n"), [Run("mux2", "file", None, None, None)])
        self.assertEqual(read_results("name,order,nodes\nmux2,2 0 1,9\n"), [Run("mux2", "file", (2, 0, 1), 9, None)])

    def test_names_of_the_examples_are_those_of_the_table(self):
        for name in ("hwb8", "bcd7seg", "majority7", "mux2", "mux4"):
            with open(f"{EXAMPLES}/{name}.report") as file:
                report = dict(line.split(": ", 1) for line in file.read().splitlines())
            [run] = read_results(f"name,order\n{name},{report['names']}\n")
            sorted_names = sorted(zip(run.order, report["names"].split()))
            self.assertEqual([it for _, it in sorted_names], benchmarks.entry(name).inputs)
        self.assertEqual(benchmarks.entry("hwb8").inputs, [f"x{i}" for i in range(1, 9)])

    def test_refusals_name_the_line_and_what_is_wrong(self):
        refused = [
            ("", "it names no columns"), ("hwb8,44\n", "it names no columns"), ("name,nodes\n", "there are no results"),
            ("name,nodes\nhwb8,43\n", "line 2: hwb8: 43 nodes, and no order has fewer than 44: most likely counted with"),
            ("name,nodes\nparity8,17\n", "line 2: parity8: 17 nodes, and each order has 15: most likely the constants counted"),
            ("name,nodes\nhwb8,3\n", "line 2: hwb8: 3 nodes, and no order has fewer than 44: most likely another function"),
            ("name,nodes\n\nhwx8,44\n", "line 3: no function or family is named hwx8; is it hwb8"),
            ("name,nodes\nhwb8,4e1\n", "line 2: hwb8: nodes 4e1: no number of nodes"),
            ("name,nodes\nhwb8," + "9" * 5000 + "\n", "no number of nodes"),
            ("name,nodes,start\nhwb8,44,11\n", "line 2: hwb8: start 11: it is file, random"),
            ("name,order\nmux2,2 0 3\n", "line 2: mux2: 3 is no input: they are 0 to 2, or a b s"),
            ("name,order\nmux2,2 0 2\n", "line 2: mux2: input 2 stands twice"),
            ("name,order\nmux2,s a a\n", "line 2: mux2: input a stands twice"),
            ("name,order\nmux2,2 0 b\n", "line 2: mux2: 2 and b: an order has numbers or names, not both"),
            ("name,order\nmux2,2 0\n", "line 2: mux2: input 1 is missing"),
            *((f'name,order\nmux2,"2 0 1{it}"\n', "mux2: 1? is no input") for it in "\n\v\x1c\x85\xa0\u3000"),
            *((f"name,nodes\n{it}mux2,3\n", "line 2: no function or family is named") for it in "\v\x1c\x85\xa0\ufeff"),
            ("name,order\nmux2,2,0,1\n", "line 2: more cells than columns"), ("name,order\nmux2,\n", "line 2: mux2: neither"),
            ("name,order,nodes\nmux2,2 0 1,x\n", "line 2: mux2: nodes x: no number of nodes"),
            ("name,order,nodes\nmux2,late,3\n", "line 2: mux2: both late and 3"),
            ("name,order,nodes\nmux2,2 0 1,Late\n", "line 2: mux2: both late and 2 0 1"),
            ("name,nodes,Name\n", "line 1: the column name stands twice"),
            ("name,nodes,note\nhwb8,44,\"x\nlife,26\n", "line 3: no CSV: unexpected end of data"),
            ("\n\nname,nodes\n\nhwb8,x\n", "line 5: hwb8: nodes x"), ("name;nodes\rhwb8;x\r", "line 2: hwb8: nodes x"),
            ("name,nodes\n\"a\nb\",4\n", "line 3: no function or family is named 'a\\nb'"),
            ("[1]", "entry 1: no object"), ("[", "the list: no JSON"), ("{}\n", "line 1: no name"), ("{\n", "line 1: no JSON"),
            ('[{"name": "mux2", "nodes": true}]', "entry 1: mux2: nodes True"), ("[" * 100_000, "the list: no JSON"),
        ]
        for text, message in refused:
            with self.assertRaises(BadResults) as caught:
                read_results(text)
            self.assertIn(message, str(caught.exception))
        with self.assertRaises(BadResults) as caught:
            read_results("name,nodes\nhwb8,1\nhwb9,2\nhwb9,61\n")
        self.assertEqual([fault[:6] for fault in caught.exception.faults], ["line 2", "line 3"])

    def test_numbers_that_no_run_has(self):
        bad = ["1e308", "nan", "inf", "-0", "-1", "+1", "1e400", "1_000", "\u0663", "\uff11", "0x10", "1000000001", "9" * 5000,
               "soon", "1\0"]
        for text in (*(f'name,nodes,seconds\nhwb8,44,"{it}"\n' for it in bad),
                     *(f'name,order,seconds\n\nlife,late,{it}\n' for it in bad if "\0" not in it)):
            with self.assertRaises(BadResults) as caught:
                read_results(text)
            [fault] = caught.exception.faults
            said = "(hwb8|life): seconds .*: no number of seconds: decimal, from 0 to 1000000000"
            self.assertRegex(fault, f"^line [23]: ({said}|no CSV: .*)$")
        for it in ("-1", "4.0", "44.", "1_0", "\u0664\u0664", "+44", "1e2", "1000000000"):
            with self.assertRaisesRegex(BadResults, "line 2: hwb8: nodes .*: no number of nodes: one to nine decimal digits"):
                read_results(f"name,nodes\nhwb8,{it}\n")
        for it in ("1e400", "-0.0", "-1", "true", '"1_000"', "[1]", "9" * 5000):
            with self.assertRaisesRegex(BadResults, "line 1: hwb8: seconds .*: no number of seconds"):
                read_results(f'{{"name": "hwb8", "nodes": 44, "seconds": {it}}}\n')
        for it in ("NaN", "Infinity", "-Infinity"):
            with self.assertRaisesRegex(BadResults, f"line 1: no JSON: {it} is no number of JSON"):
                read_results(f'{{"name": "hwb8", "nodes": 44, "seconds": {it}}}\n')
        for it, seconds in (("0", 0), (".5", 0.5), ("5.", 5), ("1E-3", 0.001), ("1e9", 1e9), (" ", None), ("1e-400", 0)):
            self.assertEqual(read_results(f"name,nodes,seconds\nhwb8,44,{it}\n"), [Run("hwb8", "file", None, 44, seconds)])

    def test_a_mark_that_is_not_true(self):
        for row, why in (("hwb8,,44,0", "claimed 0, but a number of nodes without an order is a claim"),
                         ("mux2,2 0 1,,1", "claimed 1, but it has an order"), ("hwb8,,44,no", "claimed no: it is 0 or 1")):
            with self.assertRaisesRegex(BadResults, f"line 2: (hwb8|mux2): {why}"):
                read_results(f"name,order,nodes,claimed\n{row}\n")
        with self.assertRaisesRegex(BadResults, "line 1: hwb8: claimed 0, but"):
            read_results('{"name": "hwb8", "nodes": 44, "claimed": false}')
        for row, is_claimed in (("hwb8,,44,1", True), ("hwb8,,44,", True), ("mux2,2 0 1,,0", False), ("mux2,late,,0", False)):
            [run] = read_results(f"name,order,nodes,claimed\n{row}\n")
            self.assertEqual(run.claimed, is_claimed)

    def test_large_refusals_end_soon_in_a_few_lines(self):
        start = time.monotonic()
        unknown = "".join(f"hwb{n}x,1\n" for n in range(200_000))
        for text in ("x" * 200_000, f"name,{'y' * 200_000}\n", f"name,order{',z' * 100_000}\n",
                     f"name,order\nhwb8,{'0 ' * 100_000}\n", f"name,nodes\n{unknown}", f"name,nodes\n{'w' * 100_000},1\n"):
            with self.assertRaises(BadResults) as caught:
                read_results(text)
            self.assertLess(len(str(caught.exception)), 3000)
        self.assertLess(time.monotonic() - start, 60)
        self.assertEqual(len(caught.exception.faults), 1)


if __name__ == "__main__":
    unittest.main()
