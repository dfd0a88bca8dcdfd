"""Tests of docs/optima.html without a browser, and of what is counted by hand: python3 -m unittest discover -s optima

optima/check_page.py opens the page in one."""
import base64
import csv
import html
import itertools
import json
import os
import re
import sys
import unittest
import zlib

HERE = os.path.dirname(os.path.abspath(__file__))
sys.path.insert(0, f"{HERE}/../bindings/python")
from minorder import _differences, benchmarks  # noqa: E402

# in the repository, and where it is installed
DOCS = next(it for it in (f"{HERE}/../docs", f"{HERE}/../../doc/minorder/docs") if os.path.exists(it))
PAGE = f"{DOCS}/optima.html"
OPTIMA = benchmarks.optima()
MOST_BYTES = 2_000_000
# what by_hand.csv says, by the stems of names
COUNTED = {
    "add": lambda k: 9 * k - 7, "less": lambda k: 3 * k - 1, "mux": lambda n: 2 * n - 1, "parity": lambda n: 2 * n - 1,
    "majority": lambda n: ((n + 1) // 2) ** 2, "achilles": lambda k: 2 * k,
}


def contrast(one, other):
    """The contrast of two colours, each by its red, green and blue of 0 to 255: WCAG 2, from 1 to 21."""
    def luminance(colour):
        parts = [part / 255 / 12.92 if part <= 10 else ((part / 255 + 0.055) / 1.055) ** 2.4 for part in colour]
        return 0.2126 * parts[0] + 0.7152 * parts[1] + 0.0722 * parts[2]
    less, more = sorted((luminance(one), luminance(other)))
    return (more + 0.05) / (less + 0.05)


def league_of_optima_md(first):
    """The cells of the lines of the league in docs/OPTIMA.md that begin with such a word."""
    with open(f"{DOCS}/OPTIMA.md", encoding="utf-8") as file:
        lines = [line.strip()[2:-2].split(" | ") for line in file if re.match(rf"\| {first} ", line)]
    return [[cell.strip() for cell in line] for line in lines]


class Page(unittest.TestCase):
    @classmethod
    def setUpClass(cls):
        [cls.heads] = league_of_optima_md("Method")
        with open(PAGE, encoding="utf-8") as file:
            cls.text = file.read()
        found = re.search(r'<script type="application/json" id="data">(.*?)</script>', cls.text, re.S)
        cls.data = json.loads(found[1])

    def test_it_is_one_file(self):
        self.assertLessEqual(len(self.text.encode()), MOST_BYTES)
        self.assertEqual(re.findall(r"<(?:script|link|img|iframe)[^>]*\s(?:src|href)=", self.text), [])
        self.assertEqual(re.findall(r"@import|url\(", re.search("<style>.*?</style>", self.text, re.S)[0]), [])
        for library in ("libjs-jquery", "libjs-jquery-datatables", "libjs-d3"):
            self.assertIn(f"<h3>{library}</h3>", self.text)

    def test_its_colours_are_seen_on_both_grounds(self):
        self.assertAlmostEqual(contrast((255, 255, 255), (0x76, 0x76, 0x76)), 4.54, 2)
        grounds = re.findall(r"^ *:root {(.*?)}", self.text, re.S | re.M)
        self.assertEqual(len(grounds), 2)
        for ground in grounds:
            colours = {name: tuple(bytes.fromhex(value)) for name, value in re.findall(r"--(\w+): #([0-9a-f]{6})", ground)}
            drawn = [it for it in colours if re.fullmatch(r"(curve|bar)\d", it)]
            self.assertEqual(len(drawn), 13)
            for name in drawn:
                self.assertGreaterEqual(contrast(colours[name], colours["ground"]), 3, name)
            for name, under in itertools.product(("text", "muted", "link", "mark"), ("ground", "head", "yours")):
                self.assertGreaterEqual(contrast(colours[name], colours[under]), 4.5, (name, under))

    def test_its_functions_are_those_of_the_table(self):
        names = re.findall(r'<tr data-name="([^"]*)">', self.text)
        self.assertEqual(sorted(names), sorted(OPTIMA))
        hidden = [name for name in names if name.startswith("hwb")]
        self.assertEqual(hidden, [f"hwb{n}" for n in range(4, 17)])
        for it, row in zip(self.data["functions"], OPTIMA.values()):
            said = (it["name"], it["family"], tuple(it["aliases"]), it["what"], len(it["inputs"]), it["outputs"], *it["sums"])
            self.assertEqual(said, (row.name, row.family, row.aliases, row.what, row.inputs, row.outputs,
                                    row.pla_sha256, row.certificate_sha256))
            orders = (tuple(it["order"]), tuple(it["siftedOrder"]), tuple(it["levels"][0]))
            self.assertEqual(orders, (row.first_optimal_order, row.sifted_order, row.level_counts))
            sizes = (row.optimum, row.sifted_nodes, row.file_order_nodes)
            self.assertEqual((it["optimum"], it["sifted"], it["fileOrder"]), sizes)
            self.assertEqual(tuple(map(sum, it["levels"])), sizes)
            self.assertEqual("diagram" in it, row.optimum <= 40)
            if "diagram" in it:
                marks = [mark[0] for mark in it["diagram"]["marks"]]
                self.assertEqual((marks.count("node"), marks.count("name")), (row.optimum, row.outputs))

    def test_its_shares_of_all_orders_are_those_of_the_tables(self):
        with open(f"{HERE}/distributions.csv", newline="", encoding="utf-8") as file:
            _, *lines = csv.reader(file)
        at_shares = {name: set(map(int, sizes)) for name, *sizes in lines}
        with open(f"{HERE}/optima.csv", newline="", encoding="utf-8") as file:
            rows = {row["name"]: row for row in csv.DictReader(file)}
        for it in self.data["functions"]:
            row, orders, within = rows[it["name"]], benchmarks.all_orders()[it["name"]], dict(it["within"])
            self.assertEqual(it["mean"], float(row["mean"]), it["name"])
            self.assertEqual(list(within), sorted(within))
            ends = list(it["within"][0]), list(it["within"][-1])
            self.assertEqual(ends, ([int(row["optimum"]), int(row["optimal_orders"])], [int(row["most"]), orders.up_to[-1]]))
            self.assertEqual(list(within.values()), [orders.within(size) for size in within])
            marked = {line.counted_nodes for line in benchmarks.league() if line.name == it["name"]} - {None}
            self.assertLessEqual(at_shares[it["name"]] | marked | {it["fileOrder"], int(it["mean"])}, set(within))

    def test_its_truth_tables_are_those_of_the_functions(self):
        for it in self.data["functions"]:
            row = OPTIMA[it["name"]]
            size, text = max(1, (1 << row.inputs) // 8), zlib.decompress(base64.b64decode(it["tables"]))
            self.assertEqual(len(text), size * row.outputs)
            tables = [int.from_bytes(text[at:at + size], "little") for at in range(0, len(text), size)]
            if row.inputs <= 10:
                nodes = [_differences.sizes(tables, order)[0] for order in (row.first_optimal_order, range(row.inputs))]
                self.assertEqual(nodes, [row.optimum, row.file_order_nodes], row.name)
            if row.name in ("hwb8", "aes", "mul6", "random12_1"):
                self.assertEqual(tables, benchmarks.entry(row.name).tables())

    def test_its_sizes_are_those_of_the_league(self):
        for start, key in ((benchmarks.FILE, "file"), (benchmarks.RANDOM, "randomStarts")):
            league = benchmarks.standings(benchmarks.league(), OPTIMA, start)
            self.assertEqual({(it["package"], it["name"]) for it in self.data["methods"]}, set(league))
            worst = benchmarks.worst_nodes(benchmarks.league(), OPTIMA, start)
            self.assertEqual(list(self.data["worst"][key].items()), [(name, worst[name]) for name in OPTIMA if name in worst])
            for it in self.data["methods"]:
                lines = league[it["package"], it["name"]].lines
                self.assertEqual(list(it[key]), [line.name for line in lines])
                for line in lines:
                    sizes = it[key][line.name]
                    wanted = [line.counted_nodes, line.most_nodes, line.late, line.runs, line.optimum_met]
                    one = [sizes, sizes, 0, 1, int(sizes == OPTIMA[line.name].optimum)]
                    self.assertEqual(sizes if isinstance(sizes, list) else one, wanted)

    def test_its_league_is_that_of_the_pages(self):
        rows = league_of_optima_md("(CUDD|BuDDy|ABC|minorder)")
        # the page has no shares of better orders
        rows = [[cell for cell, head in zip(row, self.heads) if head != "Better orders"] for row in rows]
        found = re.findall(r"<tr data-method=.*?</tr>", self.text)
        shown = [[re.sub("<[^>]*>", "", cell) for cell in re.findall(r"<t[hd][^>]*>(.*?)</t[hd]>", row)] for row in found]
        self.assertEqual(shown, rows)

    def test_the_leagues_shares_of_better_orders(self):
        leagues = [benchmarks.standings(benchmarks.league(), OPTIMA, start) for start in (benchmarks.FILE, benchmarks.RANDOM)]
        for name, *cells in league_of_optima_md("(CUDD|BuDDy|ABC|minorder)"):
            shares = [cell for cell, head in zip(cells, self.heads[1:]) if head == "Better orders"]
            method = tuple(name.split()[:2])
            means = [benchmarks.mean_better(league[method], benchmarks.all_orders()) for league in leagues]
            self.assertEqual(shares, [benchmarks.brief(mean) for mean in means])

    def test_what_no_package_met(self):
        lines = [line for line in benchmarks.league() if line.start == benchmarks.FILE and line.package != "minorder"]
        self.assertEqual({line.package for line in lines}, {"CUDD", "BuDDy", "ABC"})
        missed = set(OPTIMA) - {line.name for line in lines if line.least_nodes == OPTIMA[line.name].optimum}
        said = f"In {len(missed)} of {len(OPTIMA)} functions no run of CUDD, BuDDy or ABC from the file's order met the optimum"
        with open(f"{DOCS}/OPTIMA.md", encoding="utf-8") as file:
            self.assertIn(said, file.read())
        self.assertIn(html.escape(said), self.text)


class ByHand(unittest.TestCase):
    def test_what_is_counted_is_the_optimum(self):
        with open(f"{HERE}/by_hand.csv", newline="", encoding="utf-8") as file:
            self.assertEqual({row["stem"] for row in csv.DictReader(file)}, set(COUNTED))
        for stem, nodes in COUNTED.items():
            found = [it for it in OPTIMA.values() if re.fullmatch(rf"{stem}\d+", it.name)]
            self.assertGreater(len(found), 2)
            for it in found:
                self.assertEqual(it.optimum, nodes(int(it.name[len(stem):])), it.name)


if __name__ == "__main__":
    unittest.main()
