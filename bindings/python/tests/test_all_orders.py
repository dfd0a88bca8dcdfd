"""What all orders have beside each order by itself, sizes as values, in files and as curves.

    python3 -m unittest discover -s bindings/python/tests -p test_all_orders.py
"""
import csv
import dataclasses
import io
import itertools
import json
import os
import pickle
import random
import sys
import tempfile
import unittest
import unittest.mock
from collections import Counter
from decimal import Decimal
from fractions import Fraction
from importlib.util import find_spec
from xml.etree import ElementTree

PACKAGE = os.path.dirname(os.path.dirname(os.path.abspath(__file__)))
TOP = os.path.abspath(f"{PACKAGE}/../..")
sys.path.insert(0, PACKAGE)
import minorder  # noqa: E402
from minorder import _curves, _plots  # noqa: E402
from minorder._arguments import two_decimals  # noqa: E402
from test_minorder import multiplexer, products, random_tables, widths  # noqa: E402

try:
    import numpy
except ImportError:
    numpy = None

HIDDEN = minorder.read_pla(f"{TOP}/examples/hwb8.pla")
ADDER = minorder.read_pla(f"{TOP}/examples/adder4.pla")
PRODUCTS = minorder.read_pla(f"{TOP}/examples/products3.pla")
NO_SIZES = 1 << 20, -1, 10 ** 30


def pairs_among(source, inputs):
    """Pairs that lead down a random order, so not from a variable back to itself."""
    order = source.sample(range(inputs), inputs)
    every = list(itertools.combinations(order, 2))
    return source.sample(every, source.randint(0, min(3, len(every))))


def kept(inputs, pairs):
    """The orders that keep the pairs, one by one."""
    return [it for it in itertools.permutations(range(inputs)) if all(it.index(a) < it.index(b) for a, b in pairs)]


class Beside(unittest.TestCase):
    """Random functions beside each order by itself, counted by the definition."""

    def setUp(self):
        source = random.Random(44)
        self.cases = []
        for inputs in (1, 2, 3, 4, 5) * 6:
            tables = random_tables(source, inputs, source.randint(1, 3))
            pairs = pairs_among(source, inputs) if source.random() < 0.6 else []
            numbers = list(map(int, tables))
            self.cases.append((inputs, tables, pairs, [sum(widths(numbers, it)) for it in kept(inputs, pairs)]))

    def test_sizes(self):
        for inputs, tables, pairs, each in self.cases:
            found = minorder.sizes(tables, above=pairs)
            self.assertEqual(list(found.items()), sorted(Counter(each).items()))
            self.assertEqual((found.total, found.fewest, found.most), (len(each), min(each), max(each)))
            self.assertEqual((found.mean, found.bound), (Fraction(sum(each), len(each)), None))
            for size in range(max(each) + 3):
                self.assertEqual(found.rank(size), sum(it < size for it in each))
                self.assertEqual(found.share(size), Fraction(sum(it <= size for it in each), len(each)))
            for twelfths in range(13):
                share = Fraction(twelfths, 12)
                self.assertEqual(found.quantile(share), min(it for it in each if found.share(it) >= share))

    def test_orders(self):
        for inputs, tables, pairs, each in self.cases:
            found, count = minorder.orders(tables, inputs, pairs), Counter(each)
            self.assertEqual(found, minorder.sizes(tables, above=iter(pairs)).figures)
            self.assertEqual((found.count, found.nodes, found.most), (len(each), min(each), max(each)))
            self.assertEqual((found.optimal, found.worst), (count[min(each)], count[max(each)]))
            self.assertEqual((found.mean, found.nodes), (
                Fraction(sum(each), len(each)), minorder.exact(tables, above=pairs).total))

    def test_bounds(self):
        for inputs, tables, pairs, each in self.cases:
            for most in range(max(each) + 2):
                found = minorder.sizes(tables, above=pairs, most=most)
                self.assertEqual(dict(found), {size: number for size, number in Counter(each).items() if size <= most})
                self.assertEqual(found.bound, most if most < max(each) else None)
                self.assertEqual(found.figures, minorder.orders(tables, above=pairs))
                self.assertEqual(found.rank(most + 1), sum(it <= most for it in each))
                self.assertIn("<svg", found._repr_svg_())

    def test_widths(self):
        for inputs, tables, _, _ in self.cases:
            found, numbers = minorder.widths(tables), list(map(int, tables))
            for order in itertools.permutations(range(inputs)):
                levels = widths(numbers, order)
                below = [sum(1 << x for x in order[level:]) for level in range(inputs)]
                self.assertEqual(tuple(found.width(x, mask) for x, mask in zip(order, below)), levels)
                self.assertEqual(found.cost(order), sum(levels))
            for mask, row in enumerate(found.buffer.tolist()):
                self.assertEqual(found.row(mask), tuple(row))
                self.assertEqual([x for x in range(inputs) if not mask >> x & 1 and row[x]], [])


class Worked(unittest.TestCase):
    def test_examples(self):
        for tables, fewest, optimal, most, mean, median in (
                (HIDDEN, 44, 48, 64, "56.93", 57), (ADDER, 29, 16, 105, "71.76", 69), (PRODUCTS, 6, 48, 14, "10.80", 10)):
            found = minorder.sizes(tables)
            self.assertEqual((found.fewest, found[fewest], found.most), (fewest, optimal, most))
            self.assertEqual((two_decimals(found.mean), found.quantile(0.5)), (mean, median))
            self.assertEqual(found.figures, minorder.orders(tables))
            best = minorder.exact(tables)
            self.assertEqual((minorder.widths(tables).cost(best), found.rank(best)), (best.total, 0))

    def test_each_form_of_tables(self):
        wanted = {3: 2, 4: 2, 5: 2}
        for tables in (multiplexer, minorder.from_hexadecimal("ca", first="highest"), [multiplexer, multiplexer]):
            self.assertEqual(minorder.sizes(tables), wanted)
        self.assertEqual(minorder.sizes(0xca, 3), wanted)
        self.assertEqual(minorder.sizes(products, inputs=6), minorder.sizes(PRODUCTS))

    def test_constants_and_symmetric_functions(self):
        self.assertEqual(dict(minorder.sizes([0, 0xF], 2)), {0: 2})
        found = minorder.sizes(lambda a, b, c: a ^ b ^ c)
        self.assertEqual((dict(found), found.quantile(0), found.quantile(1)), ({5: 6}, 5, 5))
        self.assertEqual(minorder.orders(0, 1), minorder.Orders(1, 0, 1, 0, 1, Fraction(0)))
        for it in (found, minorder.sizes(0, 1), minorder.sizes(0, 1, most=0)):
            self.assertIn("</svg>", it._repr_svg_())

    def test_sixteen_inputs(self):
        found = minorder.sizes(lambda *x: any(x[i] and x[i + 8] for i in range(8)), 16)
        self.assertEqual((found.total, found.fewest, found.most), (20922789888000, 16, 510))
        self.assertEqual(found.rank(range(16)), found.total - found[510])


class Values(unittest.TestCase):
    def test_they_are_immutable(self):
        found = minorder.sizes(PRODUCTS)
        for it, name in ((found, "bound"), (found.figures, "count"), (minorder.widths(PRODUCTS), "inputs")):
            with self.assertRaises(dataclasses.FrozenInstanceError):
                setattr(it, name, 1)
        with self.assertRaises(TypeError):
            found[6] = 1
        self.assertTrue(minorder.widths(PRODUCTS).buffer.readonly)
        marked = found.marked(own=8)
        self.assertEqual((found.marks, marked.marks), ((), (("own", 8),)))
        self.assertEqual(marked.marked(other=7, own=9).marks, (("own", 9), ("other", 7)))

    def test_they_are_copied(self):
        for it in (minorder.sizes(PRODUCTS).marked(own=8), minorder.orders(PRODUCTS), minorder.widths(PRODUCTS)):
            self.assertEqual(pickle.loads(pickle.dumps(it)), it)
        self.assertEqual(pickle.loads(pickle.dumps(minorder.sizes(PRODUCTS))).marked(file=range(6)).marks, (("file", 14),))

    def test_a_mapping(self):
        found = minorder.sizes(PRODUCTS)
        self.assertEqual((len(found), 6 in found, 7 in found, found.get(7, 0)), (4, True, False, 0))
        self.assertEqual((found, list(found)), ({6: 48, 8: 192, 10: 192, 14: 288}, [6, 8, 10, 14]))
        self.assertEqual(repr(found), "<Sizes of 720 orders: 6 to 14 nodes, mean 10.80>")
        cut = minorder.sizes(PRODUCTS, most=9)
        self.assertEqual(repr(cut), "<Sizes of 720 orders: 6 to 14 nodes, mean 10.80, counted up to 9>")
        self.assertEqual(repr(minorder.widths(PRODUCTS)), "<Widths of 6 variables>")

    def test_shares(self):
        found = minorder.sizes(PRODUCTS)
        # a decimal fraction is what is written: 0.6 is 432 of 720 orders
        for share in (0.6, Decimal("0.6"), Fraction(3, 5)):
            self.assertEqual(found.quantile(share), 10)
        self.assertEqual((found.quantile(0), found.quantile(1), found.quantile(Fraction(433, 720))), (6, 14, 14))

    @unittest.skipUnless(numpy, "no numpy here")
    def test_numpy(self):
        found = minorder.widths(ADDER)
        for array in (numpy.asarray(found), numpy.asarray(found.buffer)):
            self.assertEqual((array.shape, array.dtype, array.flags.writeable), ((256, 8), numpy.uint32, False))
            self.assertEqual(array.tolist(), found.buffer.tolist())
        content = numpy.frombuffer(found._content, numpy.uint32)
        self.assertTrue(numpy.shares_memory(numpy.asarray(found), content))
        self.assertEqual(found.width(numpy.int64(1), numpy.uint8(7)), found.width(1, 7))
        self.assertEqual(minorder.sizes(ADDER).quantile(numpy.float32(0.5)), 69)


class Refusals(unittest.TestCase):
    def refused(self, error, said, call, *arguments, **words):
        """A call is refused, and the message begins so."""
        with self.assertRaises(error) as caught:
            call(*arguments, **words)
        self.assertIsInstance(caught.exception, minorder.MinorderError)
        self.assertTrue(str(caught.exception).startswith(said), caught.exception)

    def test_arguments_of_each_call(self):
        for call in (minorder.orders, minorder.sizes, minorder.widths):
            self.refused(minorder.BadArgument, "tables: ", call, "a & b")
            self.refused(minorder.BadArgument, "inputs: ", call, 5)
            self.refused(minorder.BadShape, "inputs: ", call, 5, 17)
        for call in (minorder.orders, minorder.sizes):
            self.refused(minorder.BadPairs, "above: ", call, 5, 3, [(0, 1), (1, 0)])
            self.refused(minorder.BadPairs, "above: ", call, 5, 3, [(0, 3)])
            self.refused(minorder.BadArgument, "above: ", call, 5, 3, "0,1")
        self.refused(minorder.BadSize, "most: -1: ", minorder.sizes, 5, 3, most=-1)
        for most in (1.5, True, "4"):
            self.refused(minorder.BadArgument, "most: ", minorder.sizes, 5, 3, most=most)
        self.assertIsNone(minorder.sizes(5, 3, most=10 ** 30).bound)

    def test_what_is_asked_for(self):
        found = minorder.sizes(PRODUCTS)
        for call in (found.rank, found.share):
            for size in NO_SIZES:
                self.refused(minorder.BadSize, "size: ", call, size)
            for size in (1.5, None, "8", {6}):
                self.refused(minorder.BadArgument, "size: ", call, size)
            self.refused(minorder.BadOrder, "size: (0, 1): the tables have 6 variables", call, (0, 1))
        for share in (-0.1, 1.1, 2):
            self.refused(minorder.BadSize, "q: ", found.quantile, share)
        for share in ("0.5", None, True, float("nan"), float("inf"), 1j):
            self.refused(minorder.BadArgument, "q: ", found.quantile, share)
        widths = minorder.widths(PRODUCTS)
        for x in (-1, 6):
            self.refused(minorder.BadShape, f"x: {x}: variables are 0 to 5", widths.width, x, 1)
        for mask in (-1, 64):
            self.refused(minorder.BadShape, f"mask: {mask}: the masks", widths.row, mask)
        self.refused(minorder.BadArgument, "mask: ", widths.width, 0, "1")
        self.refused(minorder.BadOrder, "order: ", widths.cost, [0, 1, 2])

    def test_marks(self):
        found = minorder.sizes(PRODUCTS)
        for size in NO_SIZES:
            self.refused(minorder.BadSize, "marked: own: ", found.marked, own=size)
        self.refused(minorder.BadArgument, "marked: own: ", found.marked, own="8")
        self.refused(minorder.BadOrder, "marked: own: (0, 0, 1, 2, 3, 4): ", found.marked, own=(0, 0, 1, 2, 3, 4))
        self.refused(minorder.BadArgument, "marked: ' ' is no name", found.marked, **{" ": 8})

    def test_beyond_the_bound(self):
        found = minorder.sizes(PRODUCTS, most=9)
        self.assertEqual((found.total, found.mean, found.most), (720, Fraction(54, 5), 14))
        self.assertEqual((found.rank(10), found.share(9), found.quantile(Fraction(1, 3))), (240, Fraction(1, 3), 8))
        beyond = "beyond 9 nodes, up to which sizes are counted"
        self.refused(minorder.BadSize, f"size: 11: {beyond}", found.rank, 11)
        self.refused(minorder.BadSize, f"size: 10: {beyond}", found.share, 10)
        self.refused(minorder.BadSize, f"q: 0.5: {beyond}", found.quantile, 0.5)
        self.refused(minorder.BadSize, f"marked: file: 14: {beyond}", found.marked, file=range(6))
        empty = minorder.sizes(PRODUCTS, most=5)
        self.assertEqual((dict(empty), empty.rank(6), empty.share(5)), ({}, 0, 0))
        self.refused(minorder.BadSize, "q: 0: beyond 5 nodes", empty.quantile, 0)


class Files(unittest.TestCase):
    def setUp(self):
        folder = tempfile.TemporaryDirectory()
        self.addCleanup(folder.cleanup)
        self.folder = folder.name

    def saved(self, sizes, suffix):
        sizes.save(f"{self.folder}/it{suffix}")
        with open(f"{self.folder}/it{suffix}", "rb") as file:
            return file.read()

    def test_texts(self):
        found = minorder.sizes(PRODUCTS).marked(file=range(6), odd=7)
        rows = list(csv.reader(io.StringIO(self.saved(found, ".csv").decode())))
        self.assertEqual(rows, [["nodes", "orders"], *([str(size), str(number)] for size, number in found.items())])
        self.assertEqual(json.loads(self.saved(found, ".json")), {
            "orders": 720, "fewest": 6, "optimal": 48, "most": 14, "worst": 288, "mean": 10.8, "median": 10, "bound": None,
            "marks": {"file": {"nodes": 14, "orders": 288, "fewer": 432}, "odd": {"nodes": 7, "orders": 0, "fewer": 48}},
            "sizes": [[6, 48], [8, 192], [10, 192], [14, 288]]})
        cut = json.loads(self.saved(minorder.sizes(PRODUCTS, most=8), ".json"))
        self.assertEqual((cut["median"], cut["bound"], cut["sizes"]), (None, 8, [[6, 48], [8, 192]]))

    def test_pictures(self):
        found = minorder.sizes(PRODUCTS).marked(file=range(6))
        self.assertEqual(self.saved(found, ".svg").decode(), found._repr_svg_())
        for suffix, begin in ((".png", b"\x89PNG"), (".pdf", b"%PDF")):
            if find_spec("matplotlib"):
                self.assertTrue(self.saved(found, suffix).startswith(begin))
            with unittest.mock.patch.dict(sys.modules, {"matplotlib.figure": None}):
                with self.assertRaisesRegex(minorder.NoMatplotlib, "python3-matplotlib"):
                    found.save(f"{self.folder}/other{suffix}")
        self.assertFalse(os.path.exists(f"{self.folder}/other.png"))

    def test_refusals(self):
        found = minorder.sizes(PRODUCTS)
        for name in ("it.gif", "it", ".svg", ""):
            self.assertRaises(minorder.BadPath, found.save, name)
        self.assertRaises(minorder.BadArgument, found.save, 3)
        with self.assertRaises(OSError) as caught:
            found.save(f"{self.folder}/none/it.svg")
        self.assertEqual(caught.exception.filename, f"{self.folder}/none/it.svg")


class Curves(unittest.TestCase):
    def boxes(self, picture):
        """What each text takes at most: from the left to the right, from above to below."""
        for text in picture.texts:
            (x, y), width = text.place, _plots.width_of(text.text)
            if not text.is_upward:
                left = x - {"start": 0, "middle": width / 2, "end": width}[text.anchor]
                yield text, (left, left + width, y - 0.8 * _plots.FONT_SIZE, y + 0.3 * _plots.FONT_SIZE)

    def check_places(self, picture):
        """No two names, and no name and the line of a mark, lie over each other, and all is inside."""
        boxes = list(self.boxes(picture))
        for (one, a), (two, b) in itertools.combinations(boxes, 2):
            # the numbers of an axis are narrower than they may be
            if "start" in (one.anchor, two.anchor):
                self.assertFalse(a[0] < b[1] and b[0] < a[1] and a[2] < b[3] and b[2] < a[3], (one, two))
        for text, (left, right, upper, lower) in boxes:
            self.assertTrue(0 <= left and right <= picture.width and 0 <= upper and lower <= picture.height, text)
            for line in picture.lines:
                if line.dashes and text.anchor == "start":
                    (x, begin), (_, end) = line.points
                    self.assertFalse(left < x < right and begin < lower and upper < end, (text, line))

    def test_names_lie_beside_each_other(self):
        source = random.Random(5)
        every = [minorder.sizes(it) for it in (PRODUCTS, HIDDEN, ADDER)] + [minorder.sizes(ADDER, most=60), minorder.sizes(0, 2)]
        for number in range(60):
            found = source.choice(every)
            marks = {source.choice("imWé漢 ") * source.randint(1, 9) + str(at): source.randint(0, min(130, found.bound or 130))
                     for at in range(source.randint(0, 12))}
            self.check_places(_curves.picture_of([("", found.marked(**marks))]))
        self.check_places(_curves.picture_of([("a file.pla", every[0].marked(x=6)), ("b.pla", every[1].marked(y=50))]))

    def test_marks_stand_on_the_curve(self):
        found = minorder.sizes(HIDDEN).marked(file=range(8))
        picture = _curves.picture_of([("", found)])
        points = set(next(line for line in picture.lines if line.width == 2).points)
        named = {dot.said.partition(":")[0]: dot.place for dot in picture.dots}
        self.assertEqual(set(named), {"optimum", "mean", "file"})
        self.assertIn(named["optimum"], points)
        self.assertIn(named["file"], points)
        self.assertEqual([dot.said for dot in picture.dots], [
            "optimum: 44 nodes; 0 of 40,320 orders have fewer", "mean: 56.93 nodes; 15,984 of 40,320 orders have fewer",
            "file: 55 nodes; 8,928 of 40,320 orders have fewer"])

    def test_it_is_xml(self):
        text = minorder.sizes(HIDDEN).marked(**{"<&>\x00$": 50})._repr_svg_()
        texts = {it.text for it in ElementTree.fromstring(text).iter("{http://www.w3.org/2000/svg}text")}
        names = {"nodes", "orders with at most so many nodes, %", "optimum: 44", "mean: 56.93", "<&>?$: 50", "40,320 orders"}
        self.assertEqual(names - texts, set())

    def test_steps_of_an_axis_are_round(self):
        for low, high in ((0, 100), (44, 64), (Fraction(1, 3), 7), (0, Fraction(1, 10 ** 12)), (0, 1 << 20), (99, 101)):
            ticks = _curves.Scale(Fraction(low), Fraction(high), 0, 1).ticks(0)
            steps = {b - a for a, b in zip(ticks, ticks[1:])}
            self.assertEqual(len(steps), 1)
            self.assertIn(str(float(f"{float(steps.pop()):.10g}")).lstrip("0.")[:1], {"1", "2", "5"})
            self.assertTrue(3 <= len(ticks) <= 9, ticks)


if __name__ == "__main__":
    unittest.main()
