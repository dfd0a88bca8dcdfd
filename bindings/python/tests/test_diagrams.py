"""Diagrams as values, in notebooks and in files: python3 -m unittest discover -s bindings/python/tests -p test_diagrams.py"""
import dataclasses
import errno
import glob
import json
import os
import pickle
import random
import shutil
import sys
import tempfile
import unittest
import unittest.mock
from dataclasses import replace
from xml.etree import ElementTree

PACKAGE = os.path.dirname(os.path.dirname(os.path.abspath(__file__)))
TOP = os.path.abspath(f"{PACKAGE}/../..")
sys.path.insert(0, PACKAGE)
import minorder  # noqa: E402
from minorder import Node, _diagrams, _drawings  # noqa: E402

WORKED = sorted({*glob.glob(f"{TOP}/examples/*.pla"), *glob.glob(f"{TOP}/crates/worked_cases/data/**/*.pla", recursive=True)})
MULTIPLEXER = minorder.read_pla(f"{TOP}/examples/mux2.pla")
HIDDEN = minorder.read_pla(f"{TOP}/examples/hwb8.pla")


def best(tables):
    return minorder.diagram(tables, minorder.exact(tables))


class Stand:
    """Stands in for a package of diagrams: a function is the set of its points that are 1, each a set of names."""
    false, true = frozenset(), frozenset({"every point"})
    names = ()

    def points(self):
        return [frozenset(name for i, name in enumerate(self.names) if p >> i & 1) for p in range(1 << len(self.names))]

    def var(self, name):
        return frozenset(point for point in self.points() if name in point)

    def ite(self, test, high, low):
        high, low = (frozenset(self.points()) if it == self.true else it for it in (high, low))
        return (test & high) | (low - test)


class Values(unittest.TestCase):
    def test_the_multiplexer(self):
        found = best(MULTIPLEXER)
        self.assertEqual((found.order, found.levels, len(found)), ((2, 0, 1), (1, 1, 1), 3))
        self.assertEqual(found.nodes, (Node(1, 0, 1), Node(0, 0, 1), Node(2, 3, 2)))
        self.assertEqual((found.roots, found.inputs, found.outputs), ((4,), ("a", "b", "s"), MULTIPLEXER.outputs))
        self.assertEqual([found.evaluate(point) for point in range(8)], [(point in (1, 3, 6, 7),) for point in range(8)])
        self.assertEqual(repr(found), "<Diagram of 3 nodes, order=(2, 0, 1), levels=(1, 1, 1)>")

    def test_it_is_an_immutable_value(self):
        found = best(MULTIPLEXER)
        with self.assertRaises(dataclasses.FrozenInstanceError):
            found.order = (0, 1, 2)
        self.assertEqual({found, best(MULTIPLEXER), pickle.loads(pickle.dumps(found))}, {found})
        self.assertNotEqual(found, minorder.diagram(MULTIPLEXER, range(3)))
        of_lists = minorder.Diagram([2, 0, 1], [[1, 0, 1], (0, 0, 1), Node(2, 3, 2)], [4], ["a", "b", "s"], list(found.outputs))
        self.assertEqual(({found, of_lists}, of_lists.nodes[0].high), ({found}, 1))

    def test_names_that_no_file_gives(self):
        found = minorder.diagram([0b0110, 0], [1, 0])
        self.assertEqual((found.inputs, found.outputs), (("x0", "x1"), ("f0", "f1")))
        self.assertEqual((found.roots[1], len(minorder.diagram(0, [0]))), (0, 0))

    def test_names_that_tables_or_functions_have(self):
        a, b, s = minorder.variables("a b s")
        for tables in (s & b | ~s & a, [0b11001010, a], lambda a, b, s: b if s else a, [lambda a, b, s: a, lambda a, b, s: b]):
            self.assertEqual(minorder.diagram(tables, range(3)).inputs, ("a", "b", "s"))
        # parameters that differ name nothing, and tables come first
        self.assertEqual(minorder.diagram([lambda a, b: a, lambda x, y: x], range(2)).inputs, ("x0", "x1"))
        self.assertEqual(minorder.diagram([lambda x, y, z: x, a], range(3)).inputs, ("a", "b", "s"))
        self.assertEqual(minorder.diagram([lambda a, b: a, lambda *x: x[0]], range(2)).inputs, ("a", "b"))
        for tables in ([a, lambda s, b, a: a], [lambda a, b, s: a, lambda b, a, s: a], [lambda x, y, a: x, a]):
            with self.assertRaisesRegex(minorder.BadShape, "^tables: a function of .* beside one of a, b, s$"):
                minorder.exact(tables)
        found = minorder.diagram(s & b | ~s & a, range(3))
        self.assertEqual([table.names for table in found.tables()], [("a", "b", "s")])
        self.assertIn('[label="s"]', found.to_dot())

    def test_worked_files_there_and_back(self):
        self.assertGreater(len(WORKED), 30)
        for path in WORKED:
            file = minorder.read_pla(path)
            inputs = range(len(file.inputs))
            for order in (inputs, inputs[::-1], minorder.exact(file).order):
                found = minorder.diagram(file, order)
                self.assertEqual(found.tables(), file.tables, path)
                self.assertEqual(found.levels, minorder.levels(file, order), path)
                self.judge(found)

    def test_random_functions_there_and_back(self):
        draw = random.Random(1)
        for inputs in (1, 2, 3, 5, 6, 7, 10, 16):
            tables = [draw.getrandbits(1 << inputs) for _ in range(draw.randint(1, 16))]
            order = draw.sample(range(inputs), inputs)
            found = minorder.diagram(tables, order)
            self.judge(found)
            self.assertEqual(list(map(int, found.tables())), tables)
            for point in (0, (1 << inputs) - 1, draw.randrange(1 << inputs)):
                self.assertEqual(found.evaluate(point), tuple(bool(table >> point & 1) for table in tables))

    def judge(self, found):
        """That it is ordered and reduced, from below, and has no node that no root reaches."""
        level = {variable: place for place, variable in enumerate(found.order)}
        self.assertEqual(len(set(found.nodes)), len(found))
        places = [level[node.variable] for node in found.nodes]
        self.assertEqual(places, sorted(places, reverse=True))
        for number, (variable, low, high) in enumerate(found.nodes, 2):
            self.assertNotEqual(low, high)
            for child in (low, high):
                self.assertTrue(child < 2 or child < number and level[found.nodes[child - 2].variable] > level[variable])
        met = {*found.roots, *(child for node in found.nodes for child in node[1:])} - {0, 1}
        self.assertEqual(met, set(range(2, len(found) + 2)))

    def test_refusals_name_the_argument(self):
        found = best(MULTIPLEXER)
        for refused, error, text in (
                (lambda: minorder.diagram(6, [0, 0]), minorder.BadOrder, "order: (0, 0)"),
                (lambda: minorder.diagram(6, range(17)), minorder.BadShape, "order: 17 variables"),
                (lambda: minorder.diagram(6, "01"), minorder.BadArgument, "order: '01'"),
                (lambda: minorder.diagram(99, [0, 1]), minorder.BadShape, "tables: "),
                (lambda: minorder.diagram(MULTIPLEXER, [0, 1]), minorder.BadOrder, "order: (0, 1): the tables have 3 variables"),
                (lambda: minorder.diagram(MULTIPLEXER, [0, 0, 5, 1]), minorder.BadOrder,
                 "order: (0, 0, 5, 1): the tables have 3 variables, and an order has each of 0 to 2 once"),
                (lambda: found.evaluate(8), minorder.BadShape, "point: 8: the points of 3 variables are 0 to 7"),
                (lambda: found.evaluate((0, 1, 1)), minorder.BadArgument, "point: (0, 1, 1)"),
                (lambda: found.save(7), minorder.BadArgument, "path: 7"),
                (lambda: found.save(unittest.mock.Mock(__fspath__=lambda _: b"it.json")), minorder.BadArgument, "path: "),
                (lambda: replace(found, order=(2, 0, 0)), minorder.BadOrder, "order: (2, 0, 0)"),
                (lambda: replace(found, order={0, 1, 2}), minorder.BadArgument, "order: {0, 1, 2} is no sequence"),
                (lambda: replace(found, inputs="abs"), minorder.BadArgument, "inputs: 'abs' is no sequence of names"),
                (lambda: replace(found, inputs=["a", "b", 3]), minorder.BadArgument, "inputs: 3 is no name"),
                (lambda: replace(found, outputs=["f", "g"]), minorder.BadShape, "outputs: 2 names where there are 1"),
                (lambda: replace(found, nodes=3), minorder.BadArgument, "nodes: 3 is no sequence of nodes"),
                (lambda: replace(found, nodes=[(0, 1)]), minorder.BadShape, "nodes: (0, 1) is no node"),
                (lambda: replace(found, nodes=[Node("a", 0, 1)]), minorder.BadArgument, "nodes: 'a' is no whole number"),
                (lambda: replace(found, nodes=[Node(0, 0, 2)]), minorder.BadShape, "nodes: Node(variable=0, low=0, high=2)"),
                (lambda: replace(found, roots=[5]), minorder.BadShape, "roots: 5: there are 3 nodes and the terminals")):
            with self.assertRaises(error) as raised:
                refused()
            self.assertTrue(str(raised.exception).startswith(text), raised.exception)

    def test_a_fold_loads_it_into_a_package(self):
        with open(f"{TOP}/bindings/python/README.md", encoding="utf-8") as file:
            line = next(line for line in file if "fold(" in line and "bdd.ite" in line)
        for name in ("mux2", "bcd7seg", "adder4"):
            file = minorder.read_pla(f"{TOP}/examples/{name}.pla")
            bdd, names, best_one = Stand(), file.inputs, best(file)
            bdd.names = names
            known = {"bdd": bdd, "names": names, "best": best_one}
            exec(line, known)
            points = bdd.points()
            tables = [sum(1 << p for p, point in enumerate(points) if point in f) for f in known["functions"]]
            self.assertEqual(tables, list(map(int, file.tables)))


class Files(unittest.TestCase):
    def setUp(self):
        made = tempfile.TemporaryDirectory()
        self.addCleanup(made.cleanup)
        self.folder = made.name

    def refused(self, diagram, name, error):
        """The text of a refusal, which leaves the folder as it was."""
        before = sorted(os.listdir(self.folder))
        with self.assertRaises(error) as raised:
            diagram.save(f"{self.folder}/{name}")
        self.assertEqual(sorted(os.listdir(self.folder)), before)
        self.assertNotIn("\n", str(raised.exception))
        return str(raised.exception)

    def content(self, diagram, name):
        diagram.save(f"{self.folder}/{name}")
        with open(f"{self.folder}/{name}", "rb") as file:
            return file.read()

    def test_texts(self):
        found = best(MULTIPLEXER)
        self.assertEqual(self.content(found, "it.json").decode(), found.to_json())
        said = {"inputs": ["a", "b", "s"], "outputs": list(found.outputs), "order": [2, 0, 1], "levels": [1, 1, 1],
                "nodes": [[1, 0, 1], [0, 0, 1], [2, 3, 2]], "roots": [4]}
        self.assertEqual(json.loads(found.to_json()), said)
        self.assertEqual(self.content(found, "it.dot").decode(), found.to_dot())
        self.assertEqual(self.content(found, "IT.BDD"), b"3 3\n1 2 0\n2 1 0 1\n3 0 0 1\n4 2 3 2\n")
        # of each function in turn, constants as BuDDy has them
        two = minorder.diagram([1, 0b10, 0b11], [0])
        self.assertEqual(self.content(two, "two.bdd").decode(), "1 1\n0\n{} 0 1 0\n1 1\n0\n{} 0 0 1\n0 0 1\n".format(*two.roots))

    def test_names_are_shown_as_they_are(self):
        names = ('a"b', "c\\n", "d&amp;", "<e>")
        pla = minorder.Pla((minorder.TruthTable(0x6996, 4),), names, ('f"',))
        found = minorder.diagram(pla, range(4))
        self.assertIn('[label="a\\"b"', found.to_dot())
        if shutil.which("dot"):
            texts = [it.text for it in ElementTree.fromstring(found._repr_svg_()).iter("{http://www.w3.org/2000/svg}text")]
            self.assertEqual({*names, 'f"', "0", "1", "7 nodes"}, set(texts))
            odd = replace(found, inputs=("\0", "\x7f", "\uffff", "\x9f"), outputs=("\x1b",))
            self.assertIn("<title>Decision diagram of ?</title>", odd._repr_svg_())
            ElementTree.fromstring(odd._repr_svg_())

    @unittest.skipUnless(shutil.which("dot"), "no dot here")
    def test_pictures(self):
        found = best(HIDDEN)
        for suffix, head in ((".svg", b"<?xml"), (".png", b"\x89PNG"), (".pdf", b"%PDF")):
            self.assertTrue(self.content(found, f"it{suffix}").startswith(head))
        self.assertEqual(found._repr_svg_().encode(), self.content(found, "it.svg"))
        drawing = ElementTree.fromstring(found._repr_svg_())
        kinds = [it.get("class") for it in drawing.iter() if it.get("class") in ("node", "edge")]
        # 44 nodes with two edges each and the root's; two constants, a name for each level and the root, two ends of the column
        self.assertEqual((kinds.count("node"), len(list(drawing.iter("{http://www.w3.org/2000/svg}ellipse")))), (44 + 13, 44))
        self.assertEqual(drawing.find("{http://www.w3.org/2000/svg}title").text, "Decision diagram of hwb")

    def test_refusals_leave_no_file(self):
        found = best(MULTIPLEXER)
        alone = "a diagram's file has a name in front of its suffix"
        self.assertEqual(self.refused(found, ".svg", minorder.BadPath), f"{self.folder}/.svg: {alone}")
        ends = "the name of a diagram's file ends in .bdd, .json, .dot, .pdf, .png or .svg"
        for name in ("it.gif", "it", ".gif"):
            self.assertEqual(self.refused(found, name, minorder.BadPath), f"{self.folder}/{name}: {ends}")
        self.assertIn("no/it.json", self.refused(found, "no/it.json", OSError))
        with unittest.mock.patch.dict(os.environ, PATH=self.folder):
            self.assertIn("apt-get install graphviz", self.refused(found, "it.svg", minorder.NoGraphviz))
        large = minorder.diagram(random.Random(1).getrandbits(1 << 14), range(14))
        self.assertIn(f"the diagram has {len(large)} nodes", self.refused(large, "it.svg", minorder.BadPath))
        self.content(large, "it.dot")
        # what is drawn side by side is counted together
        middle = minorder.diagram(random.Random(1).getrandbits(1 << 13), range(13))
        self.assertTrue(_drawings.MOST < 2 * len(middle) < 2 * _drawings.MOST)
        with self.assertRaisesRegex(minorder.BadPath, f"it.svg: the diagrams have {2 * len(middle)} nodes, and"):
            _diagrams.write_diagrams("it.svg", [("", middle), ("", middle)], "two")

    def test_a_dot_that_fails(self):
        found, dot = best(MULTIPLEXER), f"{self.folder}/dot"
        open(dot, "w").close()
        with unittest.mock.patch.dict(os.environ, PATH=self.folder):
            self.assertIn("dot isn't here", self.refused(found, "it.svg", minorder.NoGraphviz))
        os.chmod(dot, 0o755)
        for lines, said in (
                ("echo >&2; echo it fails >&2; echo twice >&2; exit 1", "it fails"),
                ("echo Warning: it >&2; echo Error: it fails >&2; exit 1", "Error: it fails"),
                ("exit 3", "status 3"), ("exit 0", "it writes nothing")):
            with open(dot, "w") as file:
                file.write(f"#!/bin/sh\n{lines}\n")
            with unittest.mock.patch.dict(os.environ, PATH=f"{self.folder}:{os.environ['PATH']}"):
                self.assertEqual(self.refused(found, "it.png", minorder.NoGraphviz), f"Graphviz's dot makes no picture: {said}")

    def test_a_temporary_file_that_is_not_made(self):
        found = best(MULTIPLEXER)
        with unittest.mock.patch("tempfile.tempdir", "/there/is/none"):
            said = self.refused(found, "it.svg", OSError)
            self.assertIn("No such file or directory: 'a temporary file in /there/is/none'", said)
            # a notebook then shows bars
            self.assertIsNone(found._repr_svg_())
        none = FileNotFoundError(errno.ENOENT, "No usable temporary directory found in ['/tmp']")
        with unittest.mock.patch("tempfile.gettempdir", side_effect=none):
            self.assertIn("['/tmp']: 'a temporary file'", self.refused(found, "it.svg", OSError))


class Notebooks(unittest.TestCase):
    def shown(self, it):
        """Which of the two forms a notebook shows."""
        svg, html = it._repr_svg_(), it._repr_html_()
        return [name for name, text in (("svg", svg), ("html", html)) if text is not None]

    def test_a_picture_or_bars(self):
        found = best(HIDDEN)
        if shutil.which("dot"):
            self.assertEqual(self.shown(found), ["svg"])
        with unittest.mock.patch.dict(os.environ, PATH="/there/is/none"):
            found = best(HIDDEN)
            self.assertEqual(self.shown(found), ["html"])
            rows = ElementTree.fromstring(found._repr_html_()).findall("tr")
            self.assertEqual([row.find("th").text for row in rows], "x1 x7 x8 x2 x6 x3 x4 x5".split())
            self.assertEqual([int(row.findall("td")[1].text) for row in rows], list(found.levels))
            self.assertIn(">1 node<", minorder.diagram(2, [0])._repr_html_())
            odd = replace(found, inputs=["\0", *found.inputs[1:]])
            self.assertEqual(ElementTree.fromstring(odd._repr_html_()).find("tr/th").text, "?")
        large = minorder.diagram(minorder.read_pla(f"{TOP}/examples/products8.pla"), range(16))
        self.assertEqual((len(large), self.shown(large)), (510, ["html"]))
        self.assertEqual(self.shown(minorder.diagram(0, [0])), ["svg"] if shutil.which("dot") else ["html"])

    def test_a_result_shows_its_own_diagram(self):
        found = minorder.exact(HIDDEN)
        self.assertEqual(found._repr_svg_(), best(HIDDEN)._repr_svg_())
        self.assertEqual(found._repr_html_(), best(HIDDEN)._repr_html_())
        self.assertEqual(self.shown(minorder.sift(6, [0, 1])), self.shown(minorder.diagram(6, [0, 1])))
        self.assertEqual(self.shown(pickle.loads(pickle.dumps(found))), self.shown(found))
        named = minorder.exact(lambda first, second: first and second)._repr_svg_() or ""
        self.assertEqual([name in named for name in ("first", "second", "x0")], [bool(named)] * 2 + [False])
        self.assertEqual(found, minorder.Result(*found))
        self.assertEqual(repr(minorder.exact(6, 2)), "Result(order=(0, 1), levels=(1, 2), total=3)")
        for unknown in (minorder.Result(*found), found._replace(total=1), *minorder.exact_many([6], 2)):
            self.assertEqual(self.shown(unknown), [])


if __name__ == "__main__":
    unittest.main()
