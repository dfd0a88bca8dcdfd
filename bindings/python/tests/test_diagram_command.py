"""Tests of minorder-diagram: python3 -m unittest discover -s bindings/python/tests"""
import json
import os
import re
import shutil
import subprocess
import sys
import tempfile
import unittest
from xml.etree import ElementTree

PACKAGE = os.path.dirname(os.path.dirname(os.path.abspath(__file__)))
sys.path.insert(0, PACKAGE)
import minorder  # noqa: E402

EXAMPLES = os.path.abspath(f"{PACKAGE}/../../examples")
MULTIPLEXER = f"{EXAMPLES}/mux2.pla"
with open(f"{EXAMPLES}/mux2.report") as opened:
    REPORT = opened.read()
with open(f"{EXAMPLES}/products3.report") as opened:
    PRODUCTS = opened.read()
LONG = "9" * 57 + "..."
NO_REPORT = "standard input holds no report of minorder: {}; name an ORDER, or add < /dev/null for the file's own"
LINES = "it has not the lines order, names, levels, nodes, sifted order, sifted nodes, file order nodes"


class Command(unittest.TestCase):
    def setUp(self):
        made = tempfile.TemporaryDirectory()
        self.addCleanup(made.cleanup)
        self.folder = made.name

    def ran(self, *words, given=None, **environment):
        """The status, standard output and standard error; standard input is a device unless something is given."""
        command = [sys.executable, "-m", "minorder.diagram_command", *words]
        environment = {**os.environ, "PYTHONPATH": PACKAGE, "PYTHONDONTWRITEBYTECODE": "1", **environment}
        source = {"stdin": subprocess.DEVNULL} if given is None else {"input": given}
        found = subprocess.run(command, env=environment, cwd=self.folder, capture_output=True, text=True, **source)
        return found.returncode, found.stdout, found.stderr

    def order_of(self, *words, given=None):
        """The order of the diagram that is written, by names."""
        self.assertEqual(self.ran("-o", "it.json", MULTIPLEXER, *words, given=given), (0, "", ""))
        with open(f"{self.folder}/it.json") as file:
            it = json.load(file)
        return "".join(it["inputs"][x] for x in it["order"])

    def test_an_order_is_that_of_words_of_a_report_or_the_file(self):
        for words in (["2", "0", "1"], ["s,a,b"], ["s a b"], ["s,", "a,", "b"]):
            self.assertEqual(self.order_of(*words, given="no report"), "sab")
        self.assertEqual(self.order_of(given=REPORT), "sab")
        self.assertEqual(self.order_of(), "abs")

    def test_drawings(self):
        status, text, errors = self.ran(MULTIPLEXER, "s,a,b")
        self.assertEqual((status, errors), (0, ""))
        self.assertIn('label="another order: 3 nodes"', text)
        self.assertIn('label="the report\'s order: 3 nodes"', self.ran(MULTIPLEXER, given=REPORT)[1])
        both = self.ran("--both", MULTIPLEXER, given=REPORT)[1]
        self.assertLess(both.index('label="the file\'s order: 5 nodes"'), both.index('label="the report\'s order: 3 nodes"'))
        self.assertEqual(self.ran("--out", "it.dot", "--both", MULTIPLEXER, given=REPORT), (0, "", ""))
        with open(f"{self.folder}/it.dot") as file:
            self.assertEqual(file.read(), both)

    def test_the_file_order_is_called_so_and_drawn_once(self):
        own = self.ran(MULTIPLEXER)
        self.assertIn('label="the file\'s order: 5 nodes"', own[1])
        for words in (["0,1,2"], ["--both", "0", "1", "2"]):
            self.assertEqual(self.ran(MULTIPLEXER, *words), own)

    def test_names_with_commas_and_names_that_cannot_be_shown(self):
        name = "a\x01\n\udcff&<.pla"
        with open(f"{self.folder}/{name}", "w") as file:
            file.write(".i 3\n.o 1\n.ilb a,b c s,t\n111 1\n")
        for words in (["c", "a,b", "s,t"], ["c a,b s,t"]):
            status, text, errors = self.ran(name, *words)
            self.assertEqual((status, errors), (0, ""))
            self.assertTrue(text.startswith('digraph "Decision diagram of a???&amp;<.pla" {'))
            self.assertEqual(re.findall('av[0-9] .*label="(.*)"', text), ["c", "a,b", "s,t"])
        if shutil.which("dot"):
            self.assertEqual(self.ran("-o", "it.svg", name), (0, "", ""))
            title = ElementTree.parse(f"{self.folder}/it.svg").getroot().find("{http://www.w3.org/2000/svg}title")
            self.assertEqual(title.text, "Decision diagram of a???&<.pla")

    @unittest.skipUnless(shutil.which("dot"), "no dot here")
    def test_the_picture_of_the_readme(self):
        self.assertEqual(self.ran("--both", "-o", "it.svg", f"{EXAMPLES}/products3.pla", given=PRODUCTS), (0, "", ""))
        with open(f"{self.folder}/it.svg") as file:
            text = file.read()
        self.assertEqual(text.count("<ellipse"), 14 + 6)
        self.assertIn("<title>Decision diagram of products3.pla</title>", text)

    def test_texts(self):
        found = minorder.diagram(minorder.read_pla(MULTIPLEXER), (2, 0, 1))
        self.assertEqual(self.ran("-o", "it.bdd", MULTIPLEXER, "s,a,b"), (0, "", ""))
        found.save(f"{self.folder}/other.bdd")
        with open(f"{self.folder}/it.bdd") as file, open(f"{self.folder}/other.bdd") as other:
            self.assertEqual(file.read(), other.read())

    def test_refusals_are_a_line_and_leave_no_file(self):
        for name in ("hello.pla", "hello.dot"):
            with open(f"{self.folder}/{name}", "w") as file:
                file.write("hello\n")
        ends = "the name of a diagram's file ends in .bdd, .json, .dot, .pdf, .png or .svg"
        for words, given, status, message in (
                (("no.pla",), None, 5, "no.pla: No such file or directory"),
                (("hello.pla",), None, 3, "hello.pla: line 1: MissingHead"),
                ((MULTIPLEXER, "2", "0"), None, 2, "2 0: 1 is missing"),
                ((MULTIPLEXER, "s,a"), None, 2, "s a: b is missing"),
                ((MULTIPLEXER, ""), None, 2, "an order is empty"),
                ((MULTIPLEXER, "2,0,1", "0,1,2"), None, 2, "2 0 1 0 1 2: 0 is repeated"),
                ((MULTIPLEXER, "9" * 5000), None, 2, f"{LONG}: {LONG} is out of range: the file's inputs are 0 to 2"),
                (("--both", MULTIPLEXER), None, 2, "--both wants an ORDER, or a report of minorder on standard input"),
                *(((MULTIPLEXER,), text, 3, NO_REPORT.format(why)) for text, why in (
                    ("", "it is empty"), ("".join(REPORT.splitlines(True)[:4]), LINES), (REPORT + REPORT, LINES),
                    (REPORT.replace("nodes: 3", "nodes", 1), LINES),
                    (REPORT.replace("nodes: 3", "nodes: 4", 1), "levels that sum to 3, and 4 nodes"),
                    (REPORT.replace("nodes: 3", "nodes: 03", 1), "nodes: '03' is no number from 0 on"),
                    (REPORT.replace("levels: 1", "levels: " + "9" * 5000), f"levels: '{LONG[1:]} is no number from 0 on"),
                    (REPORT.replace("order: 2 0 1", "order: " + "9" * 5000, 1), f"order: '{LONG[1:]} is no number from 0 on"),
                    (REPORT.replace("order: 2 0 1", "order: 02 0 1", 1), "order: '02' is no number from 0 on"),
                    (REPORT.replace("2 0 1", "2 0 0", 1), "order 2 0 0: 0 is repeated"),
                    (REPORT.replace("sifted nodes: 3", "sifted nodes: 2"), "both 3 and 2 nodes under the order 2 0 1"))),
                *(((MULTIPLEXER,), text, 3, f"the report has the {why}") for text, why in (
                    (PRODUCTS, "number of inputs 6, and the file 3"),
                    (REPORT.replace("levels: 1 1 1", "levels: 1 2 0"), "level counts 1 2 0, and the diagram 1 1 1"),
                    (REPORT.replace("s a b", "q q q"), "names q q q, and the file s a b"),
                    (REPORT.replace("sifted order: 2 0 1", "sifted order: 1 0 2"), "sifted nodes 3, and the file 5"),
                    (REPORT.replace("file order nodes: 5", "file order nodes: 4"), "file order nodes 4, and the file 5"))),
                (("-o", "it.gif", MULTIPLEXER), None, 2, f"it.gif: {ends}"),
                (("-o", "", MULTIPLEXER), None, 2, f"'': {ends}"),
                (("-o", "no/.SVG", MULTIPLEXER), None, 2, "no/.SVG: a diagram's file has a name in front of its suffix"),
                (("-o", "hello.dot", "hello.dot"), None, 2, "hello.dot: it is one of the files that are read"),
                (("-o", "it.bdd", "--both", MULTIPLEXER), None, 2, "it.bdd: a .bdd file has one diagram, and --both draws two"),
                (("-o", "no/it.dot", MULTIPLEXER), None, 5, "no/it.dot: No such file or directory")):
            self.assertEqual(self.ran(*words, given=given), (status, "", f"minorder-diagram: {message}\n"), words)
        self.assertEqual(sorted(os.listdir(self.folder)), ["hello.dot", "hello.pla"])

    def test_a_temporary_file_that_is_not_written(self):
        limit = "import resource; resource.setrlimit(resource.RLIMIT_FSIZE, (1024, 1024)); "
        code = limit + "import sys; from minorder.diagram_command import main; sys.exit(main(sys.argv[1:]))"
        command = [sys.executable, "-c", code, "-o", "it.svg", f"{EXAMPLES}/hwb8.pla"]
        environment = {**os.environ, "PYTHONPATH": PACKAGE, "PYTHONDONTWRITEBYTECODE": "1", "TMPDIR": self.folder}
        found = subprocess.run(
            command, env=environment, cwd=self.folder, stdin=subprocess.DEVNULL, capture_output=True, text=True)
        said = f"minorder-diagram: a temporary file in {self.folder}: File too large\n"
        self.assertEqual((found.returncode, found.stdout, found.stderr), (5, "", said))
        self.assertEqual(os.listdir(self.folder), [])

    def test_without_graphviz_and_without_the_library(self):
        status, output, errors = self.ran("-o", "it.png", MULTIPLEXER, PATH=self.folder)
        self.assertEqual((status, output, errors.count("\n")), (1, "", 1))
        self.assertIn("apt-get install graphviz", errors)
        self.assertEqual(self.ran("-o", "it.dot", MULTIPLEXER, PATH=self.folder), (0, "", ""))
        status, output, errors = self.ran(MULTIPLEXER, MINORDER_LIBRARY="/there/is/none.so")
        self.assertEqual((status, output, errors.count("\n")), (1, "", 1))
        self.assertIn("MINORDER_LIBRARY", errors)
        self.assertEqual((self.ran()[0], self.ran("--help")[0]), (2, 0))


if __name__ == "__main__":
    unittest.main()
