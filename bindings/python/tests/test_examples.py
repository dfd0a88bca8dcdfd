"""What the page and the docstrings show is what is printed.

    python3 -m unittest discover -s bindings/python/tests -p test_examples.py
"""
import doctest
import os
import pydoc
import sys
import tempfile
import unittest

PACKAGE = os.path.dirname(os.path.dirname(os.path.abspath(__file__)))
TOP = os.path.abspath(f"{PACKAGE}/../..")
sys.path.insert(0, PACKAGE)
import minorder  # noqa: E402
from minorder import _all_orders, _calls, _diagrams, _many, _sizes, _tables, _truth_tables, batch, files  # noqa: E402

MODULES = minorder, _all_orders, _calls, _diagrams, _many, _sizes, _tables, _truth_tables, batch, files
SECTIONS = "Functions and answers", "Diagrams", "How many nodes all orders have", "Many functions at once"


class Examples(unittest.TestCase):
    def setUp(self):
        folder = tempfile.TemporaryDirectory()
        self.addCleanup(folder.cleanup)
        os.symlink(f"{TOP}/examples", f"{folder.name}/examples")
        self.addCleanup(os.chdir, os.getcwd())
        os.chdir(folder.name)

    def test_docstrings(self):
        finder = doctest.DocTestFinder(exclude_empty=True)
        tests = [test for module in MODULES for test in finder.find(module, globs={"minorder": minorder}) if test.examples]
        names = {test.name.rpartition(".")[2] for test in tests}
        calls = {"minorder", "exact", "levels", "sift", "diagram", "variables", "ite", "from_values", "from_hexadecimal"}
        calls |= {"orders", "sizes", "marked", "widths"}
        self.assertEqual(calls - names, set())
        for test in tests:
            self.assertEqual(doctest.DocTestRunner().run(test).failed, 0, test.name)

    def test_the_page(self):
        with open(f"{PACKAGE}/README.md", encoding="utf-8") as file:
            page = file.read()
        for title in SECTIONS:
            section = page.partition(f"\n## {title}\n")[2].partition("\n## ")[0]
            blocks = [block[len("python\n"):] for block in section.split("```")[1::2] if block.startswith("python\n>>>")]
            test = doctest.DocTestParser().get_doctest("".join(blocks), {"minorder": minorder}, title, None, 0)
            self.assertGreater(len(test.examples), 0)
            self.assertEqual(doctest.DocTestRunner().run(test).failed, 0, title)


class Help(unittest.TestCase):
    def test_it_begins_with_the_functions(self):
        text = pydoc.plain(pydoc.render_doc(minorder)).partition("DESCRIPTION\n")[2]
        first = [line.split("(")[0].strip() for line in text.splitlines()[:20]]
        functions = {name for name in minorder.__all__ if name.islower()}
        self.assertEqual(functions - {*first}, set())
        self.assertNotIn("builtins.int(builtins.object)", text)


if __name__ == "__main__":
    unittest.main()
