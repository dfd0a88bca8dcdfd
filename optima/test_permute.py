"""Tests of permute.py and functions.py as programs: python3 -m unittest discover -s optima"""
import os
import subprocess
import sys
import unittest

HERE = os.path.dirname(os.path.abspath(__file__))
FILE = """# a comment
.i 3
.o 1
.ilb a b s
.ob f
1-0 1
-1|1 1 # a term
.e
"""


def permuted(*order, file=FILE):
    ran = subprocess.run([sys.executable, f"{HERE}/permute.py", *order], input=file, capture_output=True, text=True)
    return ran.returncode, ran.stdout, ran.stderr


class Permute(unittest.TestCase):
    def test_an_order_is_followed(self):
        wanted = "# a comment\n.i 3\n.o 1\n.ilb s a b\n.ob f\n01- 1\n1-1 1\n.e\n"
        self.assertEqual(permuted("2", "0", "1"), (0, wanted, ""))
        self.assertEqual(permuted("2,0,1"), (0, wanted, ""))

    def test_what_is_no_order_is_refused(self):
        refused = [
            (("0", "0", "1"), "0 is repeated"),
            (("0", "1", "2", "2"), "2 is repeated"),
            (("1", "2", "3"), "3 is out of range: the file's inputs are 0 to 2"),
            (("0", "1", "-1"), "-1 is no input of the file"),
            (("0", "x", "1"), "x is no input of the file"),
            (("0", "1"), "2 is missing"),
            (("2",), "0, 1 are missing"),
        ]
        for order, message in refused:
            self.assertEqual(permuted(*order), (2, "", f"permute.py: {message}\n"))

    def test_a_file_that_minorder_refuses_is_refused(self):
        self.assertEqual(permuted("0", file=".o 1\n"), (2, "", "permute.py: the file: line 1: MissingHead\n"))


class Functions(unittest.TestCase):
    def test_a_reader_that_takes_no_more_ends_the_list(self):
        listing = f"{sys.executable} {HERE}/functions.py | head -n 1"
        found = subprocess.run(listing, shell=True, capture_output=True, text=True)
        self.assertEqual((found.stdout.split()[0], found.stderr), ("hwb4", ""))


if __name__ == "__main__":
    unittest.main()
