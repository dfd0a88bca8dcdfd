"""What house.py counts, on small texts."""
import contextlib
import io
import unittest

import house

FUNCTION = """
pub fn widths(&self, order: &[Vec<u8>], (a, b): (u8, u8), f: fn(u8, u8) -> u8) -> Option<u8>
    requires order.len() < 16,
        self.is_lawful(),
    ensures result == None,
{
    None
}
"""


def rows(crate: str, text: str) -> list[house.Row]:
    return [(crate, f"{crate}:{number}", line) for number, line in enumerate(text, 1)]


class House(unittest.TestCase):
    def test_a_function(self) -> None:
        lines = FUNCTION.splitlines()
        self.assertEqual((house.parameters(lines, 1), house.contract_lines(lines, 1)), (4, 3))
        self.assertEqual(house.contract_lines(["fn one() -> u8 {", "    1", "}", *lines], 0), 0)

    def test_windows(self) -> None:
        self.assertEqual(house.windows([rows("a", "12345"), rows("b", "x12345")]), (["a:1 ~ b:2"], []))
        self.assertEqual(house.windows([rows("a", "123456"), rows("a", "y123456")]), ([], ["a:1 ~ a:2", "a:2 ~ a:3"]))
        self.assertEqual(house.windows([rows("a", "1234"), rows("b", "1234")]), ([], []))

    def test_more_than_there_may_be(self) -> None:
        with contextlib.redirect_stdout(io.StringIO()) as written:
            house.Count("files", ["a", "b"], 2).say(False)
            house.Count("files", ["a", "b"], 1).say(True)
        self.assertEqual(written.getvalue(), "files: 2 (at most 2)\nfiles: 2, MORE THAN 1\n    a\n    b\n")
