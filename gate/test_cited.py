"""What cited.py takes for a path that a page cites, and where it looks for one."""
import contextlib
import io
import tempfile
import unittest
from pathlib import Path

import cited

PAGE = """See [the times](docs/SPEED.md), `bench/{turns,small}.py`, and `crates/NAME/specs/`; a/b is none, `made/one.pla` neither.

$ minorder-functions --force made
"""


class Cited(unittest.TestCase):
    def setUp(self) -> None:
        room = tempfile.TemporaryDirectory()
        self.addCleanup(room.cleanup)
        self.prefix = room.name
        self.documents = Path(room.name, "share/doc/minorder")
        (self.documents / "docs").mkdir(parents=True)

    def run_on(self, page: str) -> str:
        """What a run says of an installed README."""
        (self.documents / "README.md").write_text(page)
        with contextlib.redirect_stdout(io.StringIO()) as written:
            try:
                cited.main(self.prefix)
            except SystemExit as end:
                return str(end)
        return written.getvalue()

    def test_paths(self) -> None:
        self.assertEqual(cited.spread("a/{b,c}/{d,e}"), ["a/b/d", "a/b/e", "a/c/d", "a/c/e"])
        self.assertEqual(set(cited.cited_by(PAGE)), {"docs/SPEED.md", "bench/turns.py", "bench/small.py", "crates/*/specs/"})

    def test_a_list(self) -> None:
        self.assertEqual(cited.absent_folders("# none of these\nbench/\n\nman/\n"), ("bench/", "man/"))

    def test_what_is_installed_or_in_the_repository(self) -> None:
        (self.documents / "docs/SPEED.md").touch()
        self.assertEqual(self.run_on("[times](docs/SPEED.md), SPEED.md, `bench/turns.py`, `crates/minorder/out/minorder`"),
                         "4 paths that 2 installed pages cite: all are there\n")

    def test_what_is_not_there(self) -> None:
        said = self.run_on("docs/SPEED.md, `bench/none.py`, `crates/definitions/specs/Orders.antt`, ./none.sh")
        self.assertEqual(said.splitlines(), [
            "share/doc/minorder/README.md: ./none.sh is not in the repository",
            "share/doc/minorder/README.md: bench/none.py is not in the repository",
            "share/doc/minorder/README.md: crates/definitions/specs/Orders.antt is not installed",
            "share/doc/minorder/README.md: docs/SPEED.md is not installed"])

    def test_a_prefix_without_pages(self) -> None:
        with self.assertRaisesRegex(SystemExit, "no page is installed below /nowhere"):
            cited.main("/nowhere")
