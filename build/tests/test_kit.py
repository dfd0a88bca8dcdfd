"""Tests of builds with the kit, on two libraries and a program. They take some two minutes."""
import os
import pathlib
import secrets
import shutil
import subprocess
import tempfile
import unittest

from repository import lay_out

# rt takes what checks kept of crates with the same name in other folders of this machine
OWN = secrets.token_hex(8)
LOW, MID, PROGRAM = f"low_{OWN}", f"mid_{OWN}", f"program_{OWN}"
LIBRARY = """#![tactic(auto)]

ghost use Rattle.std.specs.Prelude.{◌+◌, ◌≡◌};

"""
LOW_TEXT = LIBRARY + """pub fn double(x: u16) -> u32
    ensures { result ≡ x + x }
{
    x as u32 + x as u32
}
"""
MID_TEXT = LIBRARY + """pub fn double_and_one(x: u16) -> u32
    ensures { result ≡ x + x + 1 }
{
    LOW::double(x) + 1
}
""".replace("LOW", LOW)
PROGRAM_TEXT = """#![tactic(auto)]

use std::io;

fn main(rt: HostRuntime) -> io::Result<()> {
    let found = MID::double_and_one(20);
    prove!(found == 41);
    println!(rt; "{found}")?;
    Ok(())
}
""".replace("MID", MID)


@unittest.skipUnless(shutil.which("rt"), "builds with the kit, for want of rt")
class Builds(unittest.TestCase):
    def setUp(self):
        self.top = pathlib.Path(tempfile.mkdtemp())
        self.addCleanup(shutil.rmtree, self.top)
        lay_out(self.top, {LOW: "", MID: LOW, PROGRAM: MID}, {LOW: LOW_TEXT, MID: MID_TEXT, PROGRAM: PROGRAM_TEXT})
        self.low = self.top / "crates" / LOW / "src/lib.rt"

    def called(self, *words, folder="."):
        return subprocess.run(words, cwd=self.top / folder, env={**os.environ, "MINORDER_PREVIEW": "no"},
                              stdin=subprocess.DEVNULL, capture_output=True, text=True)

    def assert_prints(self, number):
        """That the program is built for this number in place of the one before, and prints it."""
        main = self.top / "crates" / PROGRAM / "src/main.rt"
        main.write_text(PROGRAM_TEXT.replace("(20)", f"({(number - 1) // 2})").replace("== 41", f"== {number}"))
        ran = self.called(f"./{PROGRAM}")
        self.assertEqual((ran.stdout, ran.returncode), (f"{number}\n", 0), ran.stderr)

    def check_mid(self):
        ran = self.called("rt", "check", folder=f"crates/{MID}")
        self.assertEqual(ran.returncode, 0, ran.stdout)

    def test_what_is_right_is_built_and_nothing_else(self):
        with self.subTest("a wrong body"):
            self.low.write_text(LOW_TEXT.replace("u32 + x", "u32 - x"))
            ran = self.called(f"./{PROGRAM}")
            self.assertIn(f"{LOW} is not proved", ran.stderr)
            self.assertEqual((ran.stdout, ran.returncode), ("", 1))
            self.assertFalse(list(self.top.glob(f"crates/*/out/{PROGRAM}*")))
        with self.subTest("a right one"):
            self.low.write_text(LOW_TEXT)
            self.assert_prints(41)
        with self.subTest("an edit that is taken back, with a check above each time"):
            self.low.write_text(LOW_TEXT + "// a comment\n")
            self.check_mid()
            self.low.write_text(LOW_TEXT)
            self.check_mid()
            self.assert_prints(43)
        with self.subTest("a library that is removed and built by hand"):
            shutil.rmtree(self.low.parents[1] / "out")
            self.assertEqual(self.called("rt", "lib", folder=f"crates/{LOW}").returncode, 0)
            self.assert_prints(45)
        with self.subTest("a program of other sources, by rt"):
            main = self.top / "crates" / PROGRAM / "src/main.rt"
            right = main.read_text()
            main.write_text(PROGRAM_TEXT)
            self.assertEqual(self.called("rt", "run", folder=f"crates/{PROGRAM}").returncode, 0)
            main.write_text(right)
            ran = self.called(f"./{PROGRAM}")
            self.assertEqual((ran.stdout, ran.returncode), ("45\n", 0), ran.stderr)
