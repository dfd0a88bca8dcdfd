"""A repository of a few crates with the scripts of this one."""
import contextlib
import glob
import os
import pathlib
import shutil
import signal
import subprocess
import sys
import tempfile
import unittest

HERE = pathlib.Path(__file__).resolve().parent
TOP = HERE.parents[1]
sys.path.insert(0, str(HERE.parent))
import calls  # noqa: E402
import preview  # noqa: E402


def lay_out(top, uses, texts=None):
    """Makes it in a folder: `uses` are the lines of crates.txt, the program's last, and `texts` the crates' sources."""
    program = list(uses)[-1]
    for crate in uses:
        source = top / "crates" / crate / "src"
        source.mkdir(parents=True)
        if texts:
            (source / ("main.rt" if crate == program else "lib.rt")).write_text(texts[crate])
    (top / "crates.txt").write_text("".join(f"{crate}: {below}\n" for crate, below in uses.items()))
    (top / "HANDLES").write_text("Handles allowed: none.\n")
    (top / "build").mkdir()
    for it in (*(TOP / "build").glob("*.py"), *(TOP / "build").glob("*.sh")):
        shutil.copy(it, top / "build")
    (top / program).write_text((TOP / "minorder").read_text().replace("minorder", program))
    (top / program).chmod(0o755)


class StandIn(unittest.TestCase):
    """A repository of three crates, a folder to call it from, and a stand-in for rt."""

    def setUp(self):
        self.room = pathlib.Path(tempfile.mkdtemp())
        self.addCleanup(shutil.rmtree, self.room)
        self.top = self.room / "top"
        lay_out(self.top, {"base": "", "middle": "base", "minorder": "middle"})
        for it in ("work", "temporary"):
            (self.room / it).mkdir()
        (self.room / "work" / "a.pla").touch()

    def begin(self, *words, closed=(), through=(), **given):
        def prepare():
            # a shell's background command, as .ci/run begins these tests, ignores interrupts, and what it begins does, too
            for it in calls.SIGNALS:
                signal.signal(it, signal.SIG_DFL)
            for it in closed:
                os.close(it)

        env = {it: value for it, value in os.environ.items() if it != preview.SWITCH}
        env.update({"PATH": f"{HERE}:{os.environ['PATH']}", "TMPDIR": f"{self.room}/temporary", **given})
        return subprocess.Popen([*through, f"{self.top}/minorder", *words], cwd=self.room / "work", env=env, text=True,
                                stdin=subprocess.DEVNULL, stdout=subprocess.PIPE, stderr=subprocess.PIPE, preexec_fn=prepare)

    def assert_clean(self):
        self.assertEqual(os.listdir(self.room / "temporary"), [])
        self.assertEqual(os.listdir(self.room / "work"), ["a.pla"])
        self.assertEqual(list(self.top.glob("**/*.new")), [])
        for it in glob.glob("/proc/[0-9]*/cwd"):
            with contextlib.suppress(OSError):
                self.assertFalse(os.readlink(it).startswith(f"{self.room}/"), f"{it} runs on")
