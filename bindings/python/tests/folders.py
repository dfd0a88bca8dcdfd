"""A folder of PLA files for a test, and runs of minorder-batch in it."""
import os
import random
import signal
import subprocess
import sys
import tempfile
import unittest

PACKAGE = os.path.dirname(os.path.dirname(os.path.abspath(__file__)))
sys.path.insert(0, PACKAGE)

from test_minorder import pla, random_tables  # noqa: E402

ENVIRONMENT = {**os.environ, "PYTHONPATH": PACKAGE, "PYTHONDONTWRITEBYTECODE": "1"}


def heed():
    """A shell's background command ignores interrupts, and what it begins would, too."""
    signal.signal(signal.SIGINT, signal.SIG_DFL)


class InFolder(unittest.TestCase):
    def setUp(self):
        made = tempfile.TemporaryDirectory()
        self.addCleanup(made.cleanup)
        self.folder = made.name

    def put(self, name, text):
        path = os.path.join(self.folder, name)
        with open(path, "wb") as file:
            file.write(text if isinstance(text, bytes) else text.encode())
        return path

    def content(self, name):
        with open(os.path.join(self.folder, name), "rb") as file:
            return file.read()

    def constants(self, *shapes):
        """Files without terms, of so many inputs and outputs."""
        return [self.put(f"{number:03}.pla", f"# comment\n.i {inputs}\n .o {outputs}\n.e\n")
                for number, (inputs, outputs) in enumerate(shapes)]

    def random_files(self, count, most):
        source = random.Random(8)
        return [self.put(f"{number:03}.pla", pla(inputs, random_tables(source, inputs, 1)))
                for number, inputs in enumerate(source.randint(1, most) for _ in range(count))]

    def process(self, *words, **streams):
        command = [sys.executable, "-m", "minorder._batch_command", *words]
        return subprocess.Popen(command, **{"cwd": self.folder, "env": ENVIRONMENT, "preexec_fn": heed, **streams})

    def ended(self, *words, **streams):
        """The status, and what was written to both streams."""
        with self.process(*words, **{"stdout": subprocess.PIPE, "stderr": subprocess.PIPE, **streams}) as process:
            written = process.communicate(timeout=120)
        return process.returncode, *written
