"""Libraries that the package refuses, its own version, and a library that is refused memory.

    python3 -m unittest discover -s bindings/python/tests -p test_library.py
"""
import os
import shutil
import subprocess
import sys
import tempfile
import unittest

PACKAGE = os.path.dirname(os.path.dirname(os.path.abspath(__file__)))
TOP = os.path.abspath(f"{PACKAGE}/../..")
sys.path.insert(0, PACKAGE)
import minorder  # noqa: E402
from minorder import _library  # noqa: E402

REFUSED = "try:\n    minorder.exact(1, 3)\nexcept minorder.NoLibrary as error:\n    print(error)\n"


def elsewhere(script, **environment):
    """What another interpreter prints."""
    words = [sys.executable, "-c", f"import sys; sys.path.insert(0, {PACKAGE!r})\nimport minorder\n" + script]
    return subprocess.run(words, env={**os.environ, **environment}, stdout=subprocess.PIPE, text=True, check=True).stdout


class Libraries(unittest.TestCase):
    def test_no_library(self):
        self.assertIn("MINORDER_LIBRARY", elsewhere(REFUSED, MINORDER_LIBRARY="/there/is/none.so"))
        self.assertIn("is no libminorder", elsewhere(REFUSED, MINORDER_LIBRARY="libc.so.6"))

    def of_version(self, number):
        """What is said of a library that has this version and no more, by its path and by its name."""
        with tempfile.TemporaryDirectory() as folder:
            path, text = f"{folder}/{_library.NAME}", f"unsigned minorder_version(void) {{ return {number}; }}\n"
            subprocess.run(["cc", "-shared", "-fPIC", "-x", "c", "-", "-o", path], input=text, text=True, check=True)
            said = [elsewhere(REFUSED, **places) for places in (
                {"MINORDER_LIBRARY": path}, {"MINORDER_LIBRARY": _library.NAME, "LD_LIBRARY_PATH": folder})]
            return path, said

    @unittest.skipUnless(shutil.which("cc"), "no cc here")
    def test_other_versions(self):
        for number, version in ((20000, "2.0.0"), (900, "0.9.0"), (0, "0.0.0")):
            path, said = self.of_version(number)
            for text in said:
                self.assertIn(f"{path} is of version {version}, and this package needs version 1.0.0 or a later one", text)

    @unittest.skipUnless(shutil.which("cc"), "no cc here")
    def test_a_later_version_is_called(self):
        path, said = self.of_version(12345)
        for text in said:
            self.assertIn(f"{path} is no libminorder.so.1 that this package can call", text)
            self.assertIn("minorder_exact", text)

    def test_memory(self):
        script = (
            "import resource, random\n"
            "tables = [random.getrandbits(1 << 16) for _ in range(16)]\n"
            "minorder.exact(1, 3)\n"
            "held = int(open('/proc/self/statm').read().split()[0]) * resource.getpagesize()\n"
            "resource.setrlimit(resource.RLIMIT_AS, (held + (1 << 20),) * 2)\n"
            "try:\n    minorder.exact(tables, 16)\nexcept MemoryError as error:\n    print(error)\n")
        self.assertEqual(elsewhere(script), "the library was refused memory\n")


class Package(unittest.TestCase):
    def test_version(self):
        with open(f"{TOP}/VERSION") as file:
            version = file.read().strip()
        self.assertEqual(version, minorder.__version__)
        numbers = tuple(map(int, version.split(".")))
        self.assertTrue((numbers[0], 0, 0) <= _library.NEEDED <= numbers)


if __name__ == "__main__":
    unittest.main()
