"""What pip builds of the package: python3 -m unittest discover -s bindings/python/tests -p test_wheels.py"""
import importlib.util
import os
import shutil
import tempfile
import unittest
import zipfile

PACKAGE = os.path.dirname(os.path.dirname(os.path.abspath(__file__)))
LIBRARY = "libminorder.so.1"


def wheel_of(package, folder, settings=None):
    """The name of the wheel of a package's folder, and its files."""
    spec = importlib.util.spec_from_file_location("wheels", f"{package}/backend/wheels.py")
    backend = importlib.util.module_from_spec(spec)
    spec.loader.exec_module(backend)
    name = backend.build_wheel(folder, settings)
    with zipfile.ZipFile(f"{folder}/{name}") as wheel:
        return name, {it: wheel.read(it) for it in wheel.namelist()}


class Wheels(unittest.TestCase):
    def setUp(self):
        made = tempfile.TemporaryDirectory()
        self.addCleanup(made.cleanup)
        self.folder = made.name

    def test_the_library_of_the_prefix_comes_along(self):
        prefix = f"{self.folder}/prefix"
        package = f"{prefix}/share/minorder/python"
        shutil.copytree(PACKAGE, package, ignore=shutil.ignore_patterns("tests", "__pycache__"))
        for name in ("optima.csv", "league.csv", "sizes.csv.gz"):
            shutil.copy(f"{PACKAGE}/../../optima/{name}", f"{package}/minorder/benchmarks")
        name, files = wheel_of(package, self.folder)
        self.assertTrue(name.endswith("-py3-none-any.whl"))
        self.assertNotIn(f"minorder/{LIBRARY}", files)
        os.mkdir(f"{prefix}/lib")
        with open(f"{prefix}/lib/{LIBRARY}", "wb") as file:
            file.write(b"a library")
        # the documents lead to the same folder
        os.makedirs(f"{prefix}/share/doc/minorder/bindings")
        os.symlink("../../../minorder/python", f"{prefix}/share/doc/minorder/bindings/python")
        for place in (package, f"{prefix}/share/doc/minorder/bindings/python"):
            name, files = wheel_of(place, self.folder)
            self.assertTrue(name.endswith("-py3-none-linux_x86_64.whl"))
            self.assertEqual(files[f"minorder/{LIBRARY}"], b"a library")
            self.assertLessEqual({"minorder/benchmarks/league.csv", "minorder/benchmarks/sizes.csv.gz"}, set(files))
        name, files = wheel_of(package, self.folder, {"platform": "manylinux_2_17_x86_64"})
        self.assertTrue(name.endswith("-py3-none-manylinux_2_17_x86_64.whl"))
        about = next(content.decode() for it, content in files.items() if it.endswith(".dist-info/WHEEL"))
        self.assertIn("\nRoot-Is-Purelib: false\nTag: py3-none-manylinux_2_17_x86_64\n", about)

    def test_of_the_repository(self):
        name, files = wheel_of(PACKAGE, self.folder)
        with open(f"{PACKAGE}/../../optima/optima.csv", "rb") as file:
            self.assertEqual(files["minorder/benchmarks/optima.csv"], file.read())
        modules = {f"minorder/{it}" for it in os.listdir(f"{PACKAGE}/minorder") if it.endswith(".py")}
        self.assertEqual(modules - set(files), set())
        scripts = {it.split("/")[-1]: content for it, content in files.items() if "/scripts/" in it}
        names = "batch", "diagram", "functions", "levels", "orders", "score"
        self.assertEqual(sorted(scripts), [f"minorder-{it}" for it in names])
        self.assertTrue(scripts["minorder-score"].startswith(b"#!python\n"))
        with zipfile.ZipFile(f"{self.folder}/{name}") as wheel:
            modes = {it.external_attr >> 16 for it in wheel.infolist() if "/scripts/" in it.filename}
        self.assertEqual(modes, {0o100755})
        self.assertIn(b"\nfrom minorder.score import main  # noqa", scripts["minorder-score"])


if __name__ == "__main__":
    unittest.main()
