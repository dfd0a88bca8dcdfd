"""Many functions and many files at once: beside calls one by one, with faults among them, by threads and by executors.

    python3 -m unittest discover -s bindings/python/tests -p test_many.py
"""
import array
import concurrent.futures
import contextlib
import io
import json
import os
import pathlib
import random
import signal
import subprocess
import sys
import tempfile
import threading
import time
import unittest

HERE = os.path.dirname(os.path.abspath(__file__))
TOP = os.path.dirname(os.path.dirname(os.path.dirname(HERE)))
sys.path[:0] = [os.path.dirname(HERE), HERE]
# workers that are other processes find the package, too
os.environ["PYTHONPATH"] = os.pathsep.join([os.path.dirname(HERE), *filter(None, [os.environ.get("PYTHONPATH")])])

import minorder  # noqa: E402
from minorder import _batch_command, _many, _threads, batch  # noqa: E402
from minorder.files import parts_of  # noqa: E402
from test_minorder import PROGRAM, load_tests, pla, random_tables  # noqa: E402, F401


class Dying(concurrent.futures.Executor):
    """An executor whose worker dies with the third task, and with what it has left."""

    def __init__(self):
        self.given = 0

    def submit(self, fn, /, *args, **kwargs):
        self.given += 1
        if self.given > 5:
            raise concurrent.futures.BrokenExecutor("no worker")
        future = concurrent.futures.Future()
        if self.given < 3:
            future.set_result(fn(*args, **kwargs))
        elif self.given == 3:
            future.set_exception(concurrent.futures.BrokenExecutor("the worker died"))
        else:
            future.cancel()
        return future


@contextlib.contextmanager
def dask():
    """An executor of Dask's, with two processes on this machine, a way to kill one, and its address; None where Dask isn't
    there."""
    try:
        from distributed import Client, LocalCluster
    except ImportError:
        yield None
        return
    with LocalCluster(n_workers=2, threads_per_worker=1, host="127.0.0.1", dashboard_address=None, silence_logs=50) as cluster:
        with Client(cluster) as client:
            yield (
                client.get_executor(), lambda: os.kill(next(iter(client.run(os.getpid).values())), signal.SIGKILL),
                cluster.scheduler_address)


class Functions(unittest.TestCase):
    def setUp(self):
        source = random.Random(5)
        self.cases = [(inputs, outputs, [
            random_tables(source, inputs, outputs) if outputs > 1 else source.getrandbits(1 << inputs) for _ in range(count)])
            for inputs, outputs, count in ((1, 1, 9), (3, 1, 300), (5, 3, 40), (6, 1, 100), (7, 2, 30), (10, 1, 12))]

    def test_beside_calls_one_by_one(self):
        for inputs, outputs, functions in self.cases:
            wanted = [minorder.exact(it, inputs) for it in functions]
            for workers in (None, 1, 3):
                self.assertEqual(minorder.exact_many(functions, inputs, workers=workers), wanted)
            if outputs > 1:
                self.assertEqual(minorder.exact_many(iter(functions)), wanted)
        self.assertEqual(minorder.exact_many([]), [])
        mixed = [0b0110, b"\x08", minorder.TruthTable(6, 2), lambda a, b: a and b, [7]]
        self.assertEqual([it.total for it in minorder.exact_many(mixed, 2)], [3, 2, 3, 2, 2])
        self.assertEqual(minorder.exact_many(array.array("Q", [6, 8]), 2), minorder.exact_many([6, 8], 2))

    def test_names(self):
        a, b = minorder.variables("a b")
        both = [a & b, [a], 8, minorder.TruthTable(6, 2), lambda c, d: c and not d, lambda *them: 1]
        for workers in (1, 3):
            found = minorder.exact_many(both, workers=workers)
            self.assertEqual([it.names for it in found], [minorder.exact(it, 2).names for it in both])
            self.assertEqual([sorted(it.names) for it in found], [
                ["a", "b"], ["a", "b"], ["x0", "x1"], ["x0", "x1"], ["c", "d"], ["x0", "x1"]])
            self.assertTrue(all(it._repr_html_() is None for it in found))
        with self.assertRaisesRegex(minorder.BadShape, "^tables: function 1: "):
            minorder.exact_many([[a, b], [a, minorder.variables("c d")[0]]])

    def test_what_is_refused(self):
        for functions in (6, "6", b"6", {6}, {6: 1}, None, lambda a: a, minorder.read_pla(f"{TOP}/examples/mux2.pla")):
            self.assertRaises(minorder.BadArgument, minorder.exact_many, functions, 2)
        shapes = 16, -1, [1, 2], lambda a, b: ~a, minorder.TruthTable(1, 3)
        for error, functions in ((minorder.BadShape, shapes), (minorder.BadArgument, (None, True))):
            for wrong in functions:
                with self.assertRaises(error) as caught:
                    minorder.exact_many([*range(16), wrong, 17], 2)
                self.assertTrue(str(caught.exception).startswith("tables: function 16: "), caught.exception)
        for workers in (0, -1, 1025, 10 ** 20):
            self.assertRaises(minorder.BadShape, minorder.exact_many, [1, 2], 2, workers)
        self.assertRaises(minorder.BadArgument, minorder.exact_many, [1, 2], 2, "2")
        for functions, why in (([1, 2], "the tables don't say"), ([lambda *them: 1], "a function of \\(\\*them\\) doesn't say")):
            with self.assertRaisesRegex(minorder.BadArgument, f"tables: function 0: inputs: it is left out, and {why} how many"):
                minorder.exact_many(functions)

    def test_executors(self):
        inputs, _, functions = self.cases[3]
        wanted = [minorder.exact(it, inputs) for it in functions]
        with self.assertWarnsRegex(RuntimeWarning, r"the workers failed with .*the worker died.*: this process does their part"):
            self.assertEqual(minorder.exact_many(functions, inputs, executor=Dying()), wanted)
        with concurrent.futures.ProcessPoolExecutor(2) as pool:
            self.assertEqual(minorder.exact_many(functions, inputs, executor=pool), wanted)
            # a process that dies breaks the pool
            pool.submit(os.kill, next(iter(pool._processes)), signal.SIGKILL)
            self.assertEqual(minorder.exact_many(functions, inputs, executor=pool), wanted)

    def test_a_worker_of_dask_that_is_killed(self):
        source = random.Random(6)
        functions = [source.getrandbits(1 << 10) for _ in range(1500)]
        wanted = minorder.exact_many(functions, 10)
        with dask() as given:
            if given is None:
                self.skipTest("no Dask here")
            executor, kill, _ = given
            killer = concurrent.futures.ThreadPoolExecutor(1)
            killed = killer.submit(lambda: (time.sleep(0.3), kill()))
            self.assertEqual(minorder.exact_many(functions, 10, executor=executor, workers=64), wanted)
            killed.result()


class Interrupts(unittest.TestCase):
    def test_ctrl_c_leaves_a_call(self):
        begins = "import random, minorder\ntables = [random.getrandbits(1 << 16) for _ in range(16)]\nprint(flush=True)\n"
        for call in (*(f"{name}(tables, 16)" for name in ("exact", "certify", "orders", "sizes", "widths")),
                     "exact_many([tables] * 8, 16)"):
            script = f"{begins}minorder.{call}\n"
            # a shell's background command, as .ci/run begins these tests, ignores interrupts, and what it begins would, too
            pipes = {"stdout": subprocess.PIPE, "stderr": subprocess.PIPE}
            heed = {"preexec_fn": lambda: signal.signal(signal.SIGINT, signal.SIG_DFL)}
            with subprocess.Popen([sys.executable, "-c", script], text=True, **pipes, **heed) as running:
                running.stdout.readline()
                time.sleep(0.5)
                start = time.monotonic()
                running.send_signal(signal.SIGINT)
                _, said = running.communicate(timeout=60)
                self.assertLess(time.monotonic() - start, 1)
            self.assertIn("KeyboardInterrupt", said)


class Files(unittest.TestCase):
    def setUp(self):
        folder = tempfile.TemporaryDirectory()
        self.addCleanup(folder.cleanup)
        self.folder = folder.name
        source = random.Random(7)
        self.files = []
        for number in range(60):
            inputs, outputs = source.randint(1, 7), source.randint(1, 3)
            text = pla(inputs, random_tables(source, inputs, outputs))
            if number % 5 == 0:
                text = text.replace(".e", "11x"[:source.randint(1, 3)])
            self.files.append(f"{self.folder}/a file {number}.pla")
            with open(self.files[-1], "w") as file:
                file.write(text)
        self.files[7:7] = [f"{self.folder}/none.pla", self.folder]

    def said(self, file, *words):
        """What the program says of a file, and its status."""
        found = subprocess.run([PROGRAM, *words, file], stdout=subprocess.PIPE, stderr=subprocess.PIPE, text=True)
        return found.returncode, found.stderr.removeprefix("minorder: ").rstrip("\n"), parts_of(found.stdout)

    def agrees(self, report):
        status, fault, parts = self.said(report.file)
        self.assertEqual((report.status, report.fault), (status, fault))
        if report.report is None:
            self.assertEqual(parts, {})
            return
        said = report.fields()
        for name, words in parts.items():
            value = said[name.replace(" ", "_")]
            self.assertEqual(words, " ".join(map(str, value)) if isinstance(value, tuple) else str(value))

    def test_beside_the_program(self):
        reports = list(minorder.report_files(self.files))
        self.assertEqual([it.file for it in reports], self.files)
        self.assertGreater(sum(it.status == minorder.Status.REFUSED for it in reports), 5)
        for report in reports:
            self.agrees(report)
        with concurrent.futures.ProcessPoolExecutor(2) as pool:
            for executor in (Dying(), pool):
                self.assertEqual(list(minorder.report_files(self.files, executor=executor)), reports)
        with dask() as given:
            if given is not None:
                self.assertEqual(list(minorder.report_files(self.files, executor=given[0])), reports)

    def test_certificates(self):
        folder = f"{self.folder}/certificates"
        reports = list(minorder.report_files(self.files, folder))
        self.assertEqual(reports, list(minorder.report_files(self.files)))
        names = [os.path.basename(it.file)[:-3] + "cert" for it in reports if it.report]
        self.assertEqual(sorted(os.listdir(folder)), sorted(names))
        for report in reports[:20]:
            if report.report:
                self.said(report.file, "--cert", f"{self.folder}/its.cert")
                place = f"{folder}/{os.path.basename(report.file)[:-3]}cert"
                with open(f"{self.folder}/its.cert") as wanted, open(place) as found:
                    self.assertEqual(found.read(), wanted.read())
        self.assertRaises(minorder.BadArgument, minorder.report_files, ["a/it.pla", "b/it.pla"], folder)

    def command(self, *words):
        with contextlib.redirect_stdout(io.StringIO()) as written, contextlib.redirect_stderr(io.StringIO()):
            status = _batch_command.main(words)
        return status, written.getvalue()

    def test_the_command_on_a_cluster_of_dask(self):
        status, wanted = self.command(*self.files)
        with dask() as given:
            if given is None:
                self.skipTest("no Dask here")
            _, kill, address = given
            for words in ((), ("--unordered",)):
                found, written = self.command("--dask", address, *words, *self.files)
                self.assertEqual((found, sorted(written.splitlines())), (status, sorted(wanted.splitlines())))
            killer = threading.Timer(0.3, kill)
            killer.start()
            self.assertEqual(self.command("--dask", address, *self.files * 20), (status, wanted * 20))
            killer.join()
            self.assertEqual(self.command("--dask", "no address", *self.files), (2, ""))

    def test_what_is_no_path(self):
        for paths in ("it.pla", [3], [None], [b"it.pla"], None, 3, pathlib.Path("it.pla")):
            with self.assertRaisesRegex(minorder.BadArgument, "^paths: "):
                minorder.report_files(paths)

    def test_other_arguments(self):
        for executor in (5, "x", [], concurrent.futures.ThreadPoolExecutor):
            for call in (lambda: minorder.exact_many([6], 2, executor=executor),
                         lambda: minorder.exact_many([], executor=executor),
                         lambda: minorder.report_files([], executor=executor)):
                with self.assertRaisesRegex(minorder.BadArgument, "^executor: .* is no executor of concurrent.futures$"):
                    call()
        with self.assertRaisesRegex(minorder.BadArgument, "^ordered: 'no' is neither True nor False$"):
            minorder.report_files([], ordered="no")
        for words in ({"workers": 0}, {"inputs": 17}):
            self.assertRaises(minorder.BadShape, minorder.exact_many, [], **words)

    def test_the_command(self):
        inner = f"{self.folder}/inner"
        os.makedirs(f"{inner}/folder.pla")
        os.mkfifo(f"{inner}/pipe.pla")
        for name in ("b.pla", "a.pla", ".hidden.pla", "other.txt"):
            with open(f"{inner}/{name}", "w") as file:
                file.write(".i 1\n.o 1\n1 1\n")
        with open(f"{self.folder}/list", "w") as file:
            file.write(f"{inner}/b.pla\r\n\n{self.folder}/a file 0.pla\n")
        status, written = self.command(inner, "--list", f"{self.folder}/list", "--workers", "2")
        lines = [json.loads(line) for line in written.splitlines()]
        self.assertEqual([it["file"] for it in lines], [f"{inner}/a.pla", f"{inner}/b.pla", f"{inner}/b.pla", self.files[0]])
        self.assertEqual((status, [it["status"] for it in lines]), (1, [0, 0, 0, 3]))
        self.assertEqual(lines[0]["names"], ["x0"])
        status, written = self.command("--csv", f"{inner}/a.pla")
        head, row = written.splitlines()
        self.assertEqual((status, head.split(",")[:4]), (0, ["file", "status", "fault", "inputs"]))
        self.assertEqual(row, f"{inner}/a.pla,0,,1,1,x0,0,1,1,0,1,1")
        for words, status in (((), 2), (("--workers", "0", inner), 2), (("--list", f"{self.folder}/none"), 5),
                              (("--certificates", f"{inner}/a.pla/x", inner), 5)):
            self.assertEqual(self.command(*words), (status, ""))


class Chunks(unittest.TestCase):
    def test_they_are_bytes(self):
        given = []

        class Keeping(_threads.Threads):
            def submit(self, fn, /, *args, **kwargs):
                given.extend(args)
                return super().submit(fn, *args, **kwargs)

        executor = Keeping(1)
        minorder.exact_many(range(256), 3, executor=executor)
        list(minorder.report_files([f"{TOP}/examples/mux2.pla"] * 40, executor=executor))
        executor.shutdown()
        self.assertEqual({type(it) for it in given}, {bytes})
        self.assertGreater(len(given), 4)
        self.assertEqual(len(_many.exact_chunk(given[0])) % (5 * 3 + 4), 0)
        self.assertEqual(len(json.loads(batch.report_chunk(given[-1]))), 8)


if __name__ == "__main__":
    unittest.main()
