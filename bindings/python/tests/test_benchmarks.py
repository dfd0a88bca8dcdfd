"""The functions of the table of optima by name, and what minorder-functions writes; none of it calls the library.

    python3 -m unittest discover -s bindings/python/tests -p test_benchmarks.py
"""
import contextlib
import csv
import hashlib
import io
import os
import pty
import signal
import subprocess
import sys
import tempfile
import time
import unittest

sys.path.insert(0, os.path.dirname(os.path.dirname(os.path.abspath(__file__))))

from folders import heed  # noqa: E402
import minorder  # noqa: E402
from minorder import _writing, benchmarks, functions  # noqa: E402


def ran(*words):
    """The status, and what was written to the standard streams."""
    out, errors = io.StringIO(), io.StringIO()
    with contextlib.redirect_stdout(out), contextlib.redirect_stderr(errors):
        try:
            status = functions.main(words)
        except SystemExit as end:
            status = end.code
    return status, out.getvalue(), errors.getvalue()


def content_of(folder, name):
    with open(f"{folder}/{name}") as file:
        return file.read()


def names_in(folder):
    """The functions of the folder's list."""
    return [row["name"] for row in csv.DictReader(io.StringIO(content_of(folder, "functions.csv")))]


def begun(terminal, *words):
    """The command as a process of its own, whose standard error is a terminal."""
    program = [sys.executable, "-m", "minorder.functions", *words]
    place = os.path.dirname(os.path.dirname(os.path.abspath(__file__)))
    environment = {**os.environ, "PYTHONPATH": place, "TERM": "xterm"}
    streams = {"stdout": subprocess.PIPE, "stderr": terminal, "text": True}
    return subprocess.Popen(program, env=environment, preexec_fn=heed, **streams)


def read_from(terminal):
    """All that a terminal shows until its last writer is gone."""
    found = b""
    while True:
        try:
            found += os.read(terminal, 1 << 16)
        except OSError:
            return found.decode()


class Benchmarks(unittest.TestCase):
    def test_functions_are_those_of_the_table(self):
        shapes = {it.name: (it.family, len(it.inputs), it.outputs, it.words) for it in benchmarks.entries()}
        wanted = {it.name: (it.family, it.inputs, it.outputs, it.what) for it in benchmarks.optima().values()}
        self.assertEqual(shapes, wanted)
        self.assertEqual({line.name for line in benchmarks.league() if line.start == benchmarks.FILE}, set(shapes))

    def test_names(self):
        self.assertEqual(benchmarks.entry("z4ml").name, "addc3")
        names = [it.name for it in benchmarks.selected(["life", "Codes", "gray8", "z4", "z4ml"])]
        self.assertEqual(names, ["life", "gray8", "gray16", "bcd7seg", "addc3"])
        with self.assertRaises(benchmarks.UnknownName) as caught:
            benchmarks.selected(["hwb4", "hwb"])
        self.assertIn("no function or family is named hwb; is it hwb", str(caught.exception))
        self.assertIsInstance(caught.exception, minorder.MinorderError)


class Written(unittest.TestCase):
    def test_files_and_their_list(self):
        with tempfile.TemporaryDirectory() as folder:
            status, out, errors = ran(f"{folder}/new/one", "codes", "hwb4")
            self.assertEqual((status, errors), (0, ""))
            self.assertRegex(out, r"^4 files in .*/new/one, listed in functions.csv: [0-9.]+ s\n$")
            with open(f"{folder}/new/one/functions.csv") as file:
                rows = list(csv.DictReader(file))
            self.assertEqual([row["name"] for row in rows], ["gray8", "gray16", "bcd7seg", "hwb4"])
            for row in rows:
                with open(f"{folder}/new/one/{row['name']}.pla", "rb") as file:
                    content = file.read()
                known = benchmarks.optima()[row["name"]]
                self.assertEqual((int(row["inputs"]), int(row["outputs"])), (known.inputs, known.outputs))
                self.assertEqual(row["sha256"], hashlib.sha256(content).hexdigest())
                self.assertEqual(row["sha256"], known.pla_sha256)
            names = {"functions.csv", *(f"{row['name']}.pla" for row in rows)}
            self.assertEqual(set(os.listdir(f"{folder}/new/one")), names)

    def test_the_list_keeps_what_lies_there(self):
        with tempfile.TemporaryDirectory() as folder:
            self.assertEqual([ran(folder, name)[0] for name in ("hwb4", "codes", "hwb4")], [0, 0, 0])
            self.assertEqual(names_in(folder), ["hwb4", "gray8", "gray16", "bcd7seg"])
            os.remove(f"{folder}/gray8.pla")
            self.assertEqual(ran(folder, "life")[0], 0)
            self.assertEqual(names_in(folder), ["hwb4", "gray16", "bcd7seg", "life"])

    def test_a_file_that_was_changed_is_listed_no_more(self):
        with tempfile.TemporaryDirectory() as folder:
            self.assertEqual(ran(folder, "codes")[0], 0)
            with open(f"{folder}/gray16.pla", "a") as file:
                file.write("# mine\n")
            mine = content_of(folder, "gray16.pla")
            status, out, errors = ran(folder, "mux2")
            said = f"minorder-functions: {folder}/gray16.pla: it was changed, so functions.csv lists it no more\n"
            self.assertEqual((status, errors, names_in(folder)), (0, said, ["gray8", "bcd7seg", "mux2"]))
            self.assertEqual((ran(folder, "mux2")[2], content_of(folder, "gray16.pla")), ("", mine))
            self.assertEqual((ran(folder, "gray16", "--force")[2], names_in(folder)[-1]), ("", "gray16"))

    def test_what_is_another_file_is_kept(self):
        own = {"hwb4.pla": ".i 1\n.o 1\n1 1\n.e\n", "functions.csv": "my,own\n1,2\n", "starts.csv": "also mine\n", "notes": "x"}
        with tempfile.TemporaryDirectory() as folder:
            for name, text in own.items():
                with open(f"{folder}/{name}", "w") as file:
                    file.write(text)
            refused = "it is there and isn't what would be written; --force overwrites it\n"
            status, out, errors = ran(folder, "hwb4", "hwb5", "--starts")
            self.assertEqual((status, out), (5, ""))
            self.assertEqual(errors, "".join(
                f"minorder-functions: {folder}/{name}: {refused}" for name in ("hwb4.pla", "functions.csv", "starts.csv")))
            self.assertEqual(ran(folder, "hwb5"), (5, "", f"minorder-functions: {folder}/functions.csv: {refused}"))
            self.assertEqual({name: content_of(folder, name) for name in os.listdir(folder)}, own)
            self.assertEqual(ran(folder, "hwb4", "hwb5", "--force")[0], 0)
            self.assertEqual(names_in(folder), ["hwb4", "hwb5"])
            self.assertEqual((content_of(folder, "starts.csv"), content_of(folder, "notes")), ("also mine\n", "x"))
            self.assertEqual(len(os.listdir(folder)), 5)

    def test_a_terminal_shows_how_far_it_is(self):
        for jobs in ("1", "3"):
            with tempfile.TemporaryDirectory() as folder:
                reader, terminal = pty.openpty()
                with begun(terminal, folder, "codes", "hwb4", "--jobs", jobs) as process:
                    os.close(terminal)
                    shown = read_from(reader)
                    os.close(reader)
                    self.assertRegex(process.stdout.read(), r"^4 files in .*, listed in functions.csv: [0-9.]+ s\n$")
                self.assertTrue(shown.startswith(f"\r[{' ' * 20}] 0/4 files"), shown)
                self.assertEqual((shown[-1], shown.split("\r")[-2].strip()), ("\r", ""))

    def test_an_interrupt_ends_it_and_leaves_nothing(self):
        with tempfile.TemporaryDirectory() as folder:
            reader, terminal = pty.openpty()
            with begun(terminal, f"{folder}/new", "--jobs", "2") as process:
                os.close(terminal)
                self.assertIn("0/256 files", os.read(reader, 1 << 16).decode())
                time.sleep(0.5)
                process.send_signal(signal.SIGINT)
                # its own processes end with it, so nobody holds the terminal
                read_from(reader)
                os.close(reader)
                self.assertEqual((process.wait(), process.stdout.read()), (-signal.SIGINT, ""))
            self.assertEqual(os.listdir(folder), [])

    def test_random_starts(self):
        with tempfile.TemporaryDirectory() as folder:
            self.assertEqual(ran(folder, "hwb12", "hwb13", "life", "--starts")[0], 0)
            rows = list(csv.DictReader(io.StringIO(content_of(folder, "starts.csv"))))
            self.assertEqual([(row["name"], row["start"]) for row in rows], [
                (name, str(number)) for name in ("hwb12", "life") for number in range(1, 11)])
            self.assertEqual(ran(folder, "hwb4", "--starts")[0], 0)
            again = content_of(folder, "starts.csv").splitlines()
        self.assertEqual(len(again), 31)
        for row in rows:
            order = list(map(int, row["order"].split()))
            sums = {i: hashlib.sha256(f"bakchuon start {len(order)} {row['start']} {i}".encode()).digest() for i in order}
            self.assertEqual(order, sorted(sums, key=sums.get))
            self.assertIn(f"{row['name']},{row['start']},{row['order']}", again)

    def test_the_table_has_the_nodes_under_random_orders(self):
        for it in benchmarks.optima().values():
            self.assertEqual(len(it.random_order_nodes), 10 if it.inputs <= benchmarks.MOST_INPUTS else 0)
            self.assertTrue(all(nodes >= it.optimum for nodes in it.random_order_nodes))

    def test_all_or_nothing_is_written(self):
        with tempfile.TemporaryDirectory() as folder:
            with self.assertRaises(OSError):
                _writing.write_all(f"{folder}/new/one", lambda: {"a": b"1", "b/c": b"2"})
            self.assertEqual(os.listdir(folder), [])
            os.mkdir(f"{folder}/hwb5.pla")
            status, out, errors = ran(folder, "hwb4", "hwb5")
            self.assertEqual((status, errors), (5, f"minorder-functions: {folder}/hwb5.pla: Is a directory\n"))
            self.assertEqual(os.listdir(folder), ["hwb5.pla"])

    def test_refusals(self):
        with tempfile.TemporaryDirectory() as folder:
            with open(f"{folder}/file", "w"):
                pass
            self.assertEqual(ran(f"{folder}/file", "hwb4")[0], 5)
            status, out, errors = ran(folder, "no such family")
            self.assertEqual((status, out), (2, ""))
            self.assertIn("no function or family is named no such family", errors)
            self.assertEqual(ran(folder, "hwb4", "--jobs", "0")[0], 2)
            self.assertEqual(os.listdir(folder), ["file"])


if __name__ == "__main__":
    unittest.main()
