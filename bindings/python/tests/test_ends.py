"""How all commands of the package end: python3 -m unittest discover -s bindings/python/tests -p test_ends.py"""
import contextlib
import errno
import io
import os
import resource
import signal
import stat
import subprocess
import sys
import tempfile
import threading
import time
import unittest
import unittest.mock

PACKAGE = os.path.dirname(os.path.dirname(os.path.abspath(__file__)))
sys.path.insert(0, PACKAGE)

import minorder  # noqa: E402
from minorder import _processes, _threads, _writing, score  # noqa: E402

MULTIPLEXER = os.path.abspath(f"{PACKAGE}/../../examples/mux2.pla")
# by command its module, and words for a short run in a folder with results
COMMANDS = {
    "minorder-batch": ("_batch_command", [MULTIPLEXER]),
    "minorder-diagram": ("diagram_command", [MULTIPLEXER, "2,0,1"]),
    "minorder-functions": ("functions", ["bench", "hwb4", "hwb5"]),
    "minorder-levels": ("levels_command", [MULTIPLEXER, "2,0,1"]),
    "minorder-orders": ("orders_command", [MULTIPLEXER]),
    "minorder-score": ("score", ["results.csv"]),
}
LASTING = {
    "minorder-batch": ["."] * 100, "minorder-functions": ["bench"], "minorder-orders": ["hard.pla"] * 100,
    "minorder-score": ["long.csv"]}


class Ends(unittest.TestCase):
    def setUp(self):
        made = tempfile.TemporaryDirectory()
        self.addCleanup(made.cleanup)
        self.folder = made.name
        with open(f"{self.folder}/results.csv", "w") as file:
            file.write("name,order\nmux2,2 0 1\nhwb4,0 1 2 3\n")

    def process(self, name, words, **streams):
        module, _ = COMMANDS[name]
        environment = {**os.environ, "PYTHONPATH": PACKAGE, "PYTHONDONTWRITEBYTECODE": "1"}
        command = [sys.executable, "-m", f"minorder.{module}", *words]
        return subprocess.Popen(command, cwd=self.folder, env=environment, stderr=subprocess.PIPE, text=True, **streams)

    def ended(self, name, words, **streams):
        """The status, and what was written to standard error."""
        with self.process(name, words, **streams) as process:
            errors = process.communicate(timeout=120)[1]
        return process.returncode, errors

    def test_versions(self):
        for name in COMMANDS:
            with self.process(name, ["--version"], stdout=subprocess.PIPE) as process:
                self.assertEqual(process.communicate()[0], f"{name} {minorder.__version__}\n")

    def test_options_given_twice(self):
        given = {
            "minorder-batch": ("--list", "--certificates", "--resume", "--workers", "--dask"), "minorder-diagram": ("-o/--out",),
            "minorder-functions": ("--jobs",), "minorder-orders": ("-o/--out", "--above", "--most"),
            "minorder-score": ("--name", "--picture", "--jobs")}
        for name, options in given.items():
            for option in options:
                status, errors = self.ended(name, [option.split("/")[0], "2", *COMMANDS[name][1], f"{option.split('/')[-1]}=2"])
                self.assertEqual((status, errors.splitlines()[-1]), (2, f"{name}: error: argument {option}: given twice"))

    def test_closed_and_full_standard_output(self):
        for name, (_, words) in COMMANDS.items():
            for given in (words, ["--help"]):
                with open("/dev/full", "w") as full:
                    fault = f"{name}: standard output: {os.strerror(errno.ENOSPC)}\n"
                    self.assertEqual(self.ended(name, given, stdout=full), (5, fault))
                fault = f"{name}: standard output: {os.strerror(errno.EBADF)}\n"
                self.assertEqual(self.ended(name, given, preexec_fn=lambda: os.close(1)), (5, fault))

    def test_a_reader_that_takes_no_more(self):
        for name, (_, words) in COMMANDS.items():
            reader, writer = os.pipe()
            os.close(reader)
            self.assertEqual(self.ended(name, words, stdout=writer), (-signal.SIGPIPE, ""))
            os.close(writer)

    def lasting(self):
        """Files that commands work on for seconds."""
        hard = minorder.benchmarks.entry("random14_16")
        with open(f"{self.folder}/hard.pla", "w") as file:
            file.write(hard.pla())
        with open(f"{self.folder}/long.csv", "w") as file:
            file.write("name,order\n")
            for it in minorder.benchmarks.optima().values():
                if it.inputs == 16:
                    file.write(f"{it.name},{' '.join(map(str, it.sifted_order))}\n")

    def test_an_interrupt(self):
        self.lasting()
        before = sorted(os.listdir(self.folder))
        for name, words in LASTING.items():
            # a shell's background command ignores interrupts, and what it begins would, too
            kept = signal.signal(signal.SIGINT, signal.default_int_handler)
            try:
                process = self.process(name, words, stdout=subprocess.PIPE)
            finally:
                signal.signal(signal.SIGINT, kept)
            with process:
                self.wait_for_its_words(process.pid)
                time.sleep(0.3)
                start = time.monotonic()
                process.send_signal(signal.SIGINT)
                # all processes end, so that the stream does
                self.assertEqual(process.communicate(timeout=60)[1], "")
                self.assertLess(time.monotonic() - start, 2)
            self.assertEqual((process.returncode, sorted(os.listdir(self.folder))), (-signal.SIGINT, before))

    def test_an_interrupt_while_files_are_written(self):
        script = """
import signal, time
from minorder import _writing
class Slow(dict):
    def items(self):
        yield "a", b"1"
        print("begun", flush=True)
        time.sleep(60)
signal.signal(signal.SIGINT, signal.SIG_DFL)
_writing.write_all("new/one", Slow)
"""
        command, environment = [sys.executable, "-c", script], {**os.environ, "PYTHONPATH": PACKAGE}
        with subprocess.Popen(command, cwd=self.folder, env=environment, stdout=subprocess.PIPE) as process:
            self.assertEqual(process.stdout.readline(), b"begun\n")
            self.assertEqual(len(os.listdir(f"{self.folder}/new/one")), 1)
            process.send_signal(signal.SIGINT)
        self.assertEqual((process.returncode, os.listdir(self.folder)), (-signal.SIGINT, ["results.csv"]))

    def test_two_at_once_have_one_list(self):
        both = [self.process("minorder-functions", ["new", name], stdout=subprocess.DEVNULL) for name in ("hwb6", "codes")]
        for process in both:
            process.communicate()
        with open(f"{self.folder}/new/functions.csv") as file:
            names = sorted(line.split(",")[0] for line in file)
        self.assertEqual(names, ["bcd7seg", "gray16", "gray8", "hwb6", "name"])
        self.assertEqual(len(os.listdir(f"{self.folder}/new")), 5)

    def wait_for_its_words(self, process):
        """Waits until the interpreter has taken the interrupt for itself, and the command has given it back."""
        seen = []
        for _ in range(6000):
            with open(f"/proc/{process}/status") as file:
                caught = next(int(line.split()[1], 16) for line in file if line.startswith("SigCgt"))
            seen.append(bool(caught >> signal.SIGINT - 1 & 1))
            if not seen[-1] and any(seen):
                return
            time.sleep(0.01)
        self.fail("it doesn't begin")

    def test_memory(self):
        def limit():
            resource.setrlimit(resource.RLIMIT_AS, (34000 << 10, 34000 << 10))

        modules = ", ".join(f"minorder.{COMMANDS[name][0]}" for name in LASTING)
        probe = [sys.executable, "-c", f"import {modules}"]
        environment = {**os.environ, "PYTHONPATH": PACKAGE}
        if subprocess.run(probe, env=environment, stderr=subprocess.DEVNULL, preexec_fn=limit).returncode:
            self.skipTest("the interpreter needs more than that")
        self.lasting()
        for name, words in LASTING.items():
            self.assertEqual(self.ended(name, words, preexec_fn=limit), (4, f"{name}: OutOfMemory\n"))
        self.assertNotIn("bench", os.listdir(self.folder))

    def test_no_threads_and_no_processes(self):
        def refused(*_, **__):
            raise BlockingIOError(errno.EAGAIN, os.strerror(errno.EAGAIN))

        with unittest.mock.patch("multiprocessing.process.BaseProcess.start", refused):
            self.assertEqual(_processes.each(len, ["a", "bc", ""], 3), [1, 2, 0])
        with unittest.mock.patch.object(_threads.Thread, "start", side_effect=RuntimeError("can't start new thread")):
            self.assertRaises(MemoryError, _threads.Threads, 2)
            self.assertEqual(_threads.aside(16, len, "abc"), 3)

    def test_a_process_that_is_lost(self):
        self.assertRaises(MemoryError, _processes.each, lambda task: os._exit(1), [1, 2, 3], 2)
        self.assertRaises(ZeroDivisionError, _processes.each, lambda task: 1 // task, [1, 0, 3], 2)
        self.assertEqual(_processes.each(lambda task: task * task, range(50), 4), [it * it for it in range(50)])

    def test_a_full_disk_leaves_no_part(self):
        def limit():
            resource.setrlimit(resource.RLIMIT_FSIZE, (2000, 2000))

        before = sorted(os.listdir(self.folder))
        status, errors = self.ended("minorder-functions", ["new/bench", "products of pairs", "hwb10"], preexec_fn=limit)
        self.assertEqual((status, errors), (5, f"minorder-functions: new/bench/hwb10.pla: {os.strerror(errno.EFBIG)}\n"))
        self.assertEqual(sorted(os.listdir(self.folder)), before)
        with unittest.mock.patch("os.replace", side_effect=OSError(errno.ENOSPC, "full")):
            with self.assertRaises(OSError) as caught:
                _writing.write_file(f"{self.folder}/new", b"1")
        self.assertEqual((caught.exception.filename, sorted(os.listdir(self.folder))), (f"{self.folder}/new", before))

    def test_a_pipe_is_written_into(self):
        pipe, link, read = f"{self.folder}/pipe.csv", f"{self.folder}/link.csv", []

        def take():
            with open(pipe, "rb") as file:
                read.append(file.read())

        os.mkfifo(pipe)
        os.symlink("pipe.csv", link)
        for path in (pipe, link):
            reader = threading.Thread(target=take, daemon=True)
            reader.start()
            _writing.write_file(path, b"1" * 100000)
            self.assertTrue(stat.S_ISFIFO(os.lstat(pipe).st_mode) and os.path.islink(link))
            reader.join(60)
        self.assertEqual(read, [b"1" * 100000] * 2)

    def test_links_that_lead_round(self):
        os.symlink("one", f"{self.folder}/other")
        os.symlink("other", f"{self.folder}/one")
        before = sorted(os.listdir(self.folder))
        with self.assertRaises(OSError) as caught:
            _writing.write_file(f"{self.folder}/one", b"1")
        self.assertEqual((caught.exception.errno, caught.exception.filename), (errno.ELOOP, f"{self.folder}/one"))
        self.assertEqual((sorted(os.listdir(self.folder)), os.readlink(f"{self.folder}/one")), (before, "other"))

    def test_other_faults_are_a_line(self):
        self.assertEqual(self.ended("minorder-score", ["-"], preexec_fn=lambda: os.close(0)), (
            5, f"minorder-score: standard input: {os.strerror(errno.EBADF)}\n"))
        self.assertEqual(self.ended("minorder-score", ["."]), (5, f"minorder-score: .: {os.strerror(errno.EISDIR)}\n"))
        with contextlib.redirect_stderr(io.StringIO()) as written:
            with unittest.mock.patch.object(score, "counted", side_effect=MemoryError):
                self.assertEqual(score.main([f"{self.folder}/results.csv"]), 4)
        self.assertEqual(written.getvalue(), "minorder-score: OutOfMemory\n")


if __name__ == "__main__":
    unittest.main()
