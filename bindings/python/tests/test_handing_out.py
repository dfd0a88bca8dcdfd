"""Which files workers get next, and reports that come as they are known.

    python3 -m unittest discover -s bindings/python/tests -p test_handing_out.py
"""
import os
import pathlib
import random
import signal
import subprocess
import sys
import threading
import time
import unittest
import unittest.mock

sys.path.insert(0, os.path.dirname(os.path.abspath(__file__)))

from folders import ENVIRONMENT, InFolder, heed  # noqa: E402
from test_minorder import load_tests  # noqa: E402, F401

import minorder  # noqa: E402
from minorder import _handing_out, batch, benchmarks  # noqa: E402


class HandingOut(InFolder):
    def tasks(self, shapes, workers):
        files, tasks = self.constants(*shapes), []
        waiting = _handing_out.Waiting(files, workers)
        while task := waiting.next(len(files)):
            tasks.append(task)
        return tasks

    def test_equal_files_go_in_order(self):
        self.assertEqual(self.tasks([(15, 3)] * 20, 4), [[number] for number in range(20)])
        self.assertEqual(self.tasks([(4, 1)] * 20, 4), [list(range(8)), list(range(8, 16)), list(range(16, 20))])

    def test_a_long_one_is_not_begun_last(self):
        first, *others = self.tasks([*[(10, 1)] * 30, (16, 16)], 4)
        self.assertEqual((first, sum(others, [])), ([30], list(range(30))))
        # one worker gains nothing by another order
        self.assertEqual(sum(self.tasks([(14, 1)] * 5, 1), []), list(range(5)))

    def test_each_file_goes_once(self):
        source = random.Random(9)
        files = self.constants(*[(source.randint(1, 18), source.randint(0, 17)) for _ in range(200)])
        for workers in (1, 3, 64):
            waiting, seen = _handing_out.Waiting(files, workers), []
            for end in (0, 10, 10, 50, *[200] * 300):
                task = waiting.next(end)
                self.assertTrue(all(number < end for number in task))
                seen += task
            self.assertEqual(sorted(seen), list(range(200)))

    def test_a_pipe_is_read_once(self):
        path = f"{self.folder}/pipe.pla"
        os.mkfifo(path)
        self.assertEqual([_handing_out.estimate(it) for it in (path, self.folder, "none", "\0")], [0] * 4)
        writer = threading.Thread(target=lambda: self.put("pipe.pla", ".i 2\n.o 1\n11 1\n"))
        writer.start()
        self.assertEqual([it.report.nodes for it in minorder.report_files([path])], [2])
        writer.join()


class AsTheyAreKnown(InFolder):
    """Ten files, each a task, of which one is held."""

    def reports(self, number, held, **words):
        files = self.constants(*[(13, 1)] * 10)
        self.put(f"{number:03}.pla", "# held\n.i 13\n.o 1\n.e\n")
        work = batch.report_chunk

        def waits(chunk):
            if b"# held" in chunk:
                self.assertTrue(held.wait(60))
            return work(chunk)

        with unittest.mock.patch.object(batch, "report_chunk", waits):
            for report in minorder.report_files(files, workers=3, **words):
                yield files.index(report.file)

    def test_in_order(self):
        held = threading.Event()
        reports = self.reports(3, held)
        self.assertEqual([next(reports) for _ in range(3)], [0, 1, 2])
        threading.Timer(0.3, held.set).start()
        start = time.monotonic()
        self.assertEqual(next(reports), 3)
        self.assertGreater(time.monotonic() - start, 0.2)
        self.assertEqual(list(reports), list(range(4, 10)))

    def test_as_they_come(self):
        held = threading.Event()
        reports = self.reports(3, held, ordered=False)
        self.assertEqual(sorted(next(reports) for _ in range(9)), [0, 1, 2, 4, 5, 6, 7, 8, 9])
        held.set()
        self.assertEqual(list(reports), [3])

    def test_how_many_are_held(self):
        held, numbers = threading.Event(), []
        with unittest.mock.patch.object(batch, "MOST_AHEAD", 2):
            # six files from the first one on, of three workers
            reports = self.reports(0, held)
            reader = threading.Thread(target=lambda: numbers.extend(reports))
            with unittest.mock.patch.object(batch, "_content_of", side_effect=batch._content_of) as read:
                reader.start()
                time.sleep(1)
                self.assertEqual(read.call_count, 6)
                held.set()
                reader.join()
        self.assertEqual(numbers, list(range(10)))

    def test_ctrl_c_keeps_what_was_yielded(self):
        easy = self.random_files(3, 6)
        hard = self.put("hard.pla", benchmarks.entry("random14_16").pla())
        script = f"""
import minorder
seen = []
try:
    for report in minorder.report_files({easy} + [{hard!r}] * 60, workers=2):
        seen.append(report.file)
        print(flush=True)
except KeyboardInterrupt:
    print(seen[:3] == {easy})
"""
        streams = {"stdout": subprocess.PIPE, "text": True, "preexec_fn": heed}
        with subprocess.Popen([sys.executable, "-c", script], env=ENVIRONMENT, **streams) as process:
            for _ in easy:
                process.stdout.readline()
            start = time.monotonic()
            process.send_signal(signal.SIGINT)
            self.assertEqual(process.communicate(timeout=60)[0].split(), ["True"])
            self.assertLess(time.monotonic() - start, 2)

    def test_one_path_is_no_sequence(self):
        for paths in ("it.pla", b"it.pla", pathlib.Path("it.pla")):
            with self.assertRaises(minorder.BadArgument) as caught:
                minorder.report_files(paths)
            self.assertTrue(str(caught.exception).startswith("paths: "))


if __name__ == "__main__":
    unittest.main()
