"""Rows of minorder-batch that are whole, runs that are ended and resumed, and the bar.

    python3 -m unittest discover -s bindings/python/tests -p test_resume.py
"""
import codecs
import concurrent.futures
import contextlib
import errno
import fcntl
import io
import json
import os
import pty
import re
import resource
import select
import signal
import subprocess
import sys
import time
import unittest
import unittest.mock

sys.path.insert(0, os.path.dirname(os.path.abspath(__file__)))

from folders import ENVIRONMENT, InFolder  # noqa: E402
from test_minorder import load_tests  # noqa: E402, F401

from minorder._arguments import shown  # noqa: E402
from minorder import _batch_command, _clusters, _progress, _threads, _writing, benchmarks  # noqa: E402

SIFTED = re.compile(rb'"sifted_order": [^a-z]*"sifted_nodes": 3')
MULTIPLEXER = ".i 3\n.o 1\n1-0 1\n-11 1\n.e\n"
NAMES = ["-dash.pla", "a blank.pla", "quo\"te,s.pla", "line\nfeed.pla", "carriage\rreturn.pla", os.fsdecode(b"latin\xff.pla")]


class Resumed(InFolder):
    def run_in(self, *words):
        """The status and the messages of a run in this process."""
        with contextlib.redirect_stdout(io.StringIO()) as written, contextlib.redirect_stderr(io.StringIO()) as errors:
            status = _batch_command.main(words)
        self.assertEqual(written.getvalue(), "")
        return status, errors.getvalue()

    def end_it(self, number, count, *words):
        """Ends a run by a signal when it has written so many rows."""
        with self.process(*words, "--resume", "rows") as process:
            while process.poll() is None:
                if os.path.exists(f"{self.folder}/rows") and self.content("rows").count(b"\n") >= count:
                    process.send_signal(number)
                    break
                time.sleep(0.001)
        return -process.returncode

    def test_runs_that_are_ended(self):
        files = self.random_files(150, 11)
        self.put("072.pla", ".i 2\n.o 1\n11 x\n")
        for words in ((), ("--csv", "--certificates", "certificates")):
            status, wanted, _ = self.ended(*words, *files)
            self.assertEqual((status, wanted.count(b"\n")), (1, len(files) + bool(words)))
            for number, count in ((signal.SIGINT, 0), (signal.SIGTERM, 30), (signal.SIGKILL, 60)):
                self.assertEqual(self.end_it(number, count, *words, *files), number)
                rows = self.content("rows")
                self.assertEqual(self.ended(*words, "--resume", "rows", *files), (1, b"", b""))
                self.assertEqual(self.content("rows"), wanted)
                self.assertTrue(len(rows) < len(wanted) and wanted.startswith(rows))
                os.unlink(f"{self.folder}/rows")

    def test_each_place_of_a_cut(self):
        files = [self.put(name, MULTIPLEXER) for name in NAMES]
        for words in ((), ("--csv",)):
            wanted = self.ended(*words, "--", *files)[1]
            out = self.put("rows", wanted)
            for end in range(0, len(wanted) + 1, 7):
                with open(out, "wb") as file:
                    file.write(wanted[:end])
                self.assertEqual(self.run_in(*words, "--resume", out, "--", *files), (0, ""))
                self.assertEqual(self.content("rows"), wanted)

    def test_names(self):
        files = [self.put(name, MULTIPLEXER) for name in NAMES]
        status, written, errors = self.ended("--", *files)
        self.assertEqual((status, [json.loads(it)["file"] for it in written.splitlines()], errors), (0, files, b""))
        self.assertEqual(self.ended("--", NAMES[0])[0], 0)
        listed = self.put("list", codecs.BOM_UTF8 + b"\n".join(os.fsencode(it) for it in files if "\n" not in it))
        _, written, _ = self.ended("--list", listed)
        self.assertEqual([json.loads(it)["file"] for it in written.splitlines()], [it for it in files if "\n" not in it])
        self.put("list", b"a.pla\nb.pla\0c.pla\0")
        self.assertEqual(self.run_in("--list", listed), (
            3, f"minorder-batch: {listed}: line 2: a NUL, where each line is a name\n"))

    def test_rows_that_are_left(self):
        first, second = self.put("a.pla", MULTIPLEXER), self.put("b.pla", MULTIPLEXER)
        _, wanted, _ = self.ended(first, second, first, "none.pla")
        rows = wanted.splitlines(keepends=True)
        for given, left in (([1, 0], [2, 3]), ([3], [0, 1, 2]), ([0, 2], [1, 3]), ([2, 0, 1, 3], [])):
            out = self.put("rows", b"".join(rows[it] for it in given))
            self.assertEqual(self.run_in("--resume", out, first, second, first, "none.pla"), (1, ""))
            self.assertEqual(self.content("rows"), b"".join(rows[it] for it in given + left))
        # what an earlier run found isn't sought again
        out = self.put("rows", SIFTED.sub(b'"sifted_order": [1, 0, 2], "sifted_nodes": 4', rows[0]))
        self.assertEqual(self.run_in("--resume", out, "--unordered", first), (0, ""))
        self.assertIn(b'"sifted_nodes": 4', self.content("rows"))

    def test_what_is_refused(self):
        first, second = self.put("a.pla", MULTIPLEXER), self.put("b.pla", MULTIPLEXER)
        row, other = (self.ended(it)[1] for it in (first, second))
        of_csv = self.ended("--csv", first)[1]
        for given, words, line, why in (
                (row + other, (), 2, f"{second!r} is none of the files"),
                (row + row, (), 2, f"{first!r} has a row already"),
                (b"\n", (), 1, "no JSON row of minorder-batch: it is no JSON"),
                (row + row[9:], (), 2, "no JSON row of minorder-batch: it is no JSON"),
                (row + b"[" * 100000 + b"\n", (), 2, "no JSON row of minorder-batch: it is no JSON"),
                (of_csv, (), 1, "no JSON row of minorder-batch: it is no JSON"),
                (row, ("--csv",), 1, "no CSV head of minorder-batch"),
                (of_csv + b"it,0\n", ("--csv",), 3, "no CSV row of minorder-batch: it has 2 cells, not 12"),
                (b"my notes", (), 1, "it is cut, and is no beginning of a JSON row that is missing"),
                (row + row[:-1], (), 2, "it is cut, and is no beginning of a JSON row that is missing")):
            self.refused(given, f"line {line}: {why}", *words, first)

    def refused(self, given, why, *words):
        out = self.put("rows", given)
        self.assertEqual(self.run_in(*words, "--resume", out), (3, f"minorder-batch: {out}: {why}\n"))
        self.assertEqual(self.content("rows"), given)

    def test_rows_that_no_run_writes(self):
        first = self.put("a.pla", MULTIPLEXER)
        row, of_csv = (json.loads(self.ended(first)[1]), self.ended("--csv", first)[1])
        end = "no file ends with the status "
        other = {"sifted_order": [1, 0, 2], "sifted_nodes": 4}
        for changed, why in (
                ({"status": False}, "status: False is no number"), ({"status": 0.0}, "status: 0.0 is no number"),
                *(({"status": it}, f"{end}{it} and a report") for it in (1, 3, 4)),
                ({"status": 5}, f"{end}5 and a report and no fault"),
                ({"fault": "Device"}, f"{end}0 and a report and the fault 'Device'"),
                ({"fault": ""}, f"{end}0 and a report and no fault"), ({"fault": None}, "a file and a fault are texts"),
                ({"more": 1}, "no row has the fields file, status, inputs, outputs, names, order, levels, node..."),
                ({"nodes": 10 ** 4000}, f"nodes: '1{'0' * 55}... is no number from 0 on"),
                ({"inputs": 3.0}, "inputs: 3.0 is no number from 0 on"), ({"levels": 3}, "levels: 3 is no list"),
                ({"inputs": 17}, "17 inputs and 1 outputs, where there are 1 to 16"),
                ({"outputs": 0}, "3 inputs and 0 outputs, where there are 1 to 16"),
                ({"names": ["a", "b"]}, "names: 2, where there are 3 inputs"), ({"names": ["a", "b", 3]}, "names: 3 is no name"),
                ({"names": ["a", "b", "c d"]}, "names: 'c d' is no name"), ({"names": ["a", "b", ""]}, "names: '' is no name"),
                ({"levels": [-1, 2, 2]}, "levels: '-1' is no number from 0 on"),
                ({"nodes": 1}, "levels that sum to 3, and 1 nodes"),
                ({"levels": [2, 1, 0]}, "levels: 2 nodes where level 0 has 1 at most"),
                ({"levels": [1, 0, 2, 0]}, "levels: 4, where there are 3 inputs"),
                ({"order": [2, 0, 0]}, "order 2 0 0: 0 is repeated"),
                ({"sifted_order": [0, 1]}, "sifted_order: 2, where there are 3 inputs"),
                ({"sifted_order": [1, 0, 2], "sifted_nodes": 2}, "nodes, sifted_nodes and file_order_nodes rise: 3, 2, 5"),
                ({**other, "file_order_nodes": 6}, "6 nodes, where diagrams have 5 at most"),
                ({**other, "sifted_nodes": 3}, "the order 1 0 2 has 3 nodes, too, and comes first"),
                ({**other, "sifted_order": row["order"]}, "both 3 and 4 nodes under the order 2 0 1"),
                ({**other, "sifted_order": [0, 1, 2]}, "both 4 and 5 nodes under the order 0 1 2")):
            given = json.dumps({**row, **changed}).encode() + b"\n"
            self.refused(given, f"line 1: no JSON row of minorder-batch: {why}", first)
        for status, fault in ((0, "Device"), (3, "Device"), (3, "line 1: Device"), (3, "line 03: DontCare"),
                              (3, "line 0: DontCare"), (4, "Device"), (5, "certificate: Device"), (5, "OutOfMemory")):
            given = json.dumps({"file": first, "status": status, "fault": fault}).encode() + b"\n"
            said = f"{end}{status} and no report{f' and the fault {fault!r}' if status else ''}"
            self.refused(given, f"line 1: no JSON row of minorder-batch: {said}", first)
        self.refused(b'{"file": "", "file": "", "status": 5, "fault": "Device"}\n',
                     "line 1: no JSON row of minorder-batch: a field stands twice", first)
        for number in (b"+3", b"03", b"3.0", b" 3", b"3_0", b"\xd9\xa3"):
            why = f"inputs: {shown(number.decode())} is no number from 0 on"
            given = of_csv.replace(b",3,", b",%b," % number, 1)
            self.refused(given, f"line 2: no CSV row of minorder-batch: {why}", "--csv", first)

    def test_rows_with_faults_that_runs_write(self):
        texts = "", ".i 2\n.o 1\n11 -\n", MULTIPLEXER, "#" * (1 << 24) + "\n"
        files = [self.put(f"{number}.pla", text) for number, text in enumerate(texts)]
        os.makedirs(f"{self.folder}/certificates/2.cert")
        for words in ((), ("--csv",)):
            words = *words, "--certificates", f"{self.folder}/certificates"
            status, wanted, _ = self.ended(*words, *files, "none.pla")
            out = self.put("rows", wanted)
            self.assertEqual((status, self.run_in(*words, "--resume", out, *files, "none.pla")), (1, (1, "")))
            self.assertEqual(self.content("rows"), wanted)

    def test_certificates_of_rows(self):
        first, place = self.put("a.pla", MULTIPLEXER), f"{self.folder}/a.cert"
        row = self.ended(first)[1]

        def fails(why):
            self.refused(row, f"line 1: {first!r}: its certificate {place} {why}", "--certificates", self.folder, first)

        fails("isn't there")
        os.mkfifo(place)
        fails("is no plain file")
        os.unlink(place)
        self.put("a.cert", "my notes\n")
        fails("is refused: line 1: BadLine")
        self.ended("--certificates", self.folder, self.put("a.pla", MULTIPLEXER.replace("11 1", "11 0")))
        fails("is another problem's")
        self.ended("--certificates", self.folder, self.put("a.pla", MULTIPLEXER))
        kept = self.content("a.cert")
        self.put("a.cert", kept.replace(b"pairs 0", b"pairs 1\n2 0"))
        fails("is another problem's")
        self.put("a.cert", kept)
        out = self.put("rows", row)
        self.assertEqual(self.run_in("--certificates", self.folder, "--resume", out, first), (0, ""))

    def test_files_that_are_no_place_for_rows(self):
        first = self.put("a.pla", MULTIPLEXER)
        empty = self.put("empty.cert", "")
        for words, said in (
                (("--resume", empty, first, empty), f"{empty}: it is one of the files that are read"),
                (("--list", empty, "--resume", empty, first), f"{empty}: it is one of the files that are read"),
                (("--certificates", self.folder, first, empty), f"certificates: {empty!r} is one of the files that are read"),
                (("--certificates", self.folder, "--resume", f"{self.folder}/a.cert", first),
                 f"{self.folder}/a.cert: it is the place of a certificate, too")):
            self.assertEqual(self.run_in(*words), (2, f"minorder-batch: {said}\n"))
        self.assertEqual(self.content("empty.cert"), b"")
        os.mkfifo(f"{self.folder}/pipe")
        for place in ("/dev/null", f"{self.folder}/pipe"):
            said = f"minorder-batch: {place}: no plain file, as --resume needs\n"
            self.assertEqual(self.run_in("--resume", place, first), (3, said))
        self.assertEqual(self.run_in("--resume", self.folder, first), (
            5, f"minorder-batch: {self.folder}: {os.strerror(errno.EISDIR)}\n"))

    def test_two_runs_at_once(self):
        first, out = self.put("a.pla", MULTIPLEXER), self.put("rows", "")
        with open(out) as file:
            fcntl.flock(file, fcntl.LOCK_EX)
            self.assertEqual(self.run_in("--resume", out, first), (
                3, f"minorder-batch: {out}: another run is writing to it\n"))
        self.assertEqual(self.run_in("--resume", out, first), (0, ""))

    def test_no_cluster(self):
        first = self.put("a.pla", MULTIPLEXER)
        with unittest.mock.patch.dict(sys.modules, {"distributed": None}):
            self.assertEqual(self.run_in("--dask", "tcp://127.0.0.1:1", first), (
                1, "minorder-batch: --dask: Dask isn't here (Debian's python3-distributed)\n"))
        self.assertEqual(self.run_in("--dask", "tcp://127.0.0.1:1", "--workers", "2", first)[0], 2)

    def test_a_scheduler_that_is_lost(self):
        client = unittest.mock.Mock(status="running")
        client.get_executor().submit.side_effect = lambda *_: concurrent.futures.Future()
        executor = _clusters._Watched(client, _threads.Threads(1))
        future = executor.submit(len, "abc")
        client.status = "closed"
        self.assertRaises(concurrent.futures.BrokenExecutor, future.result, timeout=30)
        self.assertRaises(concurrent.futures.BrokenExecutor, executor.submit, len, "abc")
        executor.end()

    def test_a_full_disk_leaves_whole_rows(self):
        files = self.random_files(20, 3)
        status, written, errors = self.ended(
            "--resume", "rows", *files, preexec_fn=lambda: resource.setrlimit(resource.RLIMIT_FSIZE, (1000, 1000)))
        self.assertEqual((status, errors.decode()), (5, f"minorder-batch: rows: {os.strerror(errno.EFBIG)}\n"))
        rows = self.content("rows")
        self.assertTrue(rows and rows.endswith(b"\n"))
        self.assertEqual(self.run_in("--resume", f"{self.folder}/rows", *files), (0, ""))
        self.assertEqual(self.content("rows"), self.ended(*files)[1])

    def test_a_certificate_that_cannot_be_written(self):
        files = self.random_files(3, 3)
        os.makedirs(f"{self.folder}/certificates/001.cert")
        status, written, _ = self.ended("--certificates", "certificates", *files)
        rows = [json.loads(it) for it in written.splitlines()]
        self.assertEqual((status, [it["status"] for it in rows]), (1, [0, 5, 0]))
        self.assertEqual(rows[1].pop("fault"), "certificate: Device")
        self.assertEqual({**rows[1], "status": 0}, json.loads(self.ended(files[1])[1]))
        self.assertEqual(sorted(os.listdir(f"{self.folder}/certificates")), ["000.cert", "001.cert", "002.cert"])


class Lines(InFolder):
    def test_a_signal_cuts_no_line(self):
        # a name in the report makes a row too long for a pipe to take at once
        name = "n" * 100000
        files = [self.put(f"{number}.pla", f".i 1\n.o 1\n.ilb {name}\n1 1\n") for number in range(20)]
        with self.process(*files, stdout=subprocess.PIPE) as process:
            select.select((process.stdout,), (), (), 60)
            time.sleep(0.3)
            process.send_signal(signal.SIGTERM)
            time.sleep(0.3)
            written = process.stdout.read()
        self.assertTrue(written.endswith(b"\n"))
        self.assertEqual({tuple(json.loads(it)["names"]) for it in written.splitlines()}, {(name,)})
        self.assertEqual(process.returncode, -signal.SIGTERM)

    def test_a_full_pipe_that_does_not_wait(self):
        reader, writer = os.pipe()
        os.set_blocking(writer, False)
        read = []
        process = self.process(*self.random_files(3, 3) * 400, stdout=writer)
        os.close(writer)
        time.sleep(1)
        with process, open(reader, "rb") as stream:
            read = stream.read().splitlines()
        self.assertEqual((process.returncode, len([json.loads(it) for it in read])), (0, 1200))

    def test_one_write_a_row(self):
        with open(self.put("rows", ""), "wb") as file, unittest.mock.patch("os.write", side_effect=os.write) as written:
            _writing.write_whole(file.fileno(), b"a row\n")
        self.assertEqual((written.call_count, self.content("rows")), (1, b"a row\n"))


class Bars(InFolder):
    def on_terminal(self, *words, end=None, term="xterm", **streams):
        """What is written to a terminal that is standard error, and the status."""
        above, terminal = pty.openpty()
        for name, to in streams.items():
            streams[name] = terminal if to == "terminal" else to
        process = self.process(*words, stderr=terminal, env={**ENVIRONMENT, "TERM": term}, **streams)
        os.close(terminal)
        written = b""
        with contextlib.suppress(OSError):
            while part := os.read(above, 4096):
                written += part
                if end and b"/" in written:
                    process.send_signal(end)
                    end = None
        os.close(above)
        with process:
            return process.wait(), written

    def test_where_there_is_a_bar(self):
        files = self.random_files(3, 3)
        status, written = self.on_terminal(*files, stdout=subprocess.DEVNULL)
        self.assertIn(b"0/3 files", written)
        self.assertEqual((status, written[-1:], written.split(b"\r")[-2].strip()), (0, b"\r", b""))
        status, written = self.on_terminal(*files, "--resume", "rows", stdout="terminal")
        self.assertIn(b"0/3 files", written)
        self.assertIn(b"3/3 files", self.on_terminal(*files, "--resume", "rows", stdout="terminal")[1])
        status, written = self.on_terminal(*files, stdout="terminal")
        self.assertEqual([json.loads(it)["status"] for it in written.splitlines()], [0, 0, 0])
        self.assertEqual(self.ended(*files)[2], b"")
        self.assertEqual(self.on_terminal(*files, stdout=subprocess.DEVNULL, term="dumb"), (0, b""))

    def test_a_signal_clears_it(self):
        hard = self.put("hard.pla", benchmarks.entry("random14_16").pla())
        status, written = self.on_terminal(*[hard] * 60, stdout=subprocess.DEVNULL, end=signal.SIGINT)
        self.assertEqual((status, written[-1:], written.split(b"\r")[-2].strip()), (-signal.SIGINT, b"\r", b""))

    def test_its_text(self):
        with unittest.mock.patch("time.monotonic", side_effect=[0, 0, 100, 3000]), unittest.mock.patch("os.write") as written:
            with unittest.mock.patch("os.get_terminal_size", return_value=os.terminal_size((80, 24))):
                bar = _progress.Bar(2, "files", 10, 4)
                bar.show()
                bar.step()
                bar.step()
        self.assertEqual([call.args[1] for call in written.call_args_list], [
            b"\r[########            ] 4/10 files",
            b"\r[##########          ] 5/10 files, 0:08:20 left",
            b"\r[############        ] 6/10 files, 1:40:00 left"])


if __name__ == "__main__":
    unittest.main()
