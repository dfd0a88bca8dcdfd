"""Tests of what a first build shows, with a stand-in for rt: python3 -m unittest discover -s build/tests"""
import io
import os
import pathlib
import shutil
import tempfile
import time
import unittest
import unittest.mock

from repository import StandIn

import calls
import crates
import plan
import preview
from progress import Report

BARE = "/usr/bin:/bin"
IS_BARE = shutil.which("python3", path=BARE) and not shutil.which("rt", path=BARE)
HAS_ROOM = plan.processors() > 1 and plan.free_gigabytes() >= plan.GIGABYTES_A_JOB + preview.GIGABYTES


class Words(unittest.TestCase):
    def assert_passed(self, words, wanted, files, makes_out=False):
        self.assertEqual(preview.passed_on(words.split()), (wanted.split(), files, makes_out))

    def test_files_have_the_names_of_copies(self):
        self.assert_passed("a.pla", "1/a.pla", {"1/a.pla": "a.pla"})
        self.assert_passed("--count --above 1<2 /x/a=b.pla", "--count --above 1<2 1/a_b.pla", {"1/a_b.pla": "/x/a=b.pla"})
        self.assert_passed("../a x/a", "1/a 2/a", {"1/a": "../a", "2/a": "x/a"})
        self.assert_passed("--workers=2 -- --count", "--workers=2 -- 1/--count", {"1/--count": "--count"})
        self.assert_passed("--workers 2 -", "--workers 2 1/-", {"1/-": "-"})

    def test_out_is_made_elsewhere(self):
        cases = {"--cert /x/o a": "--cert certificate 1/a", "a --cert=../o": "1/a --cert=certificate",
                 "--cert - a": "--cert certificate 1/a", "--cert o --cert=o a": "--cert certificate --cert=certificate 1/a"}
        for words, wanted in cases.items():
            self.assert_passed(words, wanted, {"1/a": "a"}, True)

    def test_out_that_is_the_file_stays_so(self):
        with tempfile.TemporaryDirectory() as room:
            pathlib.Path(room, "a").touch()
            passed = preview.passed_on([f"--cert={room}/../{os.path.basename(room)}/a", f"{room}/a"])
            self.assertEqual(passed.words, ["--cert=1/a", "1/a"])

    def test_words_that_are_refused_stay_so(self):
        self.assert_passed("--cert", "--cert", {})
        self.assert_passed("--cert= a", "--cert= 1/a", {"1/a": "a"})
        self.assert_passed("--cert --count a", "--cert --count 1/a", {"1/a": "a"})
        self.assert_passed("-c o --bogus", "-c 1/o --bogus", {"1/o": "o"})
        self.assert_passed("\udcff", "\udcff", {})


@unittest.mock.patch.dict(os.environ, {preview.SWITCH: ""})
class Obstacles(unittest.TestCase):
    def test_room(self):
        passed = preview.passed_on(["a"])
        self.assertIsNone(preview.obstacle(passed, 2, 6, 3))
        self.assertIn("processor", preview.obstacle(passed, 1, 6, 3))
        self.assertIn("memory", preview.obstacle(passed, 2, 5, 3))
        self.assertEqual(preview.obstacle(preview.passed_on(["--help"]), 2, 6, 3), "")

    def test_one_that_cannot_begin(self):
        said = []
        passed = preview.passed_on(["a"])
        with preview.beside("/nowhere", "a", {}, passed, lambda *lines: said.extend(lines)) as answer:
            self.assertIsNone(answer)
        self.assertEqual(said, ["no unproved answer comes: No such file or directory"])

    def test_files_that_are_read_once(self):
        with tempfile.TemporaryDirectory() as room:
            os.mkfifo(f"{room}/pipe")
            self.assertFalse(preview.can_be_copied(f"{room}/pipe"))
            self.assertTrue(preview.can_be_copied(f"{room}/missing"))
            self.assertTrue(preview.can_be_copied(room))
            with open(f"{room}/large", "w") as it:
                it.truncate(preview.MOST_BYTES + 1)
            self.assertFalse(preview.can_be_copied(f"{room}/large"))


class Answers(unittest.TestCase):
    def told(self, answer, said, status, words=("a",)):
        return preview.lines_of(preview.passed_on(words), answer, said, status)

    def test_answers(self):
        ended = "checked: ended status={0}\nraces: not looked for\nrun=ended status={0} runners=1 races=unchecked proved=no\n"
        title = preview.UNPROVED
        self.assertEqual(self.told("nodes: 1\n", ended.format(0), 0), (True, [f"{title}:", "  nodes: 1"]))
        self.assertEqual(self.told("invalid\n", ended.format(1), 1), (True, [f"{title}; it ended with status 1:", "  invalid"]))
        self.assertEqual(self.told("", "minorder: line 3: BadCube\n" + ended.format(3), 3),
                         (True, [f"{title}; it ended with status 3: minorder: line 3: BadCube"]))
        self.assertIn("OUT", self.told("nodes: 1\n", ended.format(0), 0, ["--cert", "o", "a"])[1][0])

    def test_no_answers(self):
        told = self.told("", "checked: fault: an index is out of bounds\nrun=fault proved=no\n", 4)
        self.assertEqual(told, (False, ["no unproved answer comes: fault: an index is out of bounds"]))
        told = self.told("", "error: no main\nrun=none proved=no\n", 1)
        self.assertEqual(told, (False, ["no unproved answer comes: error: no main"]))
        self.assertEqual(self.told("", "", 2), (False, ["no unproved answer comes: rt try ended with status 2"]))


class Estimates(unittest.TestCase):
    uses = {"base": [], "long": ["base"], "short": ["base"], "program": ["long", "short"]}
    seconds = {"base": 30, "long": 90, "short": 20, "program": 10}

    def left(self, processors=4, done={}, running={}):
        """The seconds left, where `done` has the work of proofs that have ended, and `running` how long others have taken."""
        report = Report("program", self.seconds, self.uses, processors)
        with unittest.mock.patch("time.monotonic", lambda: 1000):
            report.done.update(done)
            report.running.update({it: (1000 - passed, 1) for it, passed in running.items()})
            return report.seconds_left()

    def test_the_longest_chain_or_all(self):
        self.assertAlmostEqual(self.left(), (30 + 90 + 10) / 1.5)
        self.assertAlmostEqual(self.left(1), 150 * 1.125)

    def test_it_follows_the_machine(self):
        self.assertAlmostEqual(self.left(done={"base": 60}), 2 * (90 + 10) / 1.5)
        self.assertAlmostEqual(self.left(done={"base": 60}, running={"long": 100}), (80 + 20) / 1.5)
        self.assertEqual(self.left(done=self.seconds), 0)

    def test_what_was_kept_says_nothing_of_the_machine(self):
        self.assertAlmostEqual(self.left(done={"base": 1}), (90 + 10) / 1.5)

    def test_a_build_that_begins_again(self):
        report = Report("program", self.seconds, self.uses, 4)
        with unittest.mock.patch("sys.stderr", io.StringIO()) as said:
            for _ in range(2):
                for crate in ("base", "short"):
                    report.start_crate(crate, 1)
                for crate in ("base", "short"):
                    report.end_crate(crate, 1)
                report.begin_again("again")
        self.assertEqual(said.getvalue().count("base is proved"), 2)

    def test_the_first_build(self):
        seconds = crates.seconds_of(crates.all_of("minorder"))
        left = Report("minorder", seconds, crates.named(), 4).seconds_left()
        self.assertTrue(5 * 60 < left < 30 * 60, left)


class Plans(unittest.TestCase):
    uses = {"base": [], "short": [], "middle": ["base"], "program": ["middle", "short"]}
    seconds = {"base": 90, "short": 20, "middle": 90}

    def jobs(self, processors, answer, done=()):
        """The crates that begin at once behind those that are done, with their jobs."""
        room = {"processors": lambda: processors, "free_gigabytes": lambda: 20}
        with unittest.mock.patch.multiple(plan, **room):
            made = plan.Plan(self.seconds, self.uses, answer)
            made.left = [it for it in made.left if it not in done]
            while made.start_next(done):
                pass
        return made.running

    def test_the_answer_has_its_processors(self):
        answering = unittest.mock.Mock(is_running=lambda: True)
        self.assertEqual(self.jobs(4, answering), {"base": 2})
        self.assertEqual(self.jobs(5, answering), {"base": 2, "short": 1})
        self.assertEqual(self.jobs(2, answering), {"base": 2})
        self.assertEqual(self.jobs(2, answering, ["base", "middle"]), {"short": 2})

    def test_a_proof_without_an_answer_has_all(self):
        over = unittest.mock.Mock(is_running=lambda: False)
        for answer in (None, over):
            self.assertEqual(self.jobs(4, answer), {"base": 3, "short": 1})
            self.assertEqual(self.jobs(2, answer), {"base": 2, "short": 1})


class Builds(StandIn):
    @unittest.skipUnless(HAS_ROOM, "too little memory or one processor")
    def test_an_answer_comes_before_the_proof(self):
        with self.begin("--cert", "out", "a.pla", PROOF_SECONDS="1") as ran:
            out, said = ran.communicate()
        self.assertEqual((out, ran.returncode), ("proved: --cert out a.pla\n", 7))
        self.assertIn("minorder:   words: --cert certificate 1/a.pla\n", said)
        self.assertLess(said.index("minorder: not proved yet"), said.index("minorder is proved"))
        self.assertIn("left: base is proved", said)
        self.assert_clean()
        with self.begin("a.pla") as ran:
            self.assertEqual(ran.communicate(), ("proved: a.pla\n", ""))

    def test_closed_streams_stay_closed(self):
        for closed in ((0,), (1,), (2,), (0, 1, 2)):
            shutil.rmtree(self.top / "crates/minorder/out", ignore_errors=True)
            with self.subTest(closed=closed), self.begin("a.pla", closed=closed) as ran:
                out, said = ran.communicate()
                self.assertEqual((out, ran.returncode), ("" if 1 in closed else "proved: a.pla\n", 7))
                self.assertEqual("minorder is proved" in said, 2 not in closed)
                self.assert_clean()

    def test_a_full_standard_error_ends_no_build(self):
        with self.begin("a.pla", through=("bash", "-c", '"$@" 2> /dev/full', "")) as ran:
            self.assertEqual((*ran.communicate(), ran.returncode), ("proved: a.pla\n", "", 7))
        self.assert_clean()

    @unittest.skipUnless(IS_BARE, "the kit is beside Debian's Python, or this isn't there")
    def test_without_the_kit_one_line_says_so(self):
        with self.begin("a.pla", PATH=BARE) as ran:
            out, said = ran.communicate()
        self.assertEqual((out, said.count("\n"), ran.returncode), ("", 1, 127))
        self.assertTrue(said.startswith("minorder: not found: rt (the Rattle kit); a release needs none"), said)
        self.assert_clean()

    def test_none_is_tried_where_it_is_turned_off(self):
        with self.begin("a.pla", MINORDER_PREVIEW="no", TRY_SECONDS="60") as ran:
            self.assertNotIn("unproved", ran.communicate()[1])
        self.assert_clean()

    @unittest.skipUnless(HAS_ROOM, "too little memory or one processor")
    def test_a_proof_that_ends_first_ends_the_try(self):
        with self.begin("a.pla", TRY_SECONDS="60") as ran:
            out, said = ran.communicate()
        self.assertEqual((out, "not proved yet" in said), ("proved: a.pla\n", False))
        self.assert_clean()

    @unittest.skipUnless(HAS_ROOM, "too little memory or one processor")
    def test_a_refused_proof_leaves_the_answer_unproved(self):
        with self.begin("a.pla", PROOF_SECONDS="1", REFUSED="minorder", TRY_STATUS="3") as ran:
            out, said = ran.communicate()
        self.assertEqual((out, ran.returncode), ("", 1))
        self.assertIn("it ended with status 3: minorder: line 3: BadCube\n", said)
        self.assertTrue(said.endswith("error: not proved\n\nminorder: the answer above stands unproved\n"), said)
        self.assert_clean()

    def test_an_interrupt_ends_both(self):
        phases = {"try": {"TRY_SECONDS": "60", "PROOF_SECONDS": "60"}, "proof": {"PROOF_SECONDS": "60"}}
        for phase, given in phases.items():
            for number in calls.SIGNALS:
                with self.subTest(phase=phase, signal=number), self.begin("--cert", "out", "a.pla", **given) as ran:
                    time.sleep(1.5)
                    ran.send_signal(number)
                    ran.communicate(timeout=20)
                    self.assertEqual(ran.returncode, -number)
                    self.assert_clean()
