"""What wrong_bodies.py says of lists, edits and bodies, on a repository of one crate."""
import tempfile
import unittest
import unittest.mock
from pathlib import Path

import body_runs
import edits
import wrong_bodies

CODE = """fn one() -> u8 {
    1 // the least
}
"""
TESTS = """#[test]
fn is_one() {
    assert!(one() == 1);
}

#[test]
fn is_small() {
    assert!(one() < 2);
}
"""
CASES = """case first
call minorder a.pla

case second
call minorder b.pla
"""
BODY = "file: {}src/lib.rt\nold:     1\nnew:     2\n"
ROWS = """wrong_body,does,shown_by,place
two,gives 2,edit,one
two_in_tests,gives 2,test,one_tests/is_one
two_in_cases,gives 2,case,a.cases/second
many,has a bound,bound,one/BOUND
"""


class Repository(unittest.TestCase):
    def setUp(self) -> None:
        room = tempfile.TemporaryDirectory()
        self.addCleanup(room.cleanup)
        self.top = Path(room.name)
        for name, text in {
                "crates/one/src/lib.rt": CODE, "crates/one_tests/src/lib.rt": TESTS, "gate/wrong_bodies.csv": ROWS,
                "crates/one/must-fail/two.edit": BODY.format(""), "gate/bodies/one_tests/two_in_tests.body": BODY.format("one/"),
                "gate/bodies/a.cases/two_in_cases.body": BODY.format("one/"), "crates/worked_cases/args": "a.cases\n",
                "crates/worked_cases/data/a.cases": CASES}.items():
            self.write(name, text)
        crates, gate = self.top / "crates", self.top / "gate"
        for module, name, place in (
                (wrong_bodies, "TOP", self.top), (wrong_bodies, "CRATES", crates), (wrong_bodies, "BODIES", gate / "bodies"),
                (wrong_bodies, "LIST", gate / "wrong_bodies.csv"), (body_runs, "DATA", crates / "worked_cases/data")):
            patch = unittest.mock.patch.object(module, name, place)
            patch.start()
            self.addCleanup(patch.stop)

    def write(self, name: str, text: str) -> None:
        (self.top / name).parent.mkdir(parents=True, exist_ok=True)
        (self.top / name).write_text(text)

    def faults(self) -> list[str]:
        crates, bodies = self.top / "crates", self.top / "gate/bodies"
        return list(wrong_bodies.faults_of_list(
            wrong_bodies.rows(), sorted(crates.glob("*/must-fail/*.edit")), sorted(bodies.glob("*/*.body"))))

    def test_what_is_there(self) -> None:
        self.assertEqual(self.faults(), [])

    def test_what_is_not_there(self) -> None:
        self.write("gate/wrong_bodies.csv", ROWS.replace("edit,one", "edit,two").replace("is_one", "is_two")
                   .replace("/second", "/third").replace("one/BOUND", "one/least"))
        self.write("gate/bodies/one_tests/other.body", BODY.format("one/"))
        self.assertEqual(self.faults(), [
            "two: edit two is not there", "two_in_tests: test one_tests/is_two is no test",
            "two_in_cases: case a.cases/third is no worked case", "many: bound one/least is a bound that the crate has",
            "gate/bodies/one_tests/other.body is no row's"])

    def test_a_faulty_line(self) -> None:
        self.write("gate/wrong_bodies.csv", ROWS + "more,gives 3,proof,one\n")
        with self.assertRaisesRegex(SystemExit, "^gate/wrong_bodies.csv, line 6: 'proof' is not a valid ShownBy$"):
            wrong_bodies.rows()

    def test_edits(self) -> None:
        edit, folder = self.top / "crates/one/must-fail/two.edit", self.top / "crates/one"
        self.assertEqual(edits.changed_texts(edit, folder), {Path("src/lib.rt"): CODE.replace("    1", "    2")})
        wrong = {
            "file: src/none.rt\n": "changes src/none.rt, which is no file of code",
            "old: 1\nnew: 2\n": "names no file before its first text",
            "file: src/lib.rt\nold: 3\nnew: 2\n": "asks for a text that src/lib.rt has 0 times: 3",
            "file: src/lib.rt\nold: least\nnew: most\n": "changes no code",
        }
        for text, fault in wrong.items():
            edit.write_text(text)
            with self.subTest(text), self.assertRaisesRegex(edits.Fault, f"^{fault}$"):
                edits.changed_texts(edit, folder)

    def test_one_case_and_one_test_alone(self) -> None:
        self.assertEqual(body_runs.text_of_case("a.cases", "first"), "case first\ncall minorder a.pla\n\n")
        body_runs.leave_one_test(self.top / "crates/one_tests", "is_small")
        self.assertEqual((self.top / "crates/one_tests/src/lib.rt").read_text(), TESTS[TESTS.index("\n#[test]\nfn is_small"):])
