"""What .ci/run says of the checker proved in Coq, where its commands succeed, fail, or aren't there."""
import pathlib
import re
import subprocess
import tempfile
import unittest

RUN = (pathlib.Path(__file__).resolve().parent.parent / ".ci/run").read_text()
TOOLS, SCRIPTS = ("coqc", "ocamlfind", "make"), ("coq/test.py", "coq/judge.py")
INSTALLED = ("made/prefix/bin/minorder-functions", "made/prefix/bin/minorder-batch")


def function(name: str) -> str:
    found = re.search(rf"^{name}\(\) {{\n.*?^}}\n", RUN, re.MULTILINE | re.DOTALL)
    assert found is not None, name
    return found.group()


class Coq(unittest.TestCase):
    def run_with(self, tools: tuple[str, ...] = TOOLS, failing: str = "") -> tuple[int, str]:
        """The status and the text of the check, with commands that print their names and with one that fails."""
        with tempfile.TemporaryDirectory() as folder:
            for command in (*(f"tools/{tool}" for tool in tools), *SCRIPTS, *INSTALLED):
                path = pathlib.Path(folder, command)
                path.parent.mkdir(parents=True, exist_ok=True)
                path.write_text(f"#!/bin/sh\necho {path.name}\n" + ("exit 1\n" if path.name == failing else ""))
                path.chmod(0o755)
            pathlib.Path(folder, "tools/cat").symlink_to("/bin/cat")
            script = "set -euo pipefail\nmade=made checks=()\n" + "".join(map(function, ("beside", "all_well", "coq")))
            ran = subprocess.run(["/bin/bash", "-c", f"{script}beside coq coq\nall_well"], cwd=folder, text=True,
                                 env={"PATH": f"{folder}/tools"}, capture_output=True)
            return ran.returncode, ran.stdout

    def test_all_is_well(self) -> None:
        self.assertEqual(self.run_with(), (0, "make\nmake\ntest.py\njudge.py\n"))

    def test_a_failure(self) -> None:
        for failing in ("make", "test.py", "judge.py", "minorder-functions", "minorder-batch"):
            status, said = self.run_with(failing=failing)
            self.assertEqual((status, said.splitlines()[0]), (1, "FAILED: coq"), failing)

    def test_no_coq(self) -> None:
        for tools in (("coqc", "make"), ("ocamlfind", "make")):
            status, said = self.run_with(tools)
            self.assertEqual((status, said.split(":")[0]), (0, "left out"), tools)


if __name__ == "__main__":
    unittest.main()
