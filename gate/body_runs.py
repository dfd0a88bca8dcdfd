"""Runs of a test or a worked case on an unproved program with a wrong body: what it does otherwise.

`rt try` compiles the sources with checks, which takes a minute or two, and runs them in a folder of its own."""
import os
import re
import subprocess
import sys
import tempfile
from collections.abc import Iterator
from contextlib import contextmanager
from pathlib import Path

from edits import Fault, changed_texts

TOP = Path(__file__).resolve().parent.parent
sys.path.append(str(TOP / "build"))
from crates import listed  # noqa: E402
from preview import lay_out  # noqa: E402

CRATES = TOP / "crates"
DATA = CRATES / "worked_cases/data"
# a test has so long, and is taken not to end past it
SECONDS = 300
LATE = "did not end within the time limit"


@contextmanager
def changed_sources(body: Path | None) -> Iterator[Path]:
    """A folder with the sources of all crates, changed by a wrong body, while the context lasts."""
    with tempfile.TemporaryDirectory(prefix="wrong-body-") as made:
        folder = Path(made)
        lay_out(str(TOP), listed(), made)
        for file, text in (changed_texts(body, CRATES) if body else {}).items():
            (folder / "crates" / file).write_text(text, encoding="utf-8")
        yield folder


def answer(wanted: str, folder: Path, crate: str, words: list[str]) -> re.Match[str]:
    """The wanted part of what `rt try` says of a crate; all that it leaves lies in the folder."""
    said = subprocess.run(
        ["rt", "try", "--seconds", str(SECONDS), *words], cwd=folder / "crates" / crate, check=False,
        env={**os.environ, "TMPDIR": str(folder)}, stdin=subprocess.DEVNULL, stdout=subprocess.PIPE, stderr=subprocess.STDOUT,
        text=True, errors="replace").stdout
    found = re.search(wanted, said, re.M)
    if not found:
        raise Fault(f"gave no answer: {said.strip()[:500]}")
    return found


def text_of_case(file: str, case: str) -> str:
    """The lines of a worked case."""
    text = (DATA / file).read_text(encoding="utf-8") if (DATA / file).is_file() else ""
    found = re.search(rf"^case {re.escape(case)}\n(?:(?!case ).*\n)*", text, re.M)
    if not found:
        raise Fault("is no worked case")
    return found[0]


def difference_in_case(file: str, case: str, body: Path) -> str | None:
    """What a worked case's calls do otherwise on programs with a wrong body; None if nothing."""
    text = text_of_case(file, case)
    with changed_sources(body) as folder:
        alone = folder / "alone.cases"
        alone.write_text(text, encoding="utf-8")
        files = {word: DATA / word for word in text.split() if (DATA / word).is_file()} | {alone.name: alone}
        data = [word for name, path in files.items() for word in ("--data", f"{name}={path}")]
        wanted = rf"^(?:{re.escape(case)}: (.* differs: .*)|\d+ calls, 0 differ)$"
        return answer(wanted, folder, "worked_cases", [*data, "--", ".", alone.name])[1]


def leave_one_test(crate: Path, function: str) -> None:
    """Removes all tests of a crate but one."""
    other = re.compile(rf"^#\[test\]\n(?!fn {re.escape(function)}\()(?:.*\n)*?\}}\n", re.M)
    for file in crate.glob("src/**/*.rt"):
        file.write_text(other.sub("", file.read_text(encoding="utf-8")), encoding="utf-8")


def failure_of_test(crate: str, function: str, body: Path | None) -> str | None:
    """How a test fails on code with a wrong body; None if it passes."""
    with changed_sources(body) as folder:
        leave_one_test(folder / "crates" / crate, function)
        ended = answer(rf"^test \S*\b{re.escape(function)} \.\.\. (ok|FAILED)\n?(.*)", folder, crate, ["--test"])
    return None if ended[1] == "ok" else ended[2].strip()


def difference_in_test(crate: str, function: str, body: Path) -> str | None:
    """How a test fails with a wrong body; None if it passes. One that doesn't end then is run without the body, too."""
    failure = failure_of_test(crate, function, body)
    if not failure or LATE not in failure:
        return failure
    if failure_of_test(crate, function, None):
        raise Fault(f"doesn't pass in {SECONDS} seconds without the body either")
    return f"doesn't end in {SECONDS} seconds, in which it passes without the body"
