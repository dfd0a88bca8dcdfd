#!/usr/bin/env python3
"""Tries ordercheck-coq, and compares it with the ordercheck in the folder BIN, or the one that the repository has built:

- the worked cases of crates/worked_cases/data, whose answers are expected there;
- certificates in which each word of each line is changed, and each line is left out, doubled or cut;
- COUNT random files and certificates, most of them with a line edited or some bytes damaged;
- texts at their limits on a stack of 8 MB, files that can't be read, memory that is refused; the theorems' axioms;
- prove.sh, and judge.py on a table of three functions."""
import argparse
import collections
import functools
import os
import pathlib
import random
import re
import resource
import shutil
import subprocess
import sys
import tempfile
from collections.abc import Callable, Iterator

HERE = pathlib.Path(__file__).resolve().parent
TOP = HERE.parent
DATA = TOP / "crates/worked_cases/data"
sys.path += [str(TOP / "random_tests"), str(TOP / "scripts")]
import check  # type: ignore[import]  # noqa: E402
import plain  # type: ignore[import]  # noqa: E402
import random_texts  # type: ignore[import]  # noqa: E402
from worked_cases import Case, blocks_of  # type: ignore[import]  # noqa: E402

CHECKER, MEGABYTE = HERE / "ordercheck-coq", 1 << 20
# status, standard output, and standard error without the program's name
Answer = tuple[int, str, str]
# words for which the text is the program's own
OWN = {"--help", "--version", "-V"}


def answer_of(program: pathlib.Path, *words: object) -> Answer:
    ran = subprocess.run([program, *map(str, words)], capture_output=True, text=True, errors="replace")
    if ran.returncode == 2 or not OWN.isdisjoint(words):
        return ran.returncode, "", ""
    return ran.returncode, ran.stdout, ran.stderr.replace(f"{program.name}: ", "", 1)


def python_answer(file: pathlib.Path, certificate: pathlib.Path) -> Answer:
    status, line = check.judged(file.read_bytes, certificate.read_bytes)
    return (status, f"{line}\n", "") if status < 2 else (status, "", f"{line}\n")


class Comparison:
    """Counts what was compared, and stops at the first answer that isn't the expected one."""

    def __init__(self, expected: Callable[..., Answer]) -> None:
        self.expected, self.seen = expected, collections.Counter[str]()

    def same(self, expected: Answer, *words: object) -> None:
        found = answer_of(CHECKER, *words)
        if found != expected:
            sys.exit(f"{' '.join(map(str, words))} in {os.getcwd()}: ordercheck-coq answers {found}, expected is {expected}")
        verdict = re.match(r"valid|invalid \w+", found[1])
        self.seen[verdict.group() if verdict else f"status {found[0]}"] += 1

    def compare(self, file: pathlib.Path, certificate: pathlib.Path) -> None:
        self.same(self.expected(file, certificate), file, certificate)


# ---- worked cases

def expected_of(case: Case) -> Answer:
    texts = {name: "".join(f"{line[1:]}\n" for line in lines if line[:1] == "|") for name, lines in case.texts.items()}
    return case.status, texts.get("output", ""), texts.get("errors", "").split(": ", 1)[-1]


def worked(comparison: Comparison) -> None:
    """The calls of ordercheck; and the files that minorder refuses, of which ordercheck says the same."""
    for path in sorted(pathlib.Path(".").glob("*.cases")):
        for case in map(Case, blocks_of(path.read_text())[1:]):
            status, output, errors = expected_of(case)
            for length in case.lengths or [None]:
                files = {name: content[:length] for name, content in case.files(".").items()}
                for name, content in files.items():
                    pathlib.Path(name).write_bytes(content)
                for call in case.calls:
                    program, words = call[0], call[1:]
                    if program == "ordercheck":
                        asked = status == 2 or not OWN.isdisjoint(words)
                        comparison.same((status, "", "") if asked else (status, output, errors), *words)
                    elif status == 3 and "--cert" not in words:
                        comparison.same((3, "", errors), words[-1], "multiplexer.cert")
                for name in files:
                    os.remove(name)


# ---- damaged texts

def changed(text: str) -> Iterator[str]:
    """Each word of each line changed, and each line left out, doubled, cut, or exchanged with the next one."""
    lines = text.split("\n")
    for at, line in enumerate(lines):
        words = line.split(" ")
        for place, word in enumerate(words):
            others = ["", "x", f"0{word}", f"{word}0"]
            others += [str(int(word) + step) for step in (-1, 1) if word.isdigit()]
            others += [f"{int(word, 16) ^ 1:04x}"] if len(word) == 4 and word.isdigit() else []
            for other in others:
                yield "\n".join([*lines[:at], " ".join([*words[:place], other, *words[place + 1:]]), *lines[at + 1:]])
        damaged: list[list[str]] = [[], [line, line], [f"{line} "]]
        for some in damaged:
            yield "\n".join([*lines[:at], *some, *lines[at + 1:]])
        yield "\n".join(lines[:at] + lines[at:at + 2][::-1] + lines[at + 2:])
        yield "\n".join(lines[:at + 1])


def fields(comparison: Comparison) -> None:
    for pla, certificate in (("multiplexer.pla", "multiplexer.cert"), ("multiplexer.pla", "multiplexer_pair.cert"),
                             ("examples/mux2.pla", "examples/mux2.cert")):
        for text in changed(pathlib.Path(certificate).read_text()):
            pathlib.Path("it.cert").write_text(text)
            comparison.compare(pathlib.Path(pla), pathlib.Path("it.cert"))
        for text in changed(pathlib.Path(pla).read_text()):
            pathlib.Path("it.pla").write_text(text)
            comparison.compare(pathlib.Path("it.pla"), pathlib.Path(certificate))


def random_ones(comparison: Comparison, count: int) -> None:
    files, pla, certificate = random_texts.Files(random.Random(1986)), pathlib.Path("it.pla"), pathlib.Path("it.cert")
    while count:
        pla.write_bytes(files.pla())
        try:
            cover = plain.cover_of(pla.read_bytes())
        except (plain.Fault, NotImplementedError):
            certificate.write_bytes(pathlib.Path("multiplexer.cert").read_bytes())
            comparison.compare(pla, certificate)
            continue
        if cover.inputs <= 6:
            text = files.made(cover, plain.Functions(cover))
            for way in (bytes, files.edited, files.damaged):
                certificate.write_bytes(way(text))
                comparison.compare(pla, certificate)
            pla.write_bytes(files.damaged(pla.read_bytes()))
            certificate.write_bytes(text)
            comparison.compare(pla, certificate)
            count -= 1


# ---- limits

def conjunction(inputs: int) -> str:
    """The certificate of the conjunction of all inputs, which lists all sets."""
    cells = [f"{mask:04x} {bin(mask).count('1')}" for mask in range((1 << inputs) - 1)]
    order, levels = " ".join(map(str, range(inputs))), " ".join("1" * inputs)
    head = ["bddorder-certificate 2", f"inputs {inputs}", "outputs 1", f"order {order}", f"levels {levels}", f"total {inputs}"]
    return "\n".join([*head, "pairs 0", f"cells {len(cells)}", *cells, "end", ""])


def limits(comparison: Comparison) -> None:
    pla, certificate = pathlib.Path("it.pla"), pathlib.Path("it.cert")
    head, good = b".i 3\n.o 1\n", pathlib.Path("multiplexer.cert").read_bytes()
    whole, rest = 16 * MEGABYTE - len(head), MEGABYTE - len(good)
    certificate.write_bytes(good)
    for content, errors in ((b"\n" * whole, ""), (b"\n" * (whole + 1), "TooLong"), (b"x" * whole, "line 3: BadInputChar"),
                            (b"1-- 1\n" * (whole // 6), ""), (b".p " + b"1" * MEGABYTE, "line 3: BadNumber")):
        pla.write_bytes(head + content)
        comparison.same((3, "", f"{errors}\n") if errors else (1, "invalid Levels\n", ""), pla, certificate)
    for inputs, terms in ((2, 3_000_000), (16, 1)):
        pla.write_bytes(b".i %d\n.o 1\n" % inputs + (b"1" * inputs + b" 1\n") * terms)
        certificate.write_text(conjunction(inputs))
        comparison.same((0, f"valid {inputs}\n", ""), pla, certificate)
    pla.write_bytes(pathlib.Path("multiplexer.pla").read_bytes())
    for content, errors in ((good + b"\n" * rest, " line 14: TrailingText"), (good + b"\n" * (rest + 1), ": TooLong"),
                            (b"\n" * MEGABYTE, " line 1: BadLine"), (b" " * MEGABYTE, " line 1: MissingLine"),
                            (good.replace(b"total 3", b"total " + b"3" * rest), " line 6: BadNumber")):
        certificate.write_bytes(content)
        comparison.same((3, "", f"certificate{errors}\n"), pla, certificate)
    certificate.write_bytes(good)
    for words in (("it.pla", "."), (".", "it.cert"), ("", "it.cert"), ("-", "it.cert"), ("--", "it.pla", "none")):
        comparison.same((5, "", "Device\n"), *words)
    for words in (("-x", "it.cert"), ("it.pla", "it.cert", "it.cert"), ("it.pla",)):
        comparison.same((2, "", ""), *words)
    for kilobytes in (8_000, 24_000):
        script = f"ulimit -v {kilobytes}; exec {CHECKER} {pla} {certificate}"
        ran = subprocess.run(["sh", "-c", script], capture_output=True, text=True)
        assert (ran.returncode, ran.stderr) == (4, "ordercheck-coq: OutOfMemory\n"), ran
    with open("/dev/full", "w") as full:
        assert subprocess.run([CHECKER, pla, certificate], stdout=full, stderr=subprocess.DEVNULL).returncode == 5


def proofs() -> None:
    axioms = set((HERE / "assumptions.txt").read_text().splitlines())
    assert axioms == {"Closed under the global context"}, axioms
    pla = pathlib.Path("it.pla")
    content = pathlib.Path("multiplexer.pla").read_bytes()
    pla.write_bytes(content.replace(b"\n", b"\r\n").rstrip(b"\r\n") + b" # \"(*\0\xc3" + b"\xa9\"" * 30_000)
    for certificate, nodes, order, others in (
            ("multiplexer", 3, "2 0 1", "none has"),
            ("multiplexer_pair", 4, "0 2 1", "none under an order that keeps the pairs of the certificate has")):
        said = subprocess.run([HERE / "prove.sh", pla, f"{certificate}.cert"], capture_output=True, text=True, check=True).stdout
        assert said == (f"this file's functions have an ordered diagram of {nodes} nodes under the order {order}, "
                        f"and {others} fewer\n"), said
    for status, folder, words in (
            (1, ".", "parity.pla multiplexer.cert"), (2, ".", "parity.pla"), (3, ".", "parity.pla parity.pla"),
            (5, ".", "none multiplexer.cert"), (5, ".", "parity.pla ."), (6, "none", "multiplexer.pla multiplexer.cert")):
        ran = subprocess.run(["env", f"TMPDIR={folder}", HERE / "prove.sh", *words.split()], capture_output=True)
        assert ran.returncode == status, (words, ran)


def judging() -> None:
    """judge.py beside a table of three functions of the worked cases."""
    for name in ("judging/coq", "judging/optima"):
        os.makedirs(name)
    for path in (HERE / "judge.py", CHECKER):
        shutil.copy(path, "judging/coq")
    table, judged = pathlib.Path("judging/optima/optima.csv"), pathlib.Path("judging/optima/judged_by_coq.csv")
    unfinished = pathlib.Path("judging/coq/judged.unfinished")
    head, *rows = (TOP / "optima/optima.csv").read_text().splitlines()[:4]

    def judge(status: int, words: str) -> str:
        ran = subprocess.run(["judging/coq/judge.py", *words.split()], capture_output=True, text=True)
        assert ran.returncode == status, (words, ran)
        return ran.stdout

    table.write_text("\n".join([head, *rows]).replace(",8,7,7,", ",8,7,6,"))
    judged.write_text("before\n")
    for status, words in ((0, "--help"), (2, ""), (2, "optima x"), (1, "examples"), (1, "optima --jobs 2")):
        judge(status, words)
        assert judged.read_text() == "before\n", words
    table.write_text("\n".join([head, *rows]))
    judge(0, "optima")
    first, *lines = judged.read_text().splitlines()
    assert [line.split(",")[:3:2] for line in lines] == [["hwb4", "valid 7"], ["hwb5", "valid 14"], ["hwb6", "valid 21"]], lines
    assert judge(0, "optima 5").startswith("2 certificates") and not unfinished.exists()
    unfinished.write_text("\n".join([first, lines[1].rsplit(",", 1)[0] + ",77.0", ""]))
    judge(0, "optima")
    assert [",77.0" in line for line in judged.read_text().splitlines()] == [False, False, True, False]
    unfinished.write_text(judged.read_text())
    os.utime(unfinished, (0, 0))
    judge(0, "optima")
    assert ",77.0" not in judged.read_text()


def main() -> None:
    given = argparse.ArgumentParser(description=__doc__, formatter_class=argparse.RawDescriptionHelpFormatter)
    given.add_argument("--count", type=int, default=500, help="how many random files (500 if it is left out)")
    given.add_argument("--python", action="store_true", help="compare with scripts/check.py instead")
    given.add_argument("bin", nargs="?", type=pathlib.Path, default=TOP / "crates/ordercheck/out", metavar="BIN")
    words = given.parse_args()
    program = (words.bin / "ordercheck").absolute()
    if not words.python and not program.is_file():
        sys.exit(f"test.py: {program}: absent; --python compares with scripts/check.py")
    resource.setrlimit(resource.RLIMIT_STACK, (8 * MEGABYTE, resource.getrlimit(resource.RLIMIT_STACK)[1]))
    comparison = Comparison(functools.partial(answer_of, program))
    if words.python:
        comparison = Comparison(python_answer)
    with tempfile.TemporaryDirectory() as folder:
        subprocess.run(["cp", "-R", DATA, f"{folder}/data"], check=True)
        os.chdir(f"{folder}/data")
        worked(comparison)
        fields(comparison)
        random_ones(comparison, words.count)
        limits(comparison)
        proofs()
        judging()
        os.chdir(HERE)
    print(f"ordercheck-coq answers as {'scripts/check.py' if words.python else program.name}: ", end="")
    print(", ".join(f"{count} {said}" for said, count in sorted(comparison.seen.items())))


if __name__ == "__main__":
    main()
