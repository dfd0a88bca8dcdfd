#!/usr/bin/env python3
"""Judges the table's certificates in FOLDER by ordercheck-coq, and writes optima/judged_by_coq.csv.

First each NAME.pla and NAME.cert of optima/optima.csv has to have the sums that it says; then each answer has to be valid with
its optimum. The file is written once all answers are known. Those known so far lie in coq/judged.unfinished, and a run that was
stopped goes on from them, unless ordercheck-coq is newer. With INPUTS the functions of at most so many inputs are judged, and
compared with what the file says. Ends with status 1 at the first certificate that is absent, another one, or not judged valid."""
import argparse
import csv
import hashlib
import os
import pathlib
import subprocess
import sys
from collections.abc import Iterable, Iterator
from typing import TextIO

HERE = pathlib.Path(__file__).resolve().parent
TABLE, JUDGED = HERE.parent / "optima/optima.csv", HERE.parent / "optima/judged_by_coq.csv"
CHECKER, UNFINISHED = HERE / "ordercheck-coq", HERE / "judged.unfinished"
COLUMNS = ["name", "certificate_sha256", "answer", "coq", "seconds"]
Row = dict[str, str]


def fail(message: str) -> None:
    sys.exit(f"judge.py: {message}")


def rows_of(path: pathlib.Path) -> list[Row]:
    with open(path, newline="") as file:
        return list(csv.DictReader(file))


def functions(most_inputs: int) -> list[Row]:
    return [row for row in rows_of(TABLE) if int(row["inputs"]) <= most_inputs]


def look(folder: pathlib.Path, rows: list[Row]) -> None:
    """Fails unless the checker is built and the folder has the table's files."""
    if not CHECKER.exists():
        fail(f"{CHECKER}: absent; `make` builds it")
    for row in rows:
        for ending, column in (("pla", "pla_sha256"), ("cert", "certificate_sha256")):
            path = folder / f"{row['name']}.{ending}"
            if not path.is_file() or hashlib.sha256(path.read_bytes()).hexdigest() != row[column]:
                fail(f"{path}: absent, or not the table's")


def judged(folder: pathlib.Path, rows: list[Row], jobs: int) -> Iterator[tuple[Row, float]]:
    """Functions whose certificates are judged valid, as each is known, with the seconds of processor time."""
    left, running = rows[::-1], dict[int, tuple[Row, "subprocess.Popen[str]"]]()
    try:
        while left or running:
            while left and len(running) < jobs:
                row = left.pop()
                files = [folder / f"{row['name']}.{ending}" for ending in ("pla", "cert")]
                process = subprocess.Popen([CHECKER, *files], stdout=subprocess.PIPE, text=True)
                running[process.pid] = row, process
            pid, status, used = os.wait4(-1, 0)
            row, process = running.pop(pid)
            process.returncode = os.waitstatus_to_exitcode(status)
            answer = process.communicate()[0].strip()
            if answer != f"valid {row['optimum']}":
                fail(f"{row['name']}: {answer or 'no answer'}, not valid {row['optimum']}")
            yield row, used.ru_utime + used.ru_stime
    finally:
        for _, process in running.values():
            process.kill()


def known(rows: list[Row]) -> dict[str, Row]:
    """The answers of an unfinished run by the same checker."""
    if not UNFINISHED.exists() or UNFINISHED.stat().st_mtime < CHECKER.stat().st_mtime:
        return {}
    sums = {row["name"]: row["certificate_sha256"] for row in rows}
    return {row["name"]: row for row in rows_of(UNFINISHED)
            if row["seconds"] and row["certificate_sha256"] == sums.get(row["name"])}


def begin(file: TextIO, rows: Iterable[Row]) -> "csv.DictWriter[str]":
    writer = csv.DictWriter(file, COLUMNS, lineterminator="\n")
    writer.writeheader()
    writer.writerows(rows)
    return writer


def write(folder: pathlib.Path, jobs: int) -> None:
    """Judges all functions, the largest first, and writes them in the table's order."""
    rows = functions(16)
    look(folder, rows)
    said = subprocess.run(["coqc", "--print-version"], capture_output=True, text=True, check=True).stdout
    lines = known(rows)
    left = [row for row in rows if row["name"] not in lines]
    left.sort(key=lambda row: -int(row["outputs"]) << int(row["inputs"]))
    with open(UNFINISHED, "w", newline="") as file:
        writer = begin(file, lines.values())
        for row, seconds in judged(folder, left, jobs):
            values = row["name"], row["certificate_sha256"], f"valid {row['optimum']}", said.split()[0], f"{seconds:.1f}"
            lines[row["name"]] = dict(zip(COLUMNS, values))
            writer.writerow(lines[row["name"]])
            file.flush()
    with open(UNFINISHED, "w", newline="") as file:
        begin(file, (lines[row["name"]] for row in rows))
    os.replace(UNFINISHED, JUDGED)


def compare(folder: pathlib.Path, most_inputs: int, jobs: int) -> None:
    rows = functions(most_inputs)
    look(folder, rows)
    written = {row["name"]: (row["certificate_sha256"], row["answer"]) for row in rows_of(JUDGED)}
    for row, _ in judged(folder, rows, jobs):
        if written.get(row["name"]) != (row["certificate_sha256"], f"valid {row['optimum']}"):
            fail(f"{row['name']}: {JUDGED.name} says otherwise")
    print(f"{len(rows)} certificates of the table judged valid by Coq's checker")


def main() -> None:
    given = argparse.ArgumentParser(description=__doc__, formatter_class=argparse.RawDescriptionHelpFormatter)
    given.add_argument("folder", nargs="?", type=pathlib.Path, metavar="FOLDER")
    given.add_argument("inputs", nargs="?", type=int, metavar="INPUTS")
    given.add_argument("--jobs", type=int, default=1, help="how many certificates are judged at a time (1 if it is left out)")
    given.add_argument("--names", type=int, metavar="INPUTS", help="print the names of the functions of at most so many inputs")
    words = given.parse_args()
    if words.jobs < 1:
        given.error("--jobs is at least 1")
    if words.names is not None:
        print(*(row["name"] for row in functions(words.names)), sep="\n")
    elif words.folder is None:
        given.error("FOLDER is missing")
    elif words.inputs is None:
        write(words.folder, words.jobs)
    else:
        compare(words.folder, words.inputs, words.jobs)


if __name__ == "__main__":
    try:
        main()
    except OSError as fault:
        fail(str(fault))
