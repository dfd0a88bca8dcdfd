#!/usr/bin/env python3
"""wrong_bodies.py                fails if something that gate/wrong_bodies.csv names isn't there, or a wrong body changes no code
wrong_bodies.py --run [NAME..]   runs tests and worked cases on unproved code with their wrong bodies, all or those with these
                                 names, and fails if one does nothing else than before: 25 minutes of processor time for all

A row of the list says what a wrong body does and what shows it: an edit that the prover must refuse (CRATE), a test
(CRATE/FUNCTION) or a worked case (FILE/CASE) that fails with it, or a bound that the crate's functions do without (CRATE/BOUND).
The wrong body of a test or a case stands in gate/bodies, in the folder CRATE or FILE. `rt ci` tries the edits."""
import csv
import os
import re
import sys
from collections.abc import Iterator
from concurrent.futures import ThreadPoolExecutor
from enum import Enum
from pathlib import Path
from typing import NamedTuple

from body_runs import CRATES, TOP, difference_in_case, difference_in_test, text_of_case
from edits import Fault, changed_texts
from tools import need

LIST = TOP / "gate/wrong_bodies.csv"
BODIES = TOP / "gate/bodies"


class ShownBy(Enum):
    EDIT = "edit"
    TEST = "test"
    CASE = "case"
    BOUND = "bound"


class Row(NamedTuple):
    wrong_body: str
    shown_by: ShownBy
    place: str

    def __str__(self) -> str:
        return f"{self.wrong_body}: {self.shown_by.value} {self.place}"

    def parts(self) -> tuple[str, str]:
        first, _, second = self.place.partition("/")
        return first, second

    def body(self) -> Path:
        """The wrong body that a test or a case shows."""
        return BODIES / self.parts()[0] / f"{self.wrong_body}.body"

    def is_run(self) -> bool:
        return self.shown_by in (ShownBy.TEST, ShownBy.CASE)


def rows() -> list[Row]:
    with LIST.open(newline="", encoding="utf-8") as table:
        lines = csv.DictReader(table)
        try:
            return [Row(it["wrong_body"], ShownBy(it["shown_by"]), it["place"] or "") for it in lines]
        except (KeyError, ValueError) as error:
            sys.exit(f"{LIST.relative_to(TOP)}, line {lines.line_num}: {error}")


def sources(crate: str) -> list[str]:
    return [it.read_text(encoding="utf-8") for it in (CRATES / crate / "src").glob("**/*.rt")]


def need_shown(row: Row) -> None:
    """Fails if what a row names isn't there, or its wrong body isn't there or changes no code."""
    first, second = row.parts()
    name = re.escape(second)
    match row.shown_by:
        case ShownBy.EDIT:
            if not (CRATES / row.place / f"must-fail/{row.wrong_body}.edit").is_file():
                raise Fault("is not there")
        case ShownBy.TEST:
            if not any(re.search(rf"#\[test\]\s+fn {name}\(", text) for text in sources(first)):
                raise Fault("is no test")
        case ShownBy.CASE:
            if first not in (CRATES / "worked_cases/args").read_text(encoding="utf-8").split():
                raise Fault("is no worked case that is carried out")
            text_of_case(first, second)
        case ShownBy.BOUND:
            if not sources(first) or any(re.search(rf"\b{name}\b", text) for text in sources(first)):
                raise Fault("is a bound that the crate has")
    if row.is_run():
        if not row.body().is_file():
            raise Fault(f"has no body {row.body().relative_to(TOP)}")
        changed_texts(row.body(), CRATES)


def faults_of_list(listed: list[Row], edits: list[Path], bodies: list[Path]) -> Iterator[str]:
    for row in listed:
        try:
            need_shown(row)
        except Fault as fault:
            yield f"{row} {fault}"
    for edit in edits:
        try:
            changed_texts(edit, edit.parent.parent)
        except Fault as fault:
            yield f"{edit.relative_to(TOP)} {fault}"
    for body in sorted(set(bodies) - {it.body() for it in listed if it.is_run()}):
        yield f"{body.relative_to(TOP)} is no row's"


def check() -> None:
    listed, edits, bodies = rows(), sorted(CRATES.glob("*/must-fail/*.edit")), sorted(BODIES.glob("*/*.body"))
    if faults := list(faults_of_list(listed, edits, bodies)):
        sys.exit("\n".join(faults))
    print(f"{len({it.wrong_body for it in listed})} wrong bodies: what the list names is there, and {len(edits)} edits and "
          f"{len(bodies)} bodies change code. Nothing was run: --run sees whether tests and worked cases fail with the bodies")


def is_shown(row: Row) -> bool:
    """Runs what a row names on code with its wrong body, and prints what comes."""
    first, second = row.parts()
    try:
        need_shown(row)
        run = difference_in_test if row.shown_by is ShownBy.TEST else difference_in_case
        difference = run(first, second, row.body())
    except Fault as fault:
        print(f"FAILED: {row} {fault}", flush=True)
        return False
    print(f"{row}: {difference}" if difference else f"FAILED: {row} does nothing else with the body", flush=True)
    return bool(difference)


def run(names: list[str]) -> None:
    listed = [it for it in rows() if it.is_run()]
    if unknown := set(names) - {it.wrong_body for it in listed}:
        sys.exit(f"no test or worked case shows {', '.join(sorted(unknown))}")
    need("rt")
    wanted = [it for it in listed if not names or it.wrong_body in names]
    with ThreadPoolExecutor(max(1, (os.cpu_count() or 1) // 2)) as pool:
        try:
            shown = list(pool.map(is_shown, wanted))
        except KeyboardInterrupt:
            pool.shutdown(cancel_futures=True)
            sys.exit("stopped")
    if not all(shown):
        sys.exit(f"{shown.count(False)} of {len(shown)} are not shown")
    print(f"{len(shown)} tests and worked cases fail with their wrong bodies")


if __name__ == "__main__":
    match sys.argv[1:]:
        case []:
            check()
        case ["--run", *names]:
            run(names)
        case _:
            sys.exit(__doc__)
