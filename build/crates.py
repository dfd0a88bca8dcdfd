"""The crates of the repository: what crates.txt and build/costs.csv say of them. CONTRIBUTING.md says how the latter is made."""
from __future__ import annotations

import contextlib
import csv
import os
import sys
from typing import Dict, Iterable, List

TOP = os.path.dirname(os.path.dirname(os.path.abspath(__file__)))
Uses = Dict[str, List[str]]
Seconds = Dict[str, float]
# the seconds of a crate that build/costs.csv lacks
UNKNOWN = 100.0


def listed() -> Dict[str, str]:
    """The lines of crates.txt, by the crates that they name."""
    with open(f"{TOP}/crates.txt") as lines:
        rows = [line.partition("#")[0].strip() for line in lines]
    return {row.split(":")[0].split()[0]: row for row in rows if row}


def row_of(name: str) -> str:
    return listed().get(name) or sys.exit(f"{name}: no crate of crates.txt")


def used() -> Uses:
    """The crates of crates.txt with the libraries that each uses, the kit's among them."""
    return {crate: row.partition(":")[2].split() for crate, row in listed().items()}


def named() -> Uses:
    """The crates of crates.txt with the libraries of the repository that each uses."""
    every = used()
    return {crate: [it for it in uses if it in every] for crate, uses in every.items()}


def all_of(name: str) -> List[str]:
    """The crates that a program or a static library is built from, lowest first; its own last."""
    row_of(name)
    uses = named()
    found: List[str] = []

    def visit(crate: str, above: List[str]) -> None:
        if crate in above:
            sys.exit(f"crates.txt: {crate} uses itself")
        for dep in uses[crate]:
            if dep not in found:
                visit(dep, [*above, crate])
        found.append(crate)

    visit(name, [])
    return found


def is_static(name: str) -> bool:
    return row_of(name).partition(":")[0].split() == [name, "staticlib"]


def command_of(name: str) -> str:
    """The script at the top that has a program or a static library built."""
    return "libminorder" if is_static(name) else name


def seconds_of(crates: Iterable[str]) -> Seconds:
    """The processor seconds that each crate's proof is expected to take."""
    known: Seconds = {}
    with contextlib.suppress(OSError), open(f"{TOP}/build/costs.csv", newline="") as table:
        known = {row["crate"]: float(row["seconds"]) for row in csv.DictReader(table)}
    return {it: known.get(it, UNKNOWN) for it in crates}


def chains(seconds: Seconds, uses: Uses) -> Seconds:
    """How many seconds of crates, lowest first, follow each one at least, its own counted."""
    behind: Seconds = {}
    for crate in reversed(list(seconds)):
        behind[crate] = seconds[crate] + max((behind[it] for it in behind if crate in uses[it]), default=0)
    return behind
