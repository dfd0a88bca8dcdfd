"""The results of a method: in each row a function's name and an order, or a number of nodes alone."""
from __future__ import annotations

import re
from dataclasses import dataclass
from math import inf
from typing import Mapping, Optional, Sequence, Union

from . import benchmarks
from ._errors import MinorderError
from ._result_rows import BLANKS, COLUMNS, Fault, Unreadable, rows_of

LATE = "late"
HERE = "an order is counted here"
STARTS = (benchmarks.FILE, benchmarks.RANDOM, *map(str, benchmarks.NUMBERS))
FAULTS_SHOWN, CHARACTERS_SHOWN = 20, 60
# thirty years, so that sums stay finite
MOST_SECONDS = 10 ** 9
DECIMAL = re.compile(r"([0-9]+\.?[0-9]*|\.[0-9]+)(e[+-]?[0-9]+)?", re.IGNORECASE)


class BadResults(MinorderError, ValueError):
    """Results are refused; ``faults`` says why, a text for each line, of the first lines alone if there are many."""

    def __init__(self, faults: Sequence[str]) -> None:
        self.faults = list(faults)
        super().__init__("\n".join(self.faults))


@dataclass(frozen=True)
class Run:
    """What a run ended with: an order, top first, perhaps with the method's own number of nodes, or that number alone,
    which is a claim; neither where the run was late. ``start`` is `file`, `random` or the number of a random order."""
    name: str
    start: str
    order: Optional[tuple[int, ...]]
    nodes: Optional[int]
    seconds: Optional[float]

    @property
    def kind(self) -> str:
        return benchmarks.FILE if self.start == benchmarks.FILE else benchmarks.RANDOM

    @property
    def claimed(self) -> bool:
        return self.order is None and self.nodes is not None


def read_results(text: str) -> list[Run]:
    """The runs that a text of CSV or JSON lists. Raises BadResults."""
    runs: list[Run] = []
    faults: list[str] = []
    more = 0
    try:
        for place, row in rows_of(text):
            try:
                runs.append(run_of(row))
            except Fault as fault:
                if len(faults) < FAULTS_SHOWN:
                    faults.append(f"{place}: {fault}")
                else:
                    more += 1
    except Unreadable as fault:
        faults.append(str(fault))
    if more:
        faults.append(f"and {more} more lines like these")
    if faults:
        raise BadResults(faults)
    if not runs:
        raise BadResults([f"there are no results; the first line of CSV names the columns: {COLUMNS}"])
    return runs


def cut(value: object) -> str:
    """A word of the results as a message shows it."""
    text = "".join(it if it.isprintable() else "?" for it in str(value)[:CHARACTERS_SHOWN + 1])
    return text if len(text) <= CHARACTERS_SHOWN else f"{text[:CHARACTERS_SHOWN]}.."


# ---- what a row says

def run_of(row: Union[Mapping[str, object], Fault]) -> Run:
    if isinstance(row, Fault):
        raise row
    name, order, nodes = row.get("name"), row.get("order"), row.get("nodes")
    said = name.strip(BLANKS) if isinstance(name, str) else ""
    if not said:
        raise Fault("no name")
    try:
        entry = benchmarks.entry(said)
    except benchmarks.UnknownName as error:
        raise Fault(error) from None
    start = start_of(said, row.get("start", benchmarks.FILE))
    if order is None and nodes is None:
        raise Fault(f"{said}: neither an order nor a number of nodes")
    seconds = seconds_of(said, row.get("seconds"))
    words = [str(it).strip(BLANKS).lower() for it in (order, nodes) if it is not None]
    if LATE in words:
        if set(words) != {LATE}:
            raise Fault(f"{said}: both {LATE} and {cut(next(it for it in words if it != LATE))}")
        return Run(entry.name, start, None, None, seconds)
    check_mark(said, row.get("claimed"), order is None)
    if order is None:
        return Run(entry.name, start, None, claim_of(said, nodes, benchmarks.optima()[entry.name]), seconds)
    own = None if nodes is None else nodes_of(said, nodes)
    return Run(entry.name, start, order_of(said, order, entry.inputs), own, seconds)


def start_of(name: str, given: object) -> str:
    start = str(given).strip(BLANKS).lower()
    if start not in STARTS:
        raise Fault(f"{name}: start {cut(start)}: it is file, random, or the number of a random order, 1 to 10")
    return start


def seconds_of(name: str, given: object) -> Optional[float]:
    if given is None:
        return None
    text = str(given).strip(BLANKS)
    seconds = float(text) if DECIMAL.fullmatch(text) else inf
    if seconds > MOST_SECONDS:
        raise Fault(f"{name}: seconds {cut(text)}: no number of seconds: decimal, from 0 to {MOST_SECONDS}")
    return seconds


def check_mark(name: str, given: object, is_claim: bool) -> None:
    """Refuses a column `claimed` that says otherwise than the row: a size without an order is a claim, an order is none."""
    if given is None:
        return
    mark = str(int(given) if isinstance(given, bool) else given).strip(BLANKS)
    if mark not in ("0", "1"):
        raise Fault(f"{name}: claimed {cut(mark)}: it is 0 or 1")
    if is_claim and mark == "0":
        raise Fault(f"{name}: claimed 0, but a number of nodes without an order is a claim")
    if not is_claim and mark == "1":
        raise Fault(f"{name}: claimed 1, but it has an order; {HERE}")


def order_of(name: str, given: object, inputs: Sequence[str]) -> tuple[int, ...]:
    """The inputs' numbers of an order that is spelled by numbers or by names."""
    words = given if isinstance(given, list) else re.findall(f"[^{BLANKS},]+", str(given))
    numbers, names = {str(x): x for x in range(len(inputs))}, {it: x for x, it in enumerate(inputs)}
    order: list[int] = []
    for word in words:
        said = "" if isinstance(word, bool) else str(word)
        if said not in numbers and said not in names:
            raise Fault(f"{name}: {cut(word)} is no input: they are 0 to {len(inputs) - 1}, or {' '.join(inputs)}")
        if (said in names) != (str(words[0]) in names):
            raise Fault(f"{name}: {cut(words[0])} and {said}: an order has numbers or names, not both")
        x = names[said] if said in names else numbers[said]
        if x in order:
            raise Fault(f"{name}: input {said} stands twice")
        order.append(x)
    missing = [x for x in range(len(inputs)) if x not in order]
    if missing:
        raise Fault(f"{name}: input {missing[0]} is missing")
    return tuple(order)


def nodes_of(name: str, given: object) -> int:
    text = str(given).strip(BLANKS)
    if isinstance(given, bool) or not (text.isascii() and text.isdigit() and len(text) < 10):
        raise Fault(f"{name}: nodes {cut(text)}: no number of nodes: one to nine decimal digits")
    return int(text)


def claim_of(name: str, given: object, row: benchmarks.Optimum) -> int:
    """A number of nodes that some order may have: between the proved optimum and the most nodes of an order."""
    nodes, fewest = nodes_of(name, given), row.optimum
    if nodes > row.most:
        bound = f"each order has {fewest}" if row.most == fewest else f"no order has more than {row.most}"
        raise Fault(f"{name}: {nodes} nodes, and {bound}: most likely the constants counted; {HERE}")
    if nodes < fewest:
        why = "counted with complement edges" if 2 * nodes >= fewest - 1 else "another function, or fewer outputs"
        raise Fault(f"{name}: {nodes} nodes, and no order has fewer than {fewest}: most likely {why}; {HERE}")
    return nodes
