"""What a row of minorder-batch or a report of minorder may say, whatever its form."""
import re
from dataclasses import fields
from functools import lru_cache
from typing import Any, Dict, List, Mapping, Tuple

from ._arguments import MOST, shortened, shown
from ._calls import level_bounds
from ._orders import fault_of
from .batch import FileReport, Report, Status
from .files import fault_words

OF_REPORT = tuple(field.name for field in fields(Report))
LISTS = ("names", "order", "levels", "sifted_order")
TEXTS = ("file", "fault", "names")
COLUMNS = ("file", "status", "fault", *OF_REPORT)
# the keys of a row with a report, with a fault, with both
KEYS = tuple(frozenset(keys) for keys in (("file", "status", *OF_REPORT), COLUMNS[:3], COLUMNS))
NUMBER, NAME = re.compile("0|[1-9][0-9]{0,8}"), re.compile("[!-~]+")


def number_of(word: str) -> object:
    """The number that a word spells as minorder does, else the word."""
    return int(word) if NUMBER.fullmatch(word) else word


def values_of(cells: Mapping[str, str]) -> Dict[str, object]:
    """What cells of CSV or lines of a report say by name."""
    found: Dict[str, object] = {}
    for name, cell in cells.items():
        words = cell.split(" ") if name in LISTS else [cell]
        said: List[object] = [word if name in TEXTS else number_of(word) for word in words]
        found[name] = said if name in LISTS else said[0]
    return found


def row_of(found: Mapping[str, object]) -> FileReport:
    """What a row with these values says. Raises ValueError with why minorder-batch writes no such row."""
    if found.keys() not in KEYS:
        raise ValueError(f"no row has the fields {shortened(', '.join(found))}")
    file, status, fault = found["file"], found["status"], found.get("fault", "")
    if not isinstance(file, str) or not isinstance(fault, str):
        raise ValueError("a file and a fault are texts")
    if isinstance(status, bool) or not isinstance(status, int):
        raise ValueError(f"status: {shown(status)} is no number")
    report = report_of(found) if "order" in found else None
    if report:
        _check_best(report)
    said = f"no file ends with the status {status} and {'a' if report else 'no'} report"
    faults = _faults_of(status).get(report is not None)
    if faults is None:
        raise ValueError(said)
    if ("fault" in found) != bool(fault) or not re.fullmatch(faults, fault):
        raise ValueError(f"{said} and {f'the fault {shown(fault)}' if fault else 'no fault'}")
    return FileReport(file, Status(status), fault, report)


@lru_cache(maxsize=None)
def _faults_of(status: int) -> Mapping[bool, str]:
    """The faults that a file with a status has, as patterns: one where it has a report, one where it has none."""
    if status == Status.REFUSED:
        *kinds, too_long = fault_words()
        return {False: f"line 0: {kinds[0]}|line [1-9][0-9]{{0,7}}: ({'|'.join(kinds)})|{too_long}"}
    others: Mapping[int, Mapping[bool, str]] = {
        Status.DONE: {True: ""}, Status.OUT_OF_MEMORY: {False: "OutOfMemory"},
        Status.DEVICE: {False: "Device", True: "certificate: Device"}}
    return others.get(status, {})


def report_of(found: Mapping[str, Any]) -> Report:
    """The report with these values. Raises ValueError with why minorder reports no such thing."""
    for name in OF_REPORT:
        values = found[name] if name in LISTS else [found[name]]
        if not isinstance(values, list):
            raise ValueError(f"{name}: {shown(values)} is no list")
        for value in values:
            if name == "names" and not (isinstance(value, str) and NAME.fullmatch(value)):
                raise ValueError(f"names: {shown(value)} is no name")
            if name != "names" and (type(value) is not int or value < 0):
                raise ValueError(f"{name}: {shown(value)} is no number from 0 on")
    report = Report(**{name: tuple(found[name]) if name in LISTS else found[name] for name in OF_REPORT})
    _check_counts(report)
    _sizes_of(report)
    return report


def _check_counts(it: Report) -> None:
    if not (1 <= it.inputs <= MOST and 1 <= it.outputs <= MOST):
        raise ValueError(f"{it.inputs} inputs and {it.outputs} outputs, where there are 1 to {MOST}")
    for name, values in ((name, getattr(it, name)) for name in LISTS):
        if len(values) != it.inputs:
            raise ValueError(f"{name}: {len(values)}, where there are {it.inputs} inputs")
        fault = fault_of([str(x) for x in values], it.inputs) if name.endswith("order") else None
        if fault:
            raise ValueError(f"{name} {' '.join(map(str, values))}: {fault}")


def _sizes_of(it: Report) -> Mapping[Tuple[int, ...], int]:
    """The sizes by order. Raises ValueError if they contradict each other."""
    bounds = level_bounds(it.inputs, it.outputs)
    for level, (count, bound) in enumerate(zip(it.levels, bounds)):
        if count > bound:
            raise ValueError(f"levels: {count} nodes where level {level} has {bound} at most")
    if sum(it.levels) != it.nodes:
        raise ValueError(f"levels that sum to {sum(it.levels)}, and {it.nodes} nodes")
    sizes: Dict[Tuple[int, ...], int] = {}
    orders = it.order, it.sifted_order, tuple(range(it.inputs))
    for order, nodes in zip(orders, (it.nodes, it.sifted_nodes, it.file_order_nodes)):
        if sizes.setdefault(order, nodes) != nodes:
            raise ValueError(f"both {sizes[order]} and {nodes} nodes under the order {' '.join(map(str, order))}")
        if nodes > sum(bounds):
            raise ValueError(f"{nodes} nodes, where diagrams have {sum(bounds)} at most")
    return sizes


def _check_best(it: Report) -> None:
    """Raises ValueError if the order can't be the first of the fewest nodes among all orders."""
    if not it.nodes <= it.sifted_nodes <= it.file_order_nodes:
        raise ValueError(f"nodes, sifted_nodes and file_order_nodes rise: {it.nodes}, {it.sifted_nodes}, {it.file_order_nodes}")
    first = min(order for order, nodes in _sizes_of(it).items() if nodes == it.nodes)
    if first != it.order:
        raise ValueError(f"the order {' '.join(map(str, first))} has {it.nodes} nodes, too, and comes first")
