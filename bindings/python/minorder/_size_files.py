"""How many orders have each size, as CSV, as JSON and as pictures."""
from __future__ import annotations

import csv
import io
import json
from typing import TYPE_CHECKING, Callable, Optional

from . import _curves, _plots
from ._curves import Parts
from ._errors import BadSize
from ._writing import suffix_among, write_file

if TYPE_CHECKING:
    from ._sizes import Sizes

MATPLOTLIBS = (".pdf", ".png")


def median_of(sizes: Sizes) -> Optional[int]:
    """The lower median; None where it is beyond the bound."""
    try:
        return sizes.quantile(0.5)
    except BadSize:
        return None


def csv_of(parts: Parts) -> str:
    """A line for each size; the first column is the caption, where one has any."""
    out = io.StringIO()
    table = csv.writer(out, lineterminator="\n")
    begins = any(caption for caption, _ in parts)
    table.writerow([*["file"] * begins, "nodes", "orders"])
    for caption, sizes in parts:
        table.writerows([*[caption] * begins, *row] for row in sizes.items())
    return out.getvalue()


def json_of(parts: Parts) -> str:
    """An object on a line for each distribution."""
    return "".join(json.dumps(_object_of(caption, sizes), allow_nan=False) + "\n" for caption, sizes in parts)


def _object_of(caption: str, sizes: Sizes) -> dict[str, object]:
    figures = sizes.figures
    return {
        **({"file": caption} if caption else {}),
        "orders": figures.count, "fewest": figures.nodes, "optimal": figures.optimal, "most": figures.most,
        "worst": figures.worst, "mean": float(figures.mean), "median": median_of(sizes), "bound": sizes.bound,
        "marks": {
            name: {"nodes": nodes, "orders": sizes.get(nodes, 0), "fewer": sizes.rank(nodes)} for name, nodes in sizes.marks},
        "sizes": [list(row) for row in sizes.items()]}


TEXTS: dict[str, Callable[[Parts], str]] = {
    ".csv": csv_of, ".json": json_of, ".svg": lambda parts: _plots.svg_of(_curves.picture_of(parts))}
SUFFIXES = (*TEXTS, *MATPLOTLIBS)


def suffix_of(path: str) -> str:
    """What the name of a file of sizes ends in. Raises BadPath."""
    return suffix_among(path, SUFFIXES, "a file of sizes")


def content_of(suffix: str, parts: Parts) -> bytes:
    """What a file with a suffix holds. Raises NoMatplotlib."""
    if suffix in MATPLOTLIBS:
        return _plots.drawn(_curves.picture_of(parts), suffix)
    return TEXTS[suffix](parts).encode("utf-8", "surrogateescape")


def write_sizes(path: str, parts: Parts) -> None:
    """Writes a file as its suffix says, as a whole or not at all. Raises BadPath, NoMatplotlib, and OSError with its name."""
    write_file(path, content_of(suffix_of(path), parts))
