"""The league's curves with a method's among them, by matplotlib where it is there."""
from __future__ import annotations

import importlib
import io
from importlib.util import find_spec
from typing import TYPE_CHECKING, Any, Mapping, Sequence

from . import benchmarks
from ._writing import write_file

if TYPE_CHECKING:
    from ._scores import Score

Curve = tuple[Sequence[float], int]
START_SAID = {benchmarks.FILE: "the file's order", benchmarks.RANDOM: "random orders"}


def is_there() -> bool:
    return find_spec("matplotlib") is not None


def curve_of(standing: benchmarks.Standing, whole: int) -> Curve:
    """The ratios of the median runs in rising order, and how many functions there are."""
    return sorted(standing.ratios), whole


def draw_curves(axes: Any, curves: Mapping[str, Curve], colours: Sequence[Any], bold: str = "") -> None:
    """The share of functions within a ratio of the optimum, a curve for each method."""
    for colour, (name, (ratios, whole)) in zip(colours, curves.items()):
        shares = [100 * (i + 1) / whole for i in range(len(ratios))] + [100 * len(ratios) / whole]
        width = 3.0 if name == bold else 1.6
        axes.step([*ratios, max([10, *ratios])], shares, where="post", color=colour, linewidth=width, label=name)
    axes.set(xlabel="nodes / fewest nodes, at most", xlim=(1, 2), ylim=(0 if bold else 30, 101))
    axes.grid(color="#dddddd")


def label_of(score: Score) -> str:
    """The method's name, and whether sizes are only claimed. To matplotlib a `$` begins a formula, and a name with `_` in front
    isn't shown."""
    name = score.method.replace("$", r"\$")
    return f"{' ' if name.startswith('_') else ''}{name}{' (claimed)' if score.claimed else ''}"


def draw(scores: Sequence[Score], path: str) -> None:
    """Draws a panel for each score into a file."""
    matplotlib = importlib.import_module("matplotlib")
    matplotlib.use("agg")
    pyplot = importlib.import_module("matplotlib.pyplot")
    figure, panels = pyplot.subplots(1, len(scores), figsize=(1.5 + 5.4 * len(scores), 4.4), sharey=True, squeeze=False)
    colours = pyplot.get_cmap("tab10").colors
    for axes, score in zip(panels[0], scores):
        whole = score.standing.whole
        curves = {" ".join(it): curve_of(score.others[it], whole) for it in benchmarks.CURVES if it in score.others}
        name = label_of(score)
        curves[name] = curve_of(score.standing, whole)
        draw_curves(axes, curves, [*colours[:len(curves) - 1], "#000000"], name)
        axes.set_title(f"from {START_SAID[score.start]}, {whole} functions")
    panels[0][0].set_ylabel("share of the functions, %")
    panels[0][-1].legend(frameon=False, loc="lower right")
    figure.tight_layout()
    drawn = io.BytesIO()
    figure.savefig(drawn, format=path.rpartition(".")[2])
    pyplot.close(figure)
    write_file(path, drawn.getvalue())
