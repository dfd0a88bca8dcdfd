"""Lines, dots and texts that make a picture, as SVG or by matplotlib. It has no ground of its own, and each colour is legible on
a light and on a dark one."""
from __future__ import annotations

import importlib
import io
from html import escape
from typing import Any, Iterator, NamedTuple, Sequence

from ._drawings import FONT, LINE, MUTED, visible
from ._errors import NoMatplotlib

FONT_SIZE = 12
# in parts of the font's size: what a character takes at most, of those that are narrower or wider than others
NARROW, WIDE, USUAL, FULL = "ijl.,:;'|!()[]/ ftr-", "mwMW@%&", 0.66, 1.0
NARROW_TAKES, CAPITAL_TAKES = 0.42, 0.8
# to matplotlib dots to the inch
DENSITY = 144

Place = tuple[float, float]


class Line(NamedTuple):
    points: Sequence[Place]
    colour: str = LINE
    width: float = 1
    dashes: str = ""


class Dot(NamedTuple):
    """A place that is marked, and what is said of it where one points at it."""
    place: Place
    colour: str
    said: str


class Text(NamedTuple):
    """A text whose base line begins, has its middle or ends at a place, or that is read upwards around it."""
    place: Place
    text: str
    anchor: str = "start"
    colour: str = MUTED
    is_upward: bool = False


class Picture(NamedTuple):
    """What is drawn: places from the upper left corner on, to the right and downwards."""
    width: float
    height: float
    title: str
    lines: Sequence[Line]
    dots: Sequence[Dot]
    texts: Sequence[Text]


def width_of(text: str) -> float:
    """What a text takes at most of a line."""
    return FONT_SIZE * sum(map(_takes, text))


def _takes(character: str) -> float:
    if character in WIDE or not character.isascii():
        return FULL
    if character in NARROW:
        return NARROW_TAKES
    return CAPITAL_TAKES if character.isupper() else USUAL


# ---- SVG

def svg_of(picture: Picture) -> str:
    width, height = f"{picture.width:g}", f"{picture.height:g}"
    return "\n".join([
        f'<svg xmlns="http://www.w3.org/2000/svg" role="img" width="{width}" height="{height}" viewBox="0 0 {width} {height}" '
        f'font-family="{FONT}" font-size="{FONT_SIZE}">',
        f"<title>{_escaped(picture.title)}</title>",
        *_elements(picture), "</svg>", ""])


def _elements(picture: Picture) -> Iterator[str]:
    for line in picture.lines:
        points = " ".join(f"{x:.1f},{y:.1f}" for x, y in line.points)
        dashes = f' stroke-dasharray="{line.dashes}"' if line.dashes else ""
        yield f'<polyline points="{points}" fill="none" stroke="{line.colour}" stroke-width="{line.width:g}"{dashes}/>'
    for dot in picture.dots:
        x, y = dot.place
        yield f'<circle cx="{x:.1f}" cy="{y:.1f}" r="3.5" fill="{dot.colour}"><title>{_escaped(dot.said)}</title></circle>'
    for text in picture.texts:
        x, y = text.place
        turn = f' transform="rotate(-90 {x:.1f} {y:.1f})"' if text.is_upward else ""
        yield (f'<text x="{x:.1f}" y="{y:.1f}" text-anchor="{text.anchor}" fill="{text.colour}"{turn}>'
               f'{_escaped(text.text)}</text>')


def _escaped(text: str) -> str:
    return escape(visible(text))


# ---- matplotlib

def drawn(picture: Picture, suffix: str) -> bytes:
    """A picture in the format of a suffix. Raises NoMatplotlib."""
    try:
        figures = importlib.import_module("matplotlib.figure")
    except ImportError:
        raise NoMatplotlib(
            "matplotlib isn't here, which makes pictures of other formats than .svg (Debian: apt-get install "
            "python3-matplotlib)") from None
    figure = figures.Figure(figsize=(picture.width / 72, picture.height / 72))
    axes = figure.add_axes((0, 0, 1, 1))
    axes.set(xlim=(0, picture.width), ylim=(picture.height, 0))
    axes.set_axis_off()
    _draw(picture, axes)
    content = io.BytesIO()
    figure.savefig(content, format=suffix[1:], dpi=DENSITY, transparent=True, metadata={"Title": visible(picture.title)})
    return content.getvalue()


def _draw(picture: Picture, axes: Any) -> None:
    for line in picture.lines:
        style = (0, tuple(map(float, line.dashes.split()))) if line.dashes else "solid"
        axes.plot(*zip(*line.points), color=line.colour, linewidth=line.width, linestyle=style)
    for dot in picture.dots:
        axes.plot(*dot.place, color=dot.colour, marker="o", markersize=7, markeredgewidth=0)
    aligned = {"start": "left", "middle": "center", "end": "right"}
    for text in picture.texts:
        # a `$` would begin a formula
        axes.text(*text.place, visible(text.text).replace("$", r"\$"), color=text.colour, fontsize=FONT_SIZE,
                  horizontalalignment=aligned[text.anchor], verticalalignment="baseline", rotation=90 * text.is_upward,
                  rotation_mode="anchor")
