"""Drawings of diagrams: in Graphviz's language, as its pictures, and level counts as bars."""
from __future__ import annotations

import errno
import re
import subprocess
import tempfile
from html import escape
from typing import IO, TYPE_CHECKING, Iterator, Sequence, Tuple

from ._errors import NoGraphviz
from ._writing import named

if TYPE_CHECKING:
    from ._diagrams import Diagram

PICTURES = (".pdf", ".png", ".svg")
# Graphviz takes 2 s of processor time for 1,200 nodes, 6 to 9 s for 2,300, and over two minutes
# for 10,000
MOST = 1500
# of what has no ground of its own each colour is legible on a light and on a dark one
LINE, MUTED, RIM, FILL, TEXT = "#808080", "#7a7a7a", "#4a7ba6", "#dbe9f6", "#102030"
FONT = "Helvetica,Arial,sans-serif"
# in inches: a node, and what a character takes
NODE, CHARACTER = 0.36, 0.09
# what no drawing shows: controls, halves of characters, and what XML hasn't
HIDDEN = re.compile("[^\x20-\x7e\xa0-\ud7ff\ue000-\ufffd\U00010000-\U0010ffff]")

# diagrams that stand side by side, each with what its caption begins with
Parts = Sequence[Tuple[str, "Diagram"]]


# ---- Graphviz's language

def dot_of(parts: Parts, title: str) -> str:
    lines = [
        f"digraph {_quoted(title)} {{",
        f'  graph [bgcolor=transparent, ranksep=0.32, nodesep=0.16, fontname="{FONT}"];',
        f'  node [shape=circle, width={NODE}, fixedsize=true, fontsize=11, style=filled, fillcolor="{FILL}", color="{RIM}", '
        f'fontcolor="{TEXT}", fontname="{FONT}"];',
        f'  edge [color="{LINE}", arrowsize=0.4];']
    for (caption, diagram), mark in zip(parts, "ab"):
        said = f"{caption}: {counted(len(diagram))}" if caption else counted(len(diagram))
        lines.append(f"  subgraph cluster_{mark} {{")
        lines += ["    " + line for line in _cluster(diagram, said, mark)]
        lines.append("  }")
    return "\n".join([*lines, "}", ""])


def _cluster(diagram: Diagram, caption: str, mark: str) -> Iterator[str]:
    """The lines of one diagram, whose nodes' names begin with a mark."""
    yield f'label={_quoted(caption)}; labelloc=b; color=none; fontsize=13; fontcolor="{MUTED}";'
    yield from _names(diagram, mark)
    for level, (variable, numbers) in enumerate(_levels(diagram).items()):
        yield f"{{ rank=same; {mark}v{level}; " + " ".join(f"{mark}{number};" for number in numbers) + " }"
        for number in numbers:
            node = diagram.nodes[number - 2]
            yield f"{mark}{number} [label={_quoted(diagram.inputs[variable])}{_shape(diagram)}];"
            yield f"{mark}{number} -> {mark}{node.low} [style=dashed]; {mark}{number} -> {mark}{node.high};"
    used = {*diagram.roots, *(child for node in diagram.nodes for child in node[1:])}
    ends = [end for end in (0, 1) if end in used]
    for end in ends:
        yield f'{mark}{end} [shape=box, height=0.28, label="{end}"];'
    yield f"{{ rank=same; {mark}t; " + " ".join(f"{mark}{end};" for end in ends) + " }"
    for j, root in enumerate(diagram.roots):
        yield f"{mark}f{j} -> {mark}{root} [arrowhead=none];"


def _names(diagram: Diagram, mark: str) -> Iterator[str]:
    """The names of the levels, one below the other, and those of the outputs above the diagram."""
    outputs = ("f",) if diagram.outputs == ("f0",) else diagram.outputs
    width = max(0.5, *(CHARACTER * len(name) for name in (*diagram.inputs, *outputs)))
    plain = f'shape=plaintext, style="", width={width:.2f}, fontcolor="{MUTED}"'
    for level, variable in enumerate(diagram.order):
        yield f"{mark}v{level} [{plain}, label={_quoted(diagram.inputs[variable])}];"
    for j, name in enumerate(outputs):
        yield f"{mark}f{j} [{plain}, label={_quoted(name)}];"
    yield f'{mark}v [{plain}, label=""]; {mark}t [{plain}, label=""];'
    yield f"{{ rank=same; {mark}v; " + " ".join(f"{mark}f{j};" for j in range(len(outputs))) + " }"
    places = [f"{mark}v", *(f"{mark}v{level}" for level in range(len(diagram.order))), f"{mark}t"]
    yield " -> ".join(places) + " [style=invis, weight=100];"


def _levels(diagram: Diagram) -> dict[int, list[int]]:
    """By variable, top first, the numbers of its nodes, as a walk from the roots meets them, low children first."""
    levels: dict[int, list[int]] = {variable: [] for variable in diagram.order}
    met, ahead = {0, 1}, [*reversed(diagram.roots)]
    while ahead:
        number = ahead.pop()
        if number not in met:
            met.add(number)
            variable, low, high = diagram.nodes[number - 2]
            levels[variable].append(number)
            ahead += [high, low]
    return levels


def _shape(diagram: Diagram) -> str:
    """What makes a node wide enough for the longest name."""
    width = CHARACTER * max(map(len, diagram.inputs))
    return "" if width <= NODE else f", shape=ellipse, width={width + 0.15:.2f}, height={NODE}"


def _quoted(text: str) -> str:
    """A text as a label that shows just it."""
    return '"' + visible(text).replace("\\", "\\\\").replace('"', '\\"').replace("&", "&amp;") + '"'


def visible(text: str) -> str:
    """A text with a mark in the place of what can't be shown."""
    return HIDDEN.sub("?", text)


def counted(nodes: int) -> str:
    return f"{nodes} node{'s' * (nodes != 1)}"


# ---- pictures

def _temporary(content: bytes) -> IO[bytes]:
    """A temporary file that holds this, to be read. Raises OSError with a name."""
    said = "a temporary file"
    try:
        said += f" in {tempfile.gettempdir()}"
        # a buffer would be written once more as the file is closed
        file = tempfile.TemporaryFile(buffering=0)
        while content:
            content = content[file.write(content):]
        file.seek(0)
    except OSError as error:
        raise named(error, said) from None
    return file


def _said_by(ended: subprocess.CompletedProcess[bytes]) -> str:
    """The line that tells why dot made nothing."""
    lines = [line.strip() for line in ended.stderr.decode(errors="replace").splitlines() if line.strip()]
    errors = [line for line in lines if line.startswith("Error")]
    status = f"status {ended.returncode}" if ended.returncode else "it writes nothing"
    return visible([*errors, *lines, status][0])


def _drawn(text: str, suffix: str) -> bytes:
    """What Graphviz makes of a text in its language. Raises NoGraphviz, and OSError with a name."""
    # a pipe that dot doesn't read would end a command
    with _temporary(text.encode()) as file:
        try:
            ended = subprocess.run(["dot", f"-T{suffix[1:]}"], stdin=file, capture_output=True)
        except (FileNotFoundError, PermissionError):
            raise NoGraphviz("Graphviz's dot isn't here, which makes pictures (Debian: apt-get install graphviz)") from None
        except OSError as error:
            # without a name it says that memory or processes are out
            raise error if error.errno in (errno.EAGAIN, errno.ENOMEM) else named(error, "dot") from None
    if ended.returncode or not ended.stdout:
        raise NoGraphviz(f"Graphviz's dot makes no picture: {_said_by(ended)}")
    return ended.stdout


def picture_of(parts: Parts, title: str, suffix: str) -> bytes:
    """A picture by Graphviz. Raises NoGraphviz, and OSError with a name."""
    made = _drawn(dot_of(parts, title), suffix)
    named_so = f"<title>{escape(visible(title))}</title>\n<g id=".encode()
    return made.replace(b"<g id=", named_so, 1) if suffix == ".svg" else made


def bars_of(diagram: Diagram) -> str:
    """The level counts as bars, in HTML."""
    most = max(1, *diagram.levels)
    cell, rows = "padding:0 .5em;border:0;background:none;text-align:left", ""
    for variable, count in zip(diagram.order, diagram.levels):
        bar = f"background:{RIM};height:.8em;width:{20 * count / most:.2f}em"
        rows += (f'<tr style="background:none"><th style="{cell}">{escape(visible(diagram.inputs[variable]))}</th>'
                 f'<td style="{cell}"><div style="{bar}"></div></td><td style="{cell}">{count}</td></tr>')
    caption = f'<caption style="text-align:left">{counted(len(diagram))}</caption>'
    return f'<table style="border:0;color:inherit">{caption}{rows}</table>'
