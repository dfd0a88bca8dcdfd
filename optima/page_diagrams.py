"""Diagrams of small functions under their first optimal orders, laid out by Graphviz (Debian's graphviz)."""
import subprocess

from minorder import diagram
from minorder._drawings import dot_of

MOST = 40
# of a picture's units to an inch of Graphviz's
SCALE = 72


def laid_out(found, name):
    """The lines that Graphviz answers, as words."""
    text = dot_of([("", found)], name)
    plain = subprocess.run(["dot", "-Tplain"], input=text, capture_output=True, text=True, check=True).stdout
    return [line.split(" ") for line in plain.splitlines()]


def curve(numbers, height):
    """A path through the control points that Graphviz gives, from above."""
    points = [(round(SCALE * float(x)), round(SCALE * (height - float(y)))) for x, y in zip(numbers[::2], numbers[1::2])]
    # each three points stand as differences to the last one before them
    steps = [points[i][axis] - points[(i - 1) // 3 * 3][axis] for i in range(1, len(points)) for axis in (0, 1)]
    return f"M{points[0][0]} {points[0][1]}c{' '.join(map(str, steps))}".replace(" -", "-")


def said_of(name, label, found, inputs):
    """The kind of a mark, and its text."""
    if name.startswith("af"):
        return "name", label
    number = int(name[1:])
    return ("end", label) if number < 2 else ("node", inputs[found.nodes[number - 2].variable])


def diagram_of(entry, order):
    """Size; marks as kind (node, end, name), place and text; the paths of the edges of 0, of 1, and of the roots."""
    # the page has circles, so the layout knows only the short names x0, x1, ..
    found = diagram(entry.tables(), order)
    lines = laid_out(found, entry.name)
    width, height = (float(word) for word in lines[0][2:4])
    marks, paths = [], {"0": "", "1": "", "f": ""}
    for words in lines:
        kind, name, style = words[0], words[1] if len(words) > 1 else "", words[-2] if len(words) > 2 else ""
        # the names of the levels, and what only keeps them apart, are not drawn
        if kind == "node" and not name.startswith(("av", "at")):
            place = [round(SCALE * float(words[2])), round(SCALE * (height - float(words[3])))]
            shape, text = said_of(name, words[6].strip('"'), found, entry.inputs)
            marks.append([shape, *place, text])
        elif kind == "edge" and style != "invis":
            count, drawn = int(words[3]), "f" if name.startswith("af") else "0" if style == "dashed" else "1"
            paths[drawn] += curve(words[4:4 + 2 * count], height)
    return {"size": [round(SCALE * width), round(SCALE * height)], "marks": marks, "paths": paths}
