"""docs/optima.html: the tables of optima and of the league in one file that needs no network, with the libraries of Debian's
libjs-jquery, libjs-jquery-datatables and libjs-d3 and their licences; Graphviz lays out the diagrams."""
import csv
import json
import os
import re
import shutil
from html import escape

import league
import league_page
import page_data
from minorder import __version__, benchmarks
from minorder.benchmarks import fixed

HERE = os.path.dirname(os.path.abspath(__file__))
SCRIPTS = (
    "data", "message", "tables", "filters", "keys", "curves", "orders", "function", "csv", "results", "count", "own_rows", "own",
    "link")
SHARED = "/usr/share/javascript"
LIBRARIES = {
    "libjs-jquery": f"{SHARED}/jquery/jquery.min.js",
    "libjs-jquery-datatables": f"{SHARED}/jquery-datatables/jquery.dataTables.min.js",
    "libjs-d3": f"{SHARED}/d3/d3.min.js",
}
MOST_BYTES = 2_000_000
# the columns of the tables, by their names in the page's address
LEAGUE_COLUMNS = dict(zip(
    ("method", "mean", "ended", "worst", "met", "late", "seconds", "random", "random-worst", "random-met"),
    league_page.HEADS))
FUNCTION_COLUMNS = {
    "name": "Name", "names": "Field's names", "family": "Family", "what": "What", "inputs": "Inputs", "outputs": "Outputs",
    "file": "File order", "nodes": "Sifted", "optimum": "Optimum", "ratio": "Ratio",
    "mean": "Mean over optimum", "most": "Most over optimum", "optimal-orders": "Optimal orders", "order": "First optimal order",
}
FUNCTION_CLASSES = {
    "names": "wide", "family": "wide", "what": "wide", "file": "wide", "optimum": "best", "mean": "wide", "most": "wide",
    "optimal-orders": "wide", "order": "order",
}
FAMILY_COLUMNS = {"family": "Family", "functions": "Functions", "inputs": "Inputs"}


def text_of(path):
    with open(path, encoding="utf-8") as file:
        return file.read()


def part(name):
    return text_of(f"{HERE}/html/{name}")


def missing():
    """Debian's packages that aren't here."""
    graphviz = [] if shutil.which("dot") else ["graphviz"]
    return [package for package, path in LIBRARIES.items() if not os.path.exists(path)] + graphviz


# ---- tables that stand without scripts

def row_of(first, *cells, attributes=""):
    """A row by the attributes and the contents of its cells, the first of which is its head."""
    return f'<tr{attributes}><th scope="row"{first}</th>' + "".join(f"<td{cell}</td>" for cell in cells) + "</tr>"


def cell(text, order=None, classes="", link=None):
    """The attributes and the content of a cell; ``order`` is what it is sorted by where that isn't its text."""
    said = f'<a href="#{link}">{escape(str(text))}</a>' if link else escape(str(text))
    return (f' class="{classes}"' if classes else "") + (f' data-order="{order}"' if order is not None else "") + f">{said}"


def head_cells(columns, sorted_by, classes):
    """The head cells of a table, each with the key by which the page's address names its column."""
    return "".join(
        f'<th scope="col" data-key="{escape(key)}"' + (' aria-sort="ascending"' if key == sorted_by else "")
        + f'{cell(text, classes=classes.get(key, ""))}</th>' for key, text in columns.items())


def league_rows(it):
    """A row for each method, with the cells of the table of OPTIMA.md."""
    rows = []
    for method, cells in league_page.table_cells(it.file, it.random):
        file, random = it.file[method], it.random[method]
        worst, link = cells[3].split(" ")[0], f'<a href="#{file.worst.name}">{file.worst.name}</a>'
        keys = [
            file.mean, file.mean_of_ended, None, file.met, file.late, file.seconds, random.mean, random.worst_ratio,
            random.runs_met]
        said = [cell(text, key) for text, key in zip(cells[1:], keys)]
        said[2] = f' data-order="{file.worst_ratio}">{worst} ({link})'
        rows.append(row_of(cell(cells[0]), *said, attributes=f' data-method="{escape(" ".join(method))}"'))
    return rows


def by_number(name):
    """A key that sorts names by the numbers in them."""
    return re.sub(r"\d+", lambda digits: digits[0].zfill(5), name)


def orders_cells(row, orders):
    """The cells of how far off the mean and the worst order are, and of how many are optimal."""
    ratios = (row.mean / row.optimum, row.most / row.optimum)
    optimal = orders.up_to[0]
    return [*(cell(fixed(it, 2), it, "wide") for it in ratios), cell(f"{optimal:,}", optimal, "wide")]


def function_row(row, orders):
    ratio = row.sifted_nodes / row.optimum
    return row_of(
        cell(row.name, by_number(row.name), link=row.name),
        *(cell(text, classes="wide") for text in (" ".join(row.aliases), row.family, row.what)),
        cell(row.inputs), cell(row.outputs), cell(row.file_order_nodes, classes="wide"), cell(row.sifted_nodes),
        cell(row.optimum, classes="best"), cell(fixed(ratio, 3), ratio), *orders_cells(row, orders),
        cell(" ".join(map(str, row.first_optimal_order)), classes="order"), attributes=f' data-name="{row.name}"')


def function_rows(it):
    return [function_row(it.optima[name], it.orders[name]) for name in sorted(it.optima, key=by_number)]


def family_row(it, family, names, methods):
    means = []
    for method in methods:
        mine = it.file[method].of(names)
        partly = "" if len(mine.ended) == mine.whole else "*"
        ratio = mine.mean_of_ended
        means.append(cell(f"{fixed(ratio, 3)}{partly}", ratio) if mine.ended else cell("late" if mine.late else "no order", 1e9))
    inputs = [it.optima[name].inputs for name in names]
    span = f"{min(inputs)}" if min(inputs) == max(inputs) else f"{min(inputs)} to {max(inputs)}"
    return row_of(cell(family), cell(len(names)), cell(span, max(inputs)), *means)


def family_rows(it, methods):
    families = {}
    for row in it.optima.values():
        families.setdefault(row.family, []).append(row.name)
    return [family_row(it, family, families[family], methods) for family in sorted(families, key=str.lower)]


# ---- the page

def by_hand():
    with open(f"{HERE}/by_hand.csv", newline="", encoding="utf-8") as file:
        return list(csv.DictReader(file))


def by_hand_items(rows):
    return "\n".join(
        f"<dt>{escape(row['what'])}: {escape(row['nodes'])} nodes</dt><dd>{escape(row['why'])}</dd>" for row in rows)


def licences():
    """What Debian says of each library's licence."""
    said = (f"<h3>{package}</h3>\n<pre>{escape(text_of(f'/usr/share/doc/{package}/copyright'))}</pre>" for package in LIBRARIES)
    return "\n".join(said)


def as_script(data):
    """An object as JSON that a script element may hold, a line for each function and method."""
    text = json.dumps(data, separators=(",", ":"), allow_nan=False)
    return re.sub(r'(\{"(?:name|package)":)', r"\n\1", text).replace("</", "<\\/")


def page(it):
    """The text of the page of a league with its optima."""
    methods, hand = benchmarks.ranked(it.random), by_hand()
    by_stem = {row["stem"]: [row["what"], row["nodes"], row["why"]] for row in hand}
    parts = {
        "all": len(it.optima), "small": it.small(), "most_inputs": benchmarks.MOST_INPUTS, "seconds": league.LIMIT,
        "linear": len(it.file[league_page.LINEAR].ended), "version": __version__, "style": part("style.css"),
        "league_heads": head_cells(LEAGUE_COLUMNS, "random", {}), "league_rows": "\n".join(league_rows(it)),
        "function_heads": head_cells(FUNCTION_COLUMNS, "name", FUNCTION_CLASSES),
        "function_rows": "\n".join(function_rows(it)),
        "family_heads": head_cells({**FAMILY_COLUMNS, **{label: label for label in map(" ".join, methods)}}, "family", {}),
        "family_rows": "\n".join(family_rows(it, methods)),
        "findings": "\n".join(f"<li>{escape(finding(it)).replace('`', '')}</li>" for finding in league_page.FINDINGS),
        "by_hand": by_hand_items(hand), "licences": licences(),
        "libraries": "\n".join(f"<script>{text_of(path)}</script>" for path in LIBRARIES.values()),
        "data": as_script(page_data.data_of(it, by_stem, __version__)),
        "scripts": "\n".join(f"<script>{part(f'{name}.js')}</script>" for name in SCRIPTS),
    }
    return re.sub(r"\{\{(\w+)\}\}", lambda found: str(parts[found[1]]), part("page.html"))


def make(it, path):
    """Writes the page, where Debian's libraries are here."""
    absent = missing()
    if absent:
        print(f"left out: {path}, for which Debian's {', '.join(absent)} aren't here")
        return
    text = page(it)
    if len(text.encode()) > MOST_BYTES:
        raise SystemExit(f"{path}: {len(text.encode())} bytes, more than {MOST_BYTES}")
    with open(path, "w", encoding="utf-8") as file:
        file.write(text)
