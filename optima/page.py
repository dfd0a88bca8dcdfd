"""docs/OPTIMA.md with its pictures and docs/optima.html, from the tables."""
import os

import few
import orders_page
import pictures
import table
from minorder.benchmarks import aliases, geometric_mean

HERE = os.path.dirname(os.path.abspath(__file__))
# the function that is cited as an example
SHOWN = "hwb16"
LEAGUE_LINK = "- [The league of heuristics](#the-league): how far the methods of CUDD, BuDDy and ABC end from the optimum.\n"


def text_of(name):
    with open(f"{HERE}/{name}") as file:
        return file.read()


def ratio(row):
    return int(row["sifted_nodes"]) / int(row["optimum"])


def families_of(rows):
    found = {}
    for row in rows:
        found.setdefault(row["family"], []).append(row)
    return found


def cells_line(cells):
    """A line of a table in Markdown."""
    return "| " + " | ".join(map(str, cells)) + " |"


def alias_table(rows):
    """A line for each name of the field: the function here, the rule that its file was made by, its fewest nodes."""
    found = {row["name"]: row for row in rows}
    out = ["| Name | Here | Rule | Inputs | Outputs | Optimum |", "|---|---|---|---|---|---|"]
    for alias, (here, inputs, outputs) in aliases.FIELD.items():
        row = found[here]
        out.append(f"| `{alias}` | {here} | {row['what']} | {inputs} | {outputs} | **{row['optimum']}** |")
    return "\n".join(out)


def mean(share):
    return sum(nodes * part for nodes, part in share.items())


def few_shares(counts, classes):
    """By the number of inputs the shares of the fewest, the sifted and the file order's nodes."""
    found = {}
    for n in range(1, 6):
        mine = [row for row in counts if row["inputs"] == str(n)]
        best = [row for row in classes if row["inputs"] == str(n)]
        found[n] = [share_of(best, "optimum"), share_of(mine, "sifted_nodes"), share_of(mine, "file_order_nodes")]
    return found


def share_of(rows, column):
    """The share of the functions by their number of nodes in a column."""
    return pictures.shares((int(row[column]), int(row["functions"])) for row in rows)


def few_line(n, counts, classes, share):
    mine = [row for row in counts if row["inputs"] == str(n)]
    with_nodes = [row for row in mine if row["optimum"] != "0"]
    best = {int(row["optimum"]): row for row in classes if row["inputs"] == str(n)}

    def met(column):
        return functions_of(row for row in mine if row[column] == row["optimum"]) / functions_of(mine)

    def missed(column):
        weighed = (int(row["functions"]) * int(row[column]) / int(row["optimum"]) for row in with_nodes)
        return sum(weighed) / functions_of(with_nodes) - 1

    worst = max(with_nodes, key=lambda row: int(row["sifted_nodes"]) / int(row["optimum"]))
    functions_in_all, classes_in_all = functions_of(best.values()), sum(int(row["classes"]) for row in best.values())
    cells = [n, f"{functions_in_all:,}", f"{classes_in_all:,}", f"{mean(share[0]):.3f}", said_of_most(best)]
    for column in ("file_order_nodes", "sifted_nodes"):
        cells += [f"{100 * met(column):.1f} %", f"{100 * missed(column):.2f} %"]
    return cells_line([*cells, said_of_worst(worst)])


def said_of_worst(row):
    """The sifted nodes and the fewest of the function that sifting misses most; nothing if it misses none."""
    return f"{row['sifted_nodes']} nodes where {row['optimum']} suffice" if row["sifted_nodes"] != row["optimum"] else ""


def functions_of(rows):
    return sum(int(row["functions"]) for row in rows)


def said_of_most(best):
    """The greatest number of nodes, and how many functions and classes have it."""
    most = max(best)
    functions_there, classes_there = int(best[most]["functions"]), int(best[most]["classes"])
    return f"{most}, of {functions_there:,} functions in {classes_there:,} class{'' if classes_there == 1 else 'es'}"


def optima_table(classes, most):
    """How many functions of each number of inputs have which fewest number of nodes."""
    out = [cells_line(["Inputs", *range(most + 1)]), "|---|" + "---|" * (most + 1)]
    for n in range(1, 6):
        by_nodes = {int(row["optimum"]): int(row["functions"]) for row in classes if row["inputs"] == str(n)}
        out.append(cells_line([n, *(f"{by_nodes[nodes]:,}" if nodes in by_nodes else "" for nodes in range(most + 1))]))
    return "\n".join(out)


def few_part(programs):
    """The section on functions of few inputs, with its picture."""
    counts, classes = few.read(programs.into, "few"), few.read(programs.into, "few_classes")
    found = few_shares(counts, classes)
    pictures.few(found, f"{programs.into}/docs/optima_few.svg")
    lines = [few_line(n, counts, classes, found[n]) for n in range(1, 6)]
    optima = optima_table(classes, max(found[5][0]))
    calls, of_classes = (row["processor_seconds"] for row in few.read(programs.into, "few_times"))
    return text_of("few.md").format(
        rows="\n".join(lines), optima=optima, calls=calls, classes=of_classes, random=f"{few.RANDOM:,}")


def citing_part(minorder, rows):
    """How to cite a row, shown by one."""
    row = next(row for row in rows if row["name"] == SHOWN)
    sums = {"pla": row["pla_sha256"], "certificate": row["certificate_sha256"]}
    of_orders = {column: row[column] for column in ("optimal_orders", "most", "mean")}
    return text_of("citing.md").format(
        version=minorder.__version__, name=row["name"], optimum=row["optimum"], orders=f"{row['inputs']}!", **of_orders, **sums)


def league_part(programs, rows):
    """The league's section with its picture, and the page, where it was run."""
    if not os.path.exists(f"{programs.into}/optima/league.csv"):
        return []
    import league_page
    import page_html
    it = league_page.League(programs.into, rows)
    pictures.performance(it.panels(), f"{programs.into}/docs/optima_league.svg")
    page_html.make(it, f"{programs.into}/docs/optima.html")
    return [league_page.part(it)]


def front_part(rows, kept, link):
    """The page's beginning."""
    missed = sorted((row for row in rows if ratio(row) > 1), key=ratio)
    worst, worst_ratio = missed[-1]["name"], f"{ratio(missed[-1]):.2f}"
    return text_of("front.md").format(
        all=len(rows), kept=kept, met=len(rows) - len(missed), worst=worst, worst_ratio=worst_ratio, league=link)


def make(programs):
    minorder, rows = table.library(), table.read(programs.into)
    docs = f"{programs.into}/docs"
    ratios = {family: list(map(ratio, mine)) for family, mine in families_of(rows).items()}
    pictures.misses([(family, it, geometric_mean(it)) for family, it in ratios.items()], f"{docs}/optima_sifting.svg")
    kept = sum(name.endswith(".cert") for name in os.listdir(f"{programs.into}/{table.CASES}/optima"))
    league = league_part(programs, rows)
    front = front_part(rows, kept, LEAGUE_LINK if league else "")
    named = text_of("aliases.md").format(aliases=alias_table(rows))
    orders = orders_page.part(rows, programs.into)
    parts = [front, *league, orders, named, few_part(programs), citing_part(minorder, rows), text_of("works.md")]
    table.write(f"{docs}/OPTIMA.md", "\n".join(parts))
