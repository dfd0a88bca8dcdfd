"""A score as a report for a reader, as JSON, and the runs as CSV."""
from __future__ import annotations

import csv
import io
import json
from typing import Iterator, Optional, Sequence

from . import benchmarks
from ._counting import Counted
from ._picture import START_SAID
from ._results import LATE
from ._scores import Score, Size, better_share, mean_better
from .benchmarks import brief, fixed, percent

ENDS, SHOWN = 3, 20
SEVERAL = {
    benchmarks.FILE: "the lower median of a function's runs counts, and in the runs that met the optimum their share",
    benchmarks.RANDOM: "the lower median of a numbered order's runs counts, and each run without a number",
}
CAPPED = "a late or missing function counts as the worst ratio that the league or the start has there, and none as more than that"
CSV_COLUMNS = ("name", "start", "order", "nodes", "optimum", "ratio", "better_share", "claimed", "seconds")


def aligned(rows: Sequence[Sequence[str]]) -> list[str]:
    """The rows of a table as lines, the first column on the left, the others on the right."""
    widths = [max(map(len, column)) for column in zip(*rows)]
    return ["  ".join(cell.ljust(width) if i == 0 else cell.rjust(width) for i, (cell, width) in enumerate(zip(row, widths)))
            for row in rows]


def some(names: Sequence[str]) -> str:
    """The first of the names, and how many more there are."""
    more = len(names) - SHOWN
    return " ".join(names[:SHOWN]) + (f" and {more} more" if more > 0 else "")


# ---- the league

HEADS = [
    "Method", "Mean ratio", "Better orders", "Of what ended", "Worst ratio", "Optimum met", "Runs that met it", "Late", "Seconds"]


def league_row(name: str, standing: benchmarks.Standing) -> list[str]:
    ended = len(standing.ended)
    worst = f"{fixed(standing.worst_ratio, 2)} ({standing.worst.name})" if standing.worst else ""
    return [
        name, fixed(standing.mean, 3), brief(mean_better(standing)),
        f"{fixed(standing.mean_of_ended, 3)} of {ended}" if ended else "", worst, f"{standing.met} of {standing.whole}",
        "" if standing.runs_met is None else percent(standing.runs_met), str(standing.late or ""), fixed(standing.seconds, 1)]


def marked(score: Score) -> str:
    """The method's name, with how many of its sizes are only claimed."""
    return f"{score.method} ({score.claimed} claimed)" if score.claimed else score.method


def league_table(score: Score) -> list[str]:
    """The methods of the league on the same functions, with this one in its place."""
    if score.place is None:
        return []
    rows = [league_row(" ".join(method), score.others[method]) for method in benchmarks.ranked(score.others)]
    rows.insert(score.place - 1, league_row(f"> {marked(score)}", score.standing))
    return aligned([HEADS, *rows])


# ---- the method

def all_functions(score: Score) -> str:
    count = score.standing.whole
    said = f"all {count} functions" if count != 1 else "the one function"
    return f"{said} of {', '.join(score.families)}" if score.families else said


def functions_line(score: Score) -> str:
    counted = len(score.sizes) - score.claimed
    known = f"{counted} by their orders, {score.claimed} by sizes that are only claimed"
    others = f"{score.standing.late} late, {len(score.missing)} missing"
    return f"functions: {len(score.sizes)} of {score.standing.whole}: {known}; {others}"


def ratio_lines(score: Score) -> Iterator[str]:
    mine = score.standing
    ended = len(mine.ended)
    is_whole = ended == mine.whole
    is_plain = is_whole and fixed(mine.mean, 6) == fixed(mine.mean_of_ended, 6)
    claims = f", {score.claimed} of them by sizes that are only claimed" if score.claimed else ""
    yield f"place: {score.place} of {1 + len(score.others)}, by the mean ratio on {all_functions(score)}{claims}"
    yield f"mean ratio: {fixed(mine.mean, 3)}"
    if not is_plain:
        yield f"  {CAPPED}"
    if not is_plain and ended:
        yield f"of what ended: {fixed(mine.mean_of_ended, 3)} on {ended} function{'s' * (ended != 1)}"
    not_ended = "" if is_whole else "; a late or missing function counts as 1"
    yield f"better orders: {brief(mean_better(mine))} of all, in the mean{not_ended}"
    if mine.worst:
        yield f"worst ratio: {fixed(mine.worst_ratio, 2)} ({mine.worst.name})" + ("" if is_whole else ", of the runs that ended")
    yield f"optimum met: {mine.met} of {mine.whole}"
    if mine.runs_met is not None:
        late = f"; {score.late_runs} run{'s' * (score.late_runs > 1)} late" if score.late_runs else ""
        yield f"runs that met it: {percent(mine.runs_met)}{late}"
    if mine.seconds is not None:
        yield f"seconds: {fixed(mine.seconds, 1)}"


def head(score: Score) -> list[str]:
    lines = [f"method: {score.method}", f"start: {START_SAID[score.start]}", functions_line(score)]
    return lines if score.place is None else [*lines, *ratio_lines(score)]


def notes(score: Score) -> list[str]:
    """What of the results doesn't count, and where the method's own sizes are others."""
    lines = []
    if score.left_out:
        only = f"the league has random orders for functions of up to {benchmarks.MOST_INPUTS} inputs alone"
        lines.append(f"left out, {len(score.left_out)}: {some(score.left_out)}: {only}")
    if score.few_starts:
        lines.append(f"with fewer than ten random orders, {len(score.few_starts)}: {some(score.few_starts)}: "
                     "each that is missing counts as a late run")
    if score.several:
        lines.append(f"with several runs, {len(score.several)}: {some(score.several)}: {SEVERAL[score.start]}")
    if score.of_others:
        lines.append(f"of other families, {len(score.of_others)}: {some(score.of_others)}")
    for difference, its in score.differences.items():
        first = its[0]
        example = f"as {first.run.name}, {first.run.nodes} in place of {first.nodes}"
        lines.append(f"other own size, {len(its)} run{'s' * (len(its) > 1)}, {example}: {difference}")
    return lines


def families(score: Score) -> list[str]:
    found = score.by_family
    ends = [*found[:ENDS], *found[max(ENDS, len(found) - ENDS):]]
    rows = [[f"  {it.family}", fixed(it.mean_ratio, 3), f"{it.functions} function{'s' * (it.functions > 1)}"] for it in ends]
    return ["best and worst families:", *aligned(rows)] if rows else []


def costliest(score: Score) -> list[str]:
    rows = [[f"  {it.name}", it.size, f"fewest {it.optimum}", fixed(it.ratio, 3), f"better {brief(it.better_share)}"]
            for it in score.costliest]
    return ["costliest functions:", *aligned(rows)] if rows else []


def missing(score: Score) -> list[str]:
    named = {"late": score.late, "missing": score.missing}
    lines = [f"{what}, {len(names)}: {some(names)}" for what, names in named.items() if names]
    if score.missing and score.whole_families:
        lines.append(f"families of which nothing is missing (FAMILY scores one alone): {', '.join(score.whole_families)}")
    return lines


def report(scores: Sequence[Score]) -> str:
    parts = [part(score) for score in scores for part in (head, notes, league_table, families, costliest, missing)]
    return "\n\n".join("\n".join(part) for part in parts if part) + "\n"


# ---- for programs

def standing_object(standing: benchmarks.Standing, claimed: int) -> dict[str, object]:
    worst = {"name": standing.worst.name, "ratio": standing.worst_ratio} if standing.worst else None
    return {
        "functions": standing.whole, "ended": len(standing.ended), "late": standing.late, "mean_ratio": standing.mean,
        "mean_ratio_of_ended": standing.mean_of_ended, "mean_better_share": mean_better(standing), "worst": worst,
        "optimum_met": standing.met, "runs": standing.runs, "runs_met_share": standing.runs_met, "seconds": standing.seconds,
        "claimed": claimed,
    }


def size_object(size: Size) -> dict[str, object]:
    return {
        "name": size.name, "nodes": size.nodes, "optimum": size.optimum, "ratio": size.ratio, "better_share": size.better_share,
        "claimed": size.claimed, "seconds": size.seconds,
    }


def difference_object(it: Counted) -> dict[str, object]:
    return {"name": it.run.name, "start": it.run.start, "own_nodes": it.run.nodes, "nodes": it.nodes, "why": it.difference}


def score_object(score: Score) -> dict[str, object]:
    return {
        "method": score.method, "start": score.start, "families_asked_for": score.families,
        **standing_object(score.standing, score.claimed), "place": score.place, "places": 1 + len(score.others),
        "late_functions": score.late, "late_runs": score.late_runs, "missing": score.missing, "few_starts": score.few_starts,
        "several_runs": score.several, "left_out": score.left_out, "of_other_families": score.of_others,
        "other_own_sizes": [difference_object(it) for its in score.differences.values() for it in its],
        "families": [it._asdict() for it in score.by_family],
        "costliest": [it.name for it in score.costliest],
        "results": [size_object(size) for size in score.sizes],
        "league": [dict(standing_object(score.others[package, method], 0), package=package, method=method)
                   for package, method in benchmarks.ranked(score.others)],
    }


def json_text(scores: Sequence[Score]) -> str:
    return json.dumps([score_object(score) for score in scores], indent=1, allow_nan=False) + "\n"


def cells_of(it: Counted) -> list[object]:
    run, optimum = it.run, benchmarks.optima()[it.run.name].optimum
    nodes: Optional[int] = it.nodes
    return [
        run.name, run.start, " ".join(map(str, run.order or ())), LATE if nodes is None else nodes, optimum,
        "" if nodes is None else fixed(nodes / optimum, 4), better_share(run.name, nodes), int(run.claimed),
        "" if run.seconds is None else repr(run.seconds)]


def csv_text(runs: Sequence[Counted]) -> str:
    """A line for each run."""
    out = io.StringIO()
    table = csv.writer(out, lineterminator="\n")
    table.writerow(CSV_COLUMNS)
    table.writerows(cells_of(it) for it in runs)
    return out.getvalue()
