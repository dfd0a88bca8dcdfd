"""The league's part of docs/OPTIMA.md, from optima/league.csv."""
import csv
import os
import statistics

import distributions
import league
from minorder import benchmarks
from minorder.benchmarks import CURVES, FILE, RANDOM, brief, fixed, mean_better, percent
from minorder._picture import curve_of

FAMILIES = [
    "family", "package", "method", "functions", "with_an_order", "mean_ratio", "worst_ratio", "worst_function", "optimum_met",
    "seconds",
]


# leaves an order of the variables in some functions alone
LINEAR = ("CUDD", "LINEAR")


def of_random_starts(standing):
    """Of the runs from random orders: the mean ratio, the worst ratio, the share of runs that met the optimum."""
    return [fixed(standing.mean, 3), fixed(standing.worst_ratio, 2), percent(standing.runs_met)]


HEADS = [
    "Method", "Mean ratio, file's order", "Of what ended", "Worst ratio", "Optimum met", "Late", "Seconds",
    "Mean ratio, random orders", "Worst ratio", "Runs that met it",
]


def table_cells(file, random):
    """The cells of each method, by the mean ratio from random orders."""
    for method in benchmarks.ranked(random):
        mine = file[method]
        name = " ".join(method) + (" (random)" if method in league.RANDOM else "")
        ended = f"{fixed(mine.mean_of_ended, 3)} of {len(mine.ended)}"
        worst = f"{fixed(mine.worst_ratio, 2)} ({mine.worst.name})"
        met, seconds = f"{mine.met} of {mine.whole}", fixed(mine.seconds, 1)
        yield method, [name, fixed(mine.mean, 3), ended, worst, met, mine.late or "", seconds, *of_random_starts(random[method])]


def with_shares(cells, of_file, of_random):
    """The cells of a line with those on better orders, each behind its mean ratio."""
    return [*cells[:2], of_file, *cells[2:8], of_random, *cells[8:]]


def table(file, random, orders):
    """The league's table in Markdown."""
    heads, lines = with_shares(HEADS, "Better orders", "Better orders"), []
    for method, cells in table_cells(file, random):
        lines.append(with_shares(cells, *(brief(mean_better(its[method], orders)) for its in (file, random))))
    return "\n".join("| " + " | ".join(map(str, cells)) + " |" for cells in (heads, ["---"] * len(heads), *lines))


def family_lines(rows, file):
    """The lines of optima/league_families.csv."""
    for family in dict.fromkeys(row["family"] for row in rows):
        names = [row["name"] for row in rows if row["family"] == family]
        for method, mine in ((method, its.of(names)) for method, its in file.items()):
            counts, ratios, seconds = [len(mine.lines), len(mine.ended)], ["", "", ""], ""
            if mine.ended:
                ratios = [fixed(mine.mean_of_ended, 4), fixed(mine.worst_ratio, 4), mine.worst.name]
                seconds = fixed(mine.seconds, 2)
            yield dict(zip(FAMILIES, [family, *method, *counts, *ratios, mine.met, seconds]))


def curves(standing, whole):
    return {" ".join(method): curve_of(standing[method], whole) for method in CURVES}


class League:
    """All that the page says of the league."""

    def __init__(self, into, rows):
        self.optima = benchmarks.read_optima(f"{into}/optima/optima.csv")
        self.lines = benchmarks.read_league(f"{into}/optima/league.csv")
        self.file = benchmarks.standings(self.lines, self.optima, FILE)
        self.random = benchmarks.standings(self.lines, self.optima, RANDOM)
        self.orders = benchmarks.read_sizes(f"{into}/{distributions.SIZES}")
        self.distributions = distributions.read(into)
        self.families = list(family_lines(rows, self.file))
        with open(f"{into}/optima/league_families.csv", "w", newline="") as file:
            out = csv.DictWriter(file, FAMILIES, lineterminator="\n")
            out.writeheader()
            out.writerows(self.families)

    def table(self):
        return table(self.file, self.random, self.orders)

    def panels(self):
        whole, small = len(self.optima), self.small()
        return {
            f"from the file's order, {whole} functions": curves(self.file, whole),
            f"from random orders, {small} functions of up to {benchmarks.MOST_INPUTS} inputs": curves(self.random, small),
        }

    def small(self):
        return len({line.name for line in self.lines if line.start == RANDOM})


def name_of(method):
    return f"{method[0]}'s {method[1]}" if method[0] != "minorder" else "our own pass of sifting"


def never_met(league_lines, start):
    """The functions whose optimum no run of CUDD, BuDDy or ABC from such a start met; what is late counts as not met."""
    mine = [line for line in league_lines if line.start == start]
    met = {line.name for line in mine if line.package != "minorder" and line.optimum_met}
    return [name for name in dict.fromkeys(line.name for line in mine) if name not in met]


def times_of(one, other):
    """The processor time of a run of one method over that of the other, on the functions where both ended."""
    both = {line.name for line in one.ended} & {line.name for line in other.ended}
    return one.of(both).seconds / other.of(both).seconds


def mean_of(it, method, package="CUDD"):
    """The mean ratio of a method from the file's order."""
    return fixed(it.file[(package, method)].mean, 3)


def worst_of(standing):
    """The worst ratio, with its function."""
    return f"{fixed(standing.worst_ratio, 2)} (`{standing.worst.name}`)"


def of_quick_methods(it):
    without = {*league.RANDOM, ("CUDD", "EXACT"), LINEAR}
    by_mean = sorted((method for method in it.file if method not in without), key=lambda method: it.random[method].mean)
    first, last = by_mean[0], by_mean[-1]
    return (f"Of the quick methods (without random choices, EXACT and LINEAR) {name_of(first)} has the least mean ratio from "
            f"random orders, {fixed(it.random[first].mean, 3)}; the greatest has {name_of(last)}, "
            f"{fixed(it.random[last].mean, 3)}.")


def of_sift(it):
    cudd = it.file[("CUDD", "SIFT")]
    return (f"CUDD's SIFT ends at {fixed(cudd.mean, 3)} times the optimum in the mean from the file's order and meets it in "
            f"{cudd.met} of {cudd.whole} functions; its worst is {fixed(cudd.worst_ratio, 2)} times (`{cudd.worst.name}`).")


def of_converging(it):
    return (f"To converge helps: SIFT_CONVERGE {mean_of(it, 'SIFT_CONVERGE')}, SYMM_SIFT_CONV {mean_of(it, 'SYMM_SIFT_CONV')}, "
            f"GROUP_SIFT_CONV {mean_of(it, 'GROUP_SIFT_CONV')}, against {mean_of(it, 'SIFT')}, {mean_of(it, 'SYMM_SIFT')} "
            f"and {mean_of(it, 'GROUP_SIFT')} of one pass.")


def of_windows(it):
    two, four = it.file[("CUDD", "WINDOW2")], it.file[("CUDD", "WINDOW4_CONV")]
    return (f"Windows: WINDOW2 {fixed(two.mean, 3)} from the file's order with a worst of {worst_of(two)}, "
            f"WINDOW4_CONV {fixed(four.mean, 3)} with {fixed(four.worst_ratio, 2)}.")


def of_random_choices(it):
    sift, genetic, annealing = (it.file[("CUDD", method)] for method in ("SIFT", "GENETIC", "ANNEALING"))
    times = [fixed(times_of(it, sift), 0) for it in (genetic, annealing)]
    return (f"GENETIC's and ANNEALING's median runs meet the optimum in {genetic.met} and in {annealing.met} of {genetic.whole} "
            f"functions, for {times[0]} and {times[1]} times SIFT's processor time where both ended.")


def of_exact(it):
    exact = it.file[("CUDD", "EXACT")]
    return (f"CUDD's EXACT ends in time on {len(exact.ended)} of {len(it.optima)}. Its orders have the fewest nodes without "
            f"complement edges in {exact.met} of these, {fixed(exact.mean_of_ended, 3)} in the mean; the worst is "
            f"{worst_of(exact)}.")


def of_buddy(it):
    iterated = it.file[("BuDDy", "SIFTITE")]
    return (f"BuDDy, which has no complement edges, has {mean_of(it, 'SIFT', 'BuDDy')} with SIFT and {fixed(iterated.mean, 3)} "
            f"with SIFTITE; its worst there is {worst_of(iterated)}.")


def of_own_sifting(it):
    from_random = it.random[("minorder", "sifting")].mean
    return (f"Our own pass of sifting has {mean_of(it, 'sifting', 'minorder')} from the file's order "
            f"and {fixed(from_random, 3)} from random ones.")


def of_random_starts_within(it):
    def close(method):
        return percent(sum(ratio <= 1.05 for ratio in it.random[("CUDD", method)].ratios), it.small())

    return (f"From random orders the median run is within a twentieth of the optimum in {close('SIFT')} of the functions "
            f"with CUDD's SIFT, {close('GROUP_SIFT_CONV')} with GROUP_SIFT_CONV, {close('GENETIC')} with GENETIC.")


def of_better_orders(it):
    sift, own = (mean_better(it.file[method], it.orders) for method in (("CUDD", "SIFT"), ("minorder", "sifting")))
    sift, own, random = (f"{fixed(100 * share, 1)} %" for share in (sift, own, share_at_random(it)))
    return (f"Of all orders of a function {sift} are better than what CUDD's SIFT makes of the file's order, in the mean, where "
            f"a late function counts as 100 %; {own} are better than what our own sifting makes of it; {random} are better "
            f"than a random order, a tie counted half, as chance has it.")


def share_at_random(it):
    """The share of all orders that are better than a random one, and half of those as good: the mean over ten random orders of
    each function. One half is expected."""
    means = [statistics.fmean(map(it.orders[row.name].middle, row.random_order_nodes))
             for row in it.optima.values() if row.random_order_nodes]
    return statistics.fmean(means)


def of_families(it):
    by_sift = [line for line in it.families if (line["package"], line["method"]) == ("CUDD", "SIFT")]
    worst, missed_by_all = max(by_sift, key=lambda line: float(line["mean_ratio"])), never_met(it.lines, FILE)
    return (f"The family on which CUDD's SIFT is worst is {worst['family']}, {fixed(float(worst['mean_ratio']), 3)} in the mean. "
            f"In {len(missed_by_all)} of {len(it.optima)} functions no run of CUDD, BuDDy or ABC from the file's order met the "
            f"optimum in time.")


FINDINGS = [
    of_quick_methods, of_sift, of_converging, of_windows, of_random_choices, of_exact, of_buddy, of_own_sifting,
    of_random_starts_within, of_better_orders, of_families,
]


def findings(it):
    """What the league shows, each line from its numbers."""
    return "\n".join(f"- {finding(it)}" for finding in FINDINGS)


def part(it):
    """The league's section of the page."""
    with open(f"{os.path.dirname(os.path.abspath(__file__))}/league.md") as file:
        text = file.read()
    linear = it.file[LINEAR]
    counts = {"small": it.small(), "linear": len(linear.ended), "all": len(it.optima)}
    limits = {"limit_inputs": benchmarks.MOST_INPUTS, "seconds": league.LIMIT}
    return text.format(**counts, **limits, table=it.table(), findings=findings(it))
