"""The pictures of docs/OPTIMA.md, by matplotlib (Debian's python3-matplotlib), as SVG. A second run gives the same bytes."""
import os
from collections import Counter

import matplotlib
from minorder._picture import draw_curves

matplotlib.use("svg")
matplotlib.rcParams.update({
    "svg.hashsalt": "minorder", "svg.fonttype": "none", "font.family": "sans-serif",
    "font.sans-serif": ["DejaVu Sans", "Verdana", "Helvetica", "Arial"], "font.size": 9,
    "axes.spines.top": False, "axes.spines.right": False, "axes.titlesize": 10, "axes.titleweight": "bold"})
from matplotlib import pyplot  # noqa: E402  the settings come first

COLOURS = ["#1b6ca8", "#d1495b", "#2f9e44"]


def save(figure, path, title):
    os.makedirs(os.path.dirname(path), exist_ok=True)
    figure.savefig(path, metadata={"Date": None, "Title": title}, bbox_inches="tight", pad_inches=0.1)
    pyplot.close(figure)


def misses(families, path):
    """How far sifting is from the optimum: a mark for each function, and the geometric mean of each family."""
    title = "Nodes after one pass of sifting from the file's order, over the fewest nodes"
    figure, axes = pyplot.subplots(figsize=(7.2, 0.6 + 0.24 * len(families)))
    labels = ("a function", "geometric mean of the family")
    for i, (_, ratios, mean) in enumerate(families):
        each, of_all = labels if i == 0 else (None, None)
        axes.plot(ratios, [i] * len(ratios), "o", color=COLOURS[0], alpha=0.45, markersize=5, markeredgewidth=0, label=each)
        axes.plot([mean], [i], "|", color=COLOURS[1], markersize=13, markeredgewidth=2.5, label=of_all)
    axes.set(title=title, xlabel="sifted nodes / fewest nodes (1 is optimal)", yticks=range(len(families)),
             yticklabels=[family for family, _, _ in families], ylim=(len(families) - 0.4, -0.6))
    axes.grid(axis="x", color="#dddddd")
    axes.set_axisbelow(True)
    axes.legend(frameon=False, loc="lower right")
    save(figure, path, title)


def few(counts, path):
    """How many functions of four and of five inputs have how many nodes, under three orders."""
    figure, both = pyplot.subplots(1, 2, figsize=(7.2, 3.4), gridspec_kw={"width_ratios": (3, 5)})
    for axes, n, said in zip(both, (4, 5), ("functions of 4 inputs", "functions of 5 inputs")):
        for place, (colour, name, share) in enumerate(zip(COLOURS[::-1], ("fewest", "sifted", "file's order"), counts[n])):
            middles, heights = [nodes + 0.28 * (place - 1) for nodes in share], [100 * part for part in share.values()]
            axes.bar(middles, heights, width=0.28, color=colour, label=name)
        # fewer nodes have too few functions to be seen
        first = min(nodes for nodes, part in counts[n][0].items() if part > 0.001)
        last = max(max(share) for share in counts[n])
        axes.set(title=said, xlabel="decision nodes", xticks=range(first, last + 1), xlim=(first - 0.6, last + 0.6))
        axes.grid(axis="y", color="#dddddd")
        axes.set_axisbelow(True)
    both[0].set_ylabel("functions, %")
    both[1].legend(frameon=False, loc="upper left")
    figure.tight_layout()
    save(figure, path, "How many functions of four and five inputs have how many nodes, under three orders")


def orders(means, shares_optimal, path):
    """How far a random order is from the optimum, and how rare optimal orders are: a mark for each function."""
    title = "A random order over the fewest nodes, and the share of all orders that is optimal"
    figure, axes = pyplot.subplots(figsize=(7.2, 4.2))
    axes.plot(shares_optimal, means, "o", color=COLOURS[0], alpha=0.45, markersize=5, markeredgewidth=0)
    axes.set(title=title, xlabel="optimal orders / all orders", ylabel="mean nodes of all orders / fewest nodes",
             xscale="log", yscale="log")
    axes.set_yticks([1, 2, 5, 10], ["1", "2", "5", "10"])
    axes.minorticks_off()
    axes.grid(color="#dddddd")
    axes.set_axisbelow(True)
    save(figure, path, title)


def shares(pairs):
    """Of (value, weight): the share of each value, from the least on."""
    total, found = 0, Counter()
    for value, weight in pairs:
        found[value] += weight
        total += weight
    return {value: found[value] / total for value in sorted(found)}


def performance(panels, path):
    """The share of functions within a ratio of the optimum, a curve for each method."""
    figure, both = pyplot.subplots(1, 2, figsize=(9.6, 4.2), sharey=True)
    colours = pyplot.get_cmap("tab10").colors
    for axes, (said, curves) in zip(both, panels.items()):
        draw_curves(axes, curves, colours)
        axes.set_title(said)
    both[0].set_ylabel("share of the functions, %")
    both[1].legend(frameon=False, loc="lower right")
    figure.tight_layout()
    save(figure, path, "The share of functions within a ratio of the optimum, by method")
