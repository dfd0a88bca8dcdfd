"""The section of docs/OPTIMA.md on all orders, with its picture."""
import math
import os

import distributions
import pictures
from minorder.benchmarks import geometric_mean

HERE = os.path.dirname(os.path.abspath(__file__))
EASY, FAR, RARE, MANY, NAMED = 1.1, 5, 10**-9, 10**6, 3


def orders_of(row):
    return math.factorial(int(row["inputs"]))


def over_optimum(row, column):
    """The number of a column over the fewest nodes; 1 for constants."""
    return float(row[column]) / int(row["optimum"]) if row["optimum"] != "0" else 1.0


def optimal_share(row):
    return int(row["optimal_orders"]) / orders_of(row)


def farthest(rows):
    """The functions whose mean is farthest off, with its ratio."""
    return ", ".join(f"`{row['name']}` with {over_optimum(row, 'mean'):.1f} times" for row in rows[:NAMED])


def rarest(rows):
    """The functions with the fewest optimal orders among all."""
    return ", ".join(f"`{row['name']}` with {int(row['optimal_orders']):,} of {row['inputs']}!"
                     for row in sorted(rows, key=optimal_share)[:NAMED])


def part(rows, into):
    """The section, from the table and the distributions in the folder; its picture is written there."""
    sizes = distributions.read(into)
    means = [over_optimum(row, "mean") for row in rows]
    pictures.orders(means, [optimal_share(row) for row in rows], f"{into}/docs/optima_orders.svg")
    far = sorted((row for row in rows if over_optimum(row, "mean") > FAR), key=lambda row: -over_optimum(row, "mean"))
    many = [row for row in rows if orders_of(row) > MANY]
    easy = [row for row in rows if over_optimum(row, "most") <= EASY]
    with open(f"{HERE}/orders.md") as text:
        return text.read().format(
            mean=f"{geometric_mean(means):.2f}", most=f"{geometric_mean([over_optimum(row, 'most') for row in rows]):.2f}",
            easy=len(easy), symmetric=sum(row["most"] == row["optimum"] for row in easy),
            far=len(far), far_names=farthest(far),
            rare=sum(optimal_share(row) <= RARE for row in rows), rarest=rarest(rows),
            file_half=sum(int(row["file_order_nodes"]) < sizes[row["name"]]["0.49"] for row in rows),
            many=len(many), sifted_thousandth=sum(int(row["sifted_nodes"]) < sizes[row["name"]]["1e-3"] for row in many),
            sifted_met=sum(row["sifted_nodes"] == row["optimum"] for row in many))
