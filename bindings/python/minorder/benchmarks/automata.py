"""Cellular automata, and properties of small graphs and boards."""
from __future__ import annotations

from itertools import combinations, permutations
from typing import Iterator, Sequence

from .entry import Bits, Entry, Formula, named


def stepped(rule: int, cells: Bits) -> list[int]:
    """The cells that have both neighbours, one step on."""
    return [rule >> (4 * cells[i - 1] + 2 * cells[i] + cells[i + 1]) & 1 for i in range(1, len(cells) - 1)]


def middle(rule: int, steps: int) -> Formula:
    """The middle cell after so many steps, a function of the cells that far away."""
    def values(x: Bits) -> Sequence[object]:
        for _ in range(steps):
            x = stepped(rule, x)
        return x
    return values


def ring(rule: int, steps: int) -> Formula:
    """The cells of a ring after so many steps."""
    def values(x: Bits) -> Sequence[object]:
        for _ in range(steps):
            x = stepped(rule, [x[-1], *x, x[0]])
        return x
    return values


def life(x: Bits) -> Sequence[object]:
    """Conway's Life: the eight neighbours in rows, the cell in their middle."""
    around = sum(x) - x[4]
    return [around == 3 or x[4] and around == 2]


def edges(n: int) -> list[tuple[int, int]]:
    return list(combinations(range(n), 2))


def is_connected(n: int) -> Formula:
    def values(x: Bits) -> Sequence[object]:
        reached = {0}
        for _ in range(n):
            reached |= {w for bit, edge in zip(x, edges(n)) if bit and reached & set(edge) for w in edge}
        return [len(reached) == n]
    return values


def has_triangle(n: int) -> Formula:
    triangles = [[edges(n).index(edge) for edge in combinations(three, 2)] for three in combinations(range(n), 3)]
    return lambda x: [any(all(x[edge] for edge in triangle) for triangle in triangles)]


def is_permutation(n: int) -> Formula:
    """Exactly one in each row and each column of a square."""
    return lambda x: [all(sum(x[n * i:n * i + n]) == 1 for i in range(n)) and all(sum(x[i::n]) == 1 for i in range(n))]


def is_queens(n: int) -> Formula:
    """n queens on a board of n rows, none in another's row, column or diagonal."""
    def is_peaceful(board: Sequence[int]) -> bool:
        return all(abs(board[i] - board[j]) != j - i for i, j in combinations(range(n), 2))

    boards = filter(is_peaceful, permutations(range(n)))
    placed = {tuple(int(board[i] == j) for i in range(n) for j in range(n)) for board in boards}
    return lambda x: [tuple(x) in placed]


def determinant(n: int) -> Formula:
    """The determinant over the field of two elements."""
    def values(x: Bits) -> Sequence[object]:
        rows, rank = [x[n * i:n * i + n] for i in range(n)], 0
        for column in range(n):
            pivot = next((i for i in range(rank, n) if rows[i][column]), None)
            if pivot is None:
                return [0]
            rows[rank], rows[pivot] = rows[pivot], rows[rank]
            rows = [[a ^ b for a, b in zip(row, rows[rank])] if i > rank and row[column] else row for i, row in enumerate(rows)]
            rank += 1
        return [1]
    return values


def entries() -> Iterator[Entry]:
    family = "cellular automata"
    for rule in (30, 110):
        for steps in range(2, 8):
            yield Entry(family, f"rule{rule}_{steps}", named("x", 2 * steps + 1), 1,
                        f"the middle cell after {steps} steps of rule {rule} (Wolfram 1983)", middle(rule, steps))
        for n, steps in ((8, 2), (8, 4), (12, 4)):
            yield Entry(family, f"ring{rule}_{n}_{steps}", named("x", n), n,
                        f"a ring of {n} cells after {steps} steps of rule {rule}", ring(rule, steps))
    yield Entry(family, "life", named("x", 9), 1, "a cell of Conway's Life after a step, the inputs in rows (Gardner 1970)", life)
    family = "graphs and boards"
    for n in (4, 5, 6):
        inputs = [f"e{i}_{j}" for i, j in edges(n)]
        yield Entry(family, f"connected{n}", inputs, 1, f"the graph of {n} vertices with these edges is connected",
                    is_connected(n))
        yield Entry(family, f"triangle{n}", inputs, 1, f"the graph of {n} vertices with these edges has a triangle",
                    has_triangle(n))
    for n in (3, 4):
        inputs = [f"x{i}{j}" for i in range(n) for j in range(n)]
        yield Entry(family, f"permutation{n}", inputs, 1, f"a square of {n} rows has exactly one 1 in each row and column",
                    is_permutation(n))
        yield Entry(family, f"determinant{n}", inputs, 1, f"the determinant of {n} rows over the field of two elements",
                    determinant(n))
    squares = [f"x{i}{j}" for i in range(4) for j in range(4)]
    yield Entry(family, "queens4", squares, 1, "four queens on a board of four rows that don't attack one another", is_queens(4))
