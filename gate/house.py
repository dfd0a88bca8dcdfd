#!/usr/bin/env python3
"""house.py [-v]      counts what makes the repository hard to live in: long contracts, functions of many parameters, code that
                stands twice, proofs beside code, long files and lines, and lines of crates.txt and files of proofs that nothing
                uses. The crates that hold tests alone are left out of the first four, and of the width of comments. With -v it
                names the places. Exit status 1 if there are more of one than there may be."""
import os
import re
import sys
from typing import Iterable, Iterator, NamedTuple

sys.path.append(os.path.join(os.path.dirname(os.path.dirname(os.path.abspath(__file__))), "build"))
from crates import TOP, used  # noqa: E402

LONG_CONTRACT, MANY_PARAMETERS, WINDOW, LONG_FILE = 10, 7, 5, 400
COMMENT_COLUMNS, PYTHON_COLUMNS, PROOF_COLUMNS = 100, 130, 160
# how many there may be of each
MOST_CONTRACTS, MOST_PARAMETERS = 10, 0
MOST_WINDOWS_OF_TWO, MOST_WINDOWS_OF_ONE = 7, 37
MOST_FILES, MOST_UNUSED, MOST_WIDE = 4, 0, 0
NO_CODE = ("//", "use ", "ghost use ", "pub use ", "mod ", "pub mod ", "#!")
FUNCTION = re.compile(r"^\s*(pub(\([a-z]+\))? )?(const )?(unsafe )?(extern \"C\" )?fn (\w+)")
# calls whose parameters include/minorder.h or the project's description fixes
FIXED_CALLS = frozenset("""
    certificate::new2 dd_builder::build dd_builder::from_cover dd_builder::from_tables unique_table::set_entry
    minorder_c::minorder_certify_with_pairs minorder_c::minorder_check_total_with_pairs minorder_c::minorder_diagram_with_lengths
    minorder_c::minorder_exact_above_with_lengths minorder_c::minorder_exact_diagram_many_with_lengths
    minorder_c::minorder_exact_diagram_with_lengths minorder_c::minorder_exact_many_with_lengths
    minorder_c::minorder_exact_with_lengths minorder_c::minorder_read_pla_with_lengths minorder_c::minorder_sift_with_lengths
    minorder_c::minorder_sizes_with_pairs""".split())
# brackets with none in them
INNER = re.compile(r"[(\[<{][^()\[\]<>{}]*[)\]>}]")
# values by computation, which the prover checks and nothing cites
WORKED = "Worked"
# crates of definitions and laws, with little code
THEORY = ("definitions", "subfunction_classes", "node_words", "round_trip")
# a line of code with its crate and its place
Row = tuple[str, str, str]


class Count(NamedTuple):
    """What is counted, where it stands, and how often it may."""
    what: str
    places: list[str]
    most: int

    def is_over(self) -> bool:
        return len(self.places) > self.most

    def say(self, is_named: bool) -> None:
        print(f"{self.what}: {len(self.places)}" + (f", MORE THAN {self.most}" if self.is_over() else f" (at most {self.most})"))
        if is_named:
            print(*(f"    {it}" for it in self.places), sep="\n")


def crates_of_code() -> list[str]:
    return [it for it in used() if not it.endswith("_tests")]


def files(folder: str, *endings: str) -> Iterator[str]:
    for at, folders, names in os.walk(folder):
        folders[:] = sorted(it for it in folders if it != "out" and not it.startswith("."))
        yield from (f"{at}/{name}" for name in sorted(names) if name.endswith(endings))


def lines_of(path: str) -> list[str]:
    with open(path, encoding="utf-8") as it:
        return it.read().splitlines()


def parameters(lines: list[str], at: int) -> int:
    """How many parameters the function at a line has."""
    text = " ".join(line.split("//")[0] for line in lines[at:at + 30]).replace("->", "")
    text = text[text.index("(") + 1:]
    while inner := INNER.search(text):
        text = text[:inner.start()] + text[inner.end():]
    return sum(bool(it.strip()) for it in text.split(")")[0].split(","))


def contract_lines(lines: list[str], at: int) -> int:
    """How many lines its contract has, from the first clause to the body."""
    first = None
    for number, line in enumerate(lines[at:]):
        if number and FUNCTION.match(line):
            return 0
        line = line.strip()
        if first is None and re.match(r"(requires|ensures)\b", line):
            first = number
        if line in ("{", "{}"):
            return 0 if first is None else number - first
        if first is None and (line.endswith(";") or line.endswith("{") and not re.search(r"(requires|ensures)", line)):
            return 0
    return 0


def files_of_code() -> Iterator[tuple[str, str]]:
    """The files of the crates that hold more than tests, with their crates."""
    for crate in crates_of_code():
        yield from ((crate, path) for path in files(f"{TOP}/crates/{crate}/src", ".rt"))


def functions() -> Iterator[tuple[str, str, int, int]]:
    """The functions by crate and name, with their places, how many parameters they have, and the lines of their contracts."""
    for crate, path in files_of_code():
        lines = lines_of(path)
        for at, line in enumerate(lines):
            if found := FUNCTION.match(line):
                place = f"{os.path.relpath(path, TOP)}:{at + 1} {found[6]}"
                yield f"{crate}::{found[6]}", place, parameters(lines, at), contract_lines(lines, at)


def rows_of_code() -> Iterator[list[Row]]:
    """The lines of code of each file: no blank ones, comments, imports, closing brackets."""
    for crate, path in files_of_code():
        lines = ((f"{os.path.relpath(path, TOP)}:{number}", line.strip()) for number, line in enumerate(lines_of(path), 1))
        yield [(crate, at, line) for at, line in lines if not line.startswith(NO_CODE) and re.search(r"\w", line)]


def windows(rows_of_files: Iterable[list[Row]]) -> tuple[list[str], list[str]]:
    """The runs of equal lines that stand twice: in two crates, and in one."""
    seen: dict[tuple[str, ...], list[tuple[str, str]]] = {}
    for rows in rows_of_files:
        for at in range(len(rows) - WINDOW + 1):
            window = rows[at:at + WINDOW]
            seen.setdefault(tuple(line for *_, line in window), []).append(window[0][:2])
    among: tuple[list[str], list[str]] = [], []
    for places in (it for it in seen.values() if len(it) > 1):
        among[len({crate for crate, _ in places}) == 1].append(" ~ ".join(place for _, place in places))
    return among


def unused() -> Iterator[str]:
    """What crates.txt says that a crate uses, and its sources don't name; and files of lemmas that nothing cites."""
    rows = used()
    paths = (path for crate in rows for end in (".rt", ".antt") for path in files(f"{TOP}/crates/{crate}", end))
    texts = {path: "\n".join(lines_of(path)) for path in paths}
    for crate, uses in rows.items():
        own = "\n".join(text for path, text in texts.items() if path.startswith(f"{TOP}/crates/{crate}/"))
        yield from (f"crates.txt: {crate} on {it}" for it in uses if not re.search(rf"\b{it}::|\bRattle\.{it}\.", own))
    cited = set(re.findall(r"Rattle\.(\w+)\.proofs\.(\w+)", "\n".join(texts.values())))
    for path, text in texts.items():
        crate, _, place = os.path.relpath(path, f"{TOP}/crates").partition("/proofs/")
        name = place.removesuffix(".antt")
        if place and "/" not in place and name != "Lib" and not name.startswith(WORKED) and (crate, name) not in cited:
            if not any(f"crate::proofs::{name}" in it for at, it in texts.items() if at.startswith(f"{TOP}/crates/{crate}/")):
                yield f"crates/{crate}/proofs/{place}"


def long_files() -> Iterator[str]:
    counts = ((len(lines_of(path)), os.path.relpath(path, TOP)) for path in files(TOP, ".rt", ".antt", ".py"))
    return (f"{count} {place}" for count, place in counts if count > LONG_FILE)


def wide_lines() -> Iterator[str]:
    # the files, the columns that they may have, and the lines that are looked at
    for paths, columns, of_lines in (
            ((path for _, path in files_of_code()), COMMENT_COLUMNS, r"\s*//"),
            (files(TOP, ".py"), PYTHON_COLUMNS, ""),
            (files(f"{TOP}/crates", ".antt"), PROOF_COLUMNS, "(?!use )")):
        for path in paths:
            for number, line in enumerate(lines_of(path), 1):
                if len(line) > columns and re.match(of_lines, line):
                    yield f"{os.path.relpath(path, TOP)}:{number}"


def say_lines(what: str, among: Iterable[str]) -> None:
    proofs, rust = (
        sum(len(lines_of(path)) for crate in among for path in files(f"{TOP}/crates/{crate}", end)) for end in (".antt", ".rt"))
    print(f"{what}: {proofs} to {rust}, {proofs / rust:.2f}")


def counts() -> list[Count]:
    every = list(functions())
    long = sorted((lines, place) for _, place, _, lines in every if lines >= LONG_CONTRACT)
    many = {name: f"{count} {place}" for name, place, count, _ in every if count >= MANY_PARAMETERS}
    unnamed = [place for name, place in many.items() if name not in FIXED_CALLS]
    stale = [f"{name}, which is named as fixed, has fewer" for name in sorted(FIXED_CALLS - set(many))]
    of_two, of_one = windows(rows_of_code())
    wide = f"comments over {COMMENT_COLUMNS} columns, Python lines over {PYTHON_COLUMNS}, lines of proofs over {PROOF_COLUMNS}"
    return [
        Count(f"contracts of {LONG_CONTRACT} lines or more, of {len(every)} functions",
              [f"{lines} {place}" for lines, place in reversed(long)], MOST_CONTRACTS),
        Count(f"functions of {MANY_PARAMETERS} parameters or more, but for calls whose form is fixed outside",
              [*unnamed, *stale], MOST_PARAMETERS),
        Count(f"equal windows of {WINDOW} lines of code in two crates", of_two, MOST_WINDOWS_OF_TWO),
        Count("such windows in one crate", of_one, MOST_WINDOWS_OF_ONE),
        Count(f"files over {LONG_FILE} lines", list(long_files()), MOST_FILES),
        Count("lines of crates.txt and files of lemmas that nothing uses", list(unused()), MOST_UNUSED),
        Count(wide, list(wide_lines()), MOST_WIDE),
    ]


def main(is_named: bool) -> int:
    found = counts()
    for count in found:
        count.say(is_named)
    say_lines("lines of .antt to lines of .rt", [it for it in crates_of_code() if it not in THEORY])
    say_lines(f"of the crates of definitions and laws ({', '.join(THEORY)})", THEORY)
    return int(any(count.is_over() for count in found))


if __name__ == "__main__":
    if set(sys.argv[1:]) - {"-v"}:
        sys.exit(__doc__)
    sys.exit(main("-v" in sys.argv[1:]))
