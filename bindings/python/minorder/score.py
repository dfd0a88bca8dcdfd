"""How far the orders of a method end from the proved optima, and its place among the methods of the league.

RESULTS is a file of CSV, whose first line names the columns, or of JSON, a list or an object a line; - is standard input.
Its columns are name (a function's, or the field's name for it) and order (top first, inputs by number or by name), or name
and nodes (a size alone, which is marked as claimed); besides them seconds, claimed as --csv writes it, and start: file, the
order of the file, if it is left out, or random, or the number of a random order. The word late in place of an order is a run
that didn't end. Several lines of a function are several runs, of which the median counts, and their share in the runs that met
the optimum. Orders are counted by the library, without complement edges; nodes beside an order are compared with what is
counted. The place is by the mean ratio on all functions, where a missing one, or one of which half the runs or more are late,
counts as the worst that any method of the league or the start has there. Each of ten random orders counts once, one without a
line as a late run. FAMILY, such as "hidden weighted bit", chooses the functions of a family; several may be named.
Exit status: 0; 1 if there is no library, 2 if the words are refused, 3 if the results are, 4 if memory is out, 5 if a file
can't be read or written.
"""
from __future__ import annotations

import argparse
import os
import sys
import unicodedata
from typing import Iterable, Optional, Sequence

from . import _ends, _picture, _score_texts, benchmarks
from ._counting import counted
from ._results import BadResults, Run, cut, read_results
from ._scores import Score, scores_of

NAME = "minorder-score"


def score(runs: Sequence[Run], method: str, families: Sequence[str] = (), jobs: Optional[int] = None) -> list[Score]:
    """The score of a method's runs, one for each start. Raises NoLibrary, MemoryError."""
    return scores_of(method, counted(runs, jobs), families)


def parser_of_words() -> argparse.ArgumentParser:
    parser = _ends.parser_of(NAME, __doc__)
    parser.add_argument("results", metavar="RESULTS")
    parser.add_argument("families", metavar="FAMILY", nargs="*", default=[])
    parser.add_argument("--name", help="the method's name; that of the file if it is left out")
    text = parser.add_mutually_exclusive_group()
    text.add_argument("--json", action="store_true", help="write all as JSON")
    text.add_argument("--csv", action="store_true", help="write each run with its nodes, as the page and another score read it")
    parser.add_argument("--picture", metavar="FILE", help="draw the curves (.svg, .png, .pdf), by matplotlib")
    parser.add_argument("--jobs", type=int, metavar="N", help="functions counted at a time; as many as there are processors")
    return parser


def families_of(words: Iterable[str]) -> list[str]:
    """The families that the words name, as the table spells them. Raises UnknownName."""
    known = benchmarks.families()
    for word in words:
        if word.lower() not in known:
            raise benchmarks.UnknownName(word, known, "family")
    return list(dict.fromkeys(known[word.lower()][0].family for word in words))


def name_of(parser: argparse.ArgumentParser, given: Optional[str], path: str) -> str:
    """The method's name, one line of text; the words are refused if it is none, or that of a method of the league. A file's name
    that is one of these has a number behind it."""
    stem = "results" if path == "-" else os.path.splitext(os.path.basename(path))[0]
    name = " ".join((cut(stem) if given is None else given).split())
    if not name or not name.isprintable():
        parser.error(f"--name: {cut(name)!r}: a name is a line of printable text")
    if plain(name) not in map(plain, league_names()):
        return name
    if given is not None:
        parser.error(f"--name: {name} is a method of the league; yours has a name of its own")
    return f"{name} 2"


def league_names() -> Iterable[str]:
    """The names of the methods of the league."""
    return dict.fromkeys(f"{line.package} {line.method}" for line in benchmarks.league())


def plain(name: str) -> str:
    """A name as it is compared: letters of either case and width are the same."""
    return unicodedata.normalize("NFKC", name).casefold()


def draw(scores: Sequence[Score], path: str) -> None:
    if not _picture.is_there():
        _ends.say(NAME, "no picture: matplotlib isn't here (Debian's python3-matplotlib)")
    else:
        _picture.draw(scores, path)


def runs_of(path: str) -> list[Run]:
    try:
        return read_results(_ends.content_of(path).decode("utf-8"))
    except BadResults as error:
        raise _ends.Refused(_ends.REFUSED, *error.faults) from None
    except UnicodeDecodeError as error:
        raise _ends.Refused(_ends.REFUSED, f"{path}: no text (UTF-8) from byte {error.start} on") from None


def command(parser: argparse.ArgumentParser, given: argparse.Namespace) -> int:
    if given.jobs is not None and given.jobs < 1:
        parser.error("--jobs: at least 1")
    if given.picture and not given.picture.endswith((".svg", ".png", ".pdf")):
        parser.error("--picture: the name of a file that ends in .svg, .png or .pdf")
    if given.picture:
        _ends.check_out(given.picture, [given.results])
    try:
        families = families_of(given.families)
    except benchmarks.UnknownName as error:
        parser.error(str(error))
    method = name_of(parser, given.name, given.results)
    runs = counted(runs_of(given.results), given.jobs)
    scores = scores_of(method, runs, families)
    if given.picture:
        draw(scores, given.picture)
    if given.csv:
        for it in scores:
            _ends.say(NAME, *_score_texts.notes(it))
        sys.stdout.write(_score_texts.csv_text(runs))
    else:
        sys.stdout.write(_score_texts.json_text(scores) if given.json else _score_texts.report(scores))
    return 0


def main(words: Optional[Sequence[str]] = None) -> int:
    parser = parser_of_words()
    return _ends.run(parser, lambda given: command(parser, given), words)


if __name__ == "__main__":
    sys.exit(main())
