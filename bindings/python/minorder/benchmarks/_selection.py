"""Functions by name, by a name of the field, or by family."""
from __future__ import annotations

import difflib
from functools import lru_cache
from typing import Iterable, Iterator

from .._errors import MinorderError
from . import aliases, automata, chips, circuits, codings, digits, sboxes, textbook
from .entry import Entry

MODULES = (textbook, sboxes, chips, codings, digits, circuits, automata)


# of longer words no close ones are looked for
LONGEST = 60


class UnknownName(MinorderError, KeyError):
    """No function and no family has this name, or no family if only families are ``asked`` for."""

    def __init__(self, name: str, names: Iterable[str], asked: str = "function or family") -> None:
        super().__init__(name)
        self.name, self.names, self.asked = name, list(names), asked

    def __reduce__(self) -> tuple[object, ...]:
        return type(self), (self.name, self.names, self.asked)

    def __str__(self) -> str:
        if len(self.name) > LONGEST or not self.name.isprintable():
            return f"no {self.asked} is named {self.name[:LONGEST]!r}.."
        close = difflib.get_close_matches(self.name, self.names, 3)
        return f"no {self.asked} is named {self.name}" + (f"; is it {' or '.join(close)}?" if close else "")


def entries() -> Iterator[Entry]:
    """All functions of the table."""
    for module in MODULES:
        yield from module.entries()


@lru_cache(maxsize=None)
def by_name() -> dict[str, Entry]:
    return {it.name: it for it in entries()}


def entry(name: str) -> Entry:
    """The function of a name, its own or one of the field's. Raises UnknownName."""
    known = by_name()
    own = name if name in known else aliases.FIELD[name][0] if name in aliases.FIELD else ""
    if not own:
        raise UnknownName(name, [*known, *aliases.FIELD])
    return known[own]


def families() -> dict[str, list[Entry]]:
    """The functions of each family, by its name in small letters."""
    found: dict[str, list[Entry]] = {}
    for it in by_name().values():
        found.setdefault(it.family.lower(), []).append(it)
    return found


def selected(words: Iterable[str]) -> list[Entry]:
    """The functions that words name, by name or by family, each once; all where there are no words. Raises UnknownName."""
    known, of_family, wanted = by_name(), families(), list(words)
    found: dict[str, Entry] = {}
    for word in wanted:
        family = of_family.get(word.lower())
        if not family and word not in known and word not in aliases.FIELD:
            raise UnknownName(word, [*known, *aliases.FIELD, *of_family])
        found.update({it.name: it for it in family or [entry(word)]})
    return list(found.values()) if wanted else list(known.values())
