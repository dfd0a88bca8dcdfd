"""Orders as words: by number, as a report's line ``order``, or by name, as its line ``names``."""
from __future__ import annotations

from typing import Optional, Sequence

from ._arguments import shortened

# longer ones are no inputs, and Python makes no number of very long ones
MOST_DIGITS = 20


def fault_of(words: Sequence[str], inputs: int, names: Optional[Sequence[str]] = None) -> Optional[str]:
    """Why the words aren't an order of so many inputs, by number; None if they are one. It calls an input by its name if
    names are given, else by its number."""
    if not words:
        return "an order is empty"
    seen: set[int] = set()
    called = names or [str(x) for x in range(inputs)]
    for word in words:
        if not word.isascii() or not word.isdigit() or word != word.lstrip("0") and word != "0":
            return f"{shortened(word)} is no input of the file"
        if len(word) > MOST_DIGITS or int(word) >= inputs:
            return f"{shortened(word)} is out of range: the file's inputs are 0 to {inputs - 1}"
        if int(word) in seen:
            return f"{called[int(word)]} is repeated"
        seen.add(int(word))
    missing = [called[x] for x in range(inputs) if x not in seen]
    return f"{', '.join(missing)} {'is' if len(missing) == 1 else 'are'} missing" if missing else None


def numbered(words: Sequence[str], names: Sequence[str]) -> list[str]:
    """An order with numbers in the place of names. Words that are an order by number are left as they are, also if
    inputs have such names; of equal names each stands for the next input that has it."""
    if fault_of(words, len(names)) is None:
        return list(words)
    left = {name: [str(x) for x in range(len(names)) if names[x] == name] for name in names}
    return [(left[word].pop(0) if len(left[word]) > 1 else left[word][0]) if word in left else word for word in words]


def words_of(text: str, names: Sequence[str]) -> list[str]:
    """The words of an order, parted by commas or spaces; a name is one word, whatever commas it has."""
    return [part for word in text.split() for part in ([word] if word in names else word.replace(",", " ").split())]


def orders_of(texts: Sequence[str], names: Sequence[str]) -> list[list[str]]:
    """The orders that arguments spell: one each; several arguments of one word each are one order."""
    orders = [words_of(text, names) for text in texts]
    is_alone = len(names) > 1 and all(len(order) == 1 for order in orders)
    return [[word for order in orders for word in order]] if is_alone else orders
