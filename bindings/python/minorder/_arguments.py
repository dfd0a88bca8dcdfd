"""What arguments are, and how a refusal shows them."""
import re
from fractions import Fraction
from functools import lru_cache
from operator import index
from typing import Iterable, Mapping, Optional, Sequence, Tuple

from ._errors import BadArgument, BadOrder, BadShape

# variables, and tables
MOST = 16
CONTROLS = re.compile("[\x00-\x1f\x7f-\x9f\u2028\u2029]")


def shortened(text: str) -> str:
    """A text as a message has it."""
    return text if len(text) <= 60 else text[:57] + "..."


def on_a_line(text: str) -> str:
    """A text with a mark in the place of what ends a line or steers a terminal."""
    return CONTROLS.sub("?", text)


def shown(value: object) -> str:
    """A value as a message has it."""
    try:
        return shortened(repr(value))
    except Exception:  # such as that of a number with too many digits
        return f"a value of type {type(value).__name__}"


def two_decimals(value: Fraction) -> str:
    """A number that isn't negative, a half of the last digit rounded up."""
    hundredths = (value * 200 + 1) // 2
    return f"{hundredths // 100}.{hundredths % 100:02}"


def whole(value: object, named: str) -> int:
    """A whole number that isn't a bool."""
    if not isinstance(value, bool) and hasattr(value, "__index__"):
        try:
            return index(value)
        except TypeError:
            pass
    raise BadArgument(f"{named}: {shown(value)} is no whole number")


def items_of(value: object, named: str, said: str) -> Sequence[object]:
    """The items of an argument whose order counts or not; a text or a mapping has none that are meant."""
    if isinstance(value, (str, bytes, bytearray, Mapping)) or not isinstance(value, Iterable):
        raise BadArgument(f"{named}: {shown(value)} is no {said}")
    return list(value)


def in_turn(value: object, named: str, said: str) -> Sequence[object]:
    """The items of an argument whose order counts."""
    if isinstance(value, (set, frozenset)):
        raise BadArgument(f"{named}: {shown(value)} is no {said}: it has no first item")
    return items_of(value, named, said)


def native(it: object) -> object:
    """What an array or an item of one is without its package."""
    return it.tolist() if hasattr(it, "tolist") else it


def truth_of(value: object, named: str) -> bool:
    """A bool, or a 0 or 1 in its place."""
    plain = native(value)
    if isinstance(plain, int) and plain in (0, 1):
        return bool(plain)
    raise BadArgument(f"{named}: {shown(value)} is neither True nor False")


def order_of(order: Sequence[int], inputs: Optional[int] = None) -> Tuple[int, ...]:
    """An order, top first, of the variables of tables, if these say how many they are. Raises BadArgument, BadShape, BadOrder."""
    variables = tuple(whole(variable, "order") for variable in in_turn(order, "order", "sequence of variables"))
    if not 1 <= len(variables) <= MOST:
        raise BadShape(f"order: {len(variables)} variables: there are 1 to {MOST}")
    count, said = (len(variables), "") if inputs is None else (inputs, f"the tables have {inputs} variables, and ")
    if sorted(variables) != list(range(count)):
        raise BadOrder(f"order: {shown(variables)}: {said}an order has each of 0 to {count - 1} once")
    return variables


def checked_inputs(inputs: object) -> int:
    """A number of variables that there may be."""
    number = whole(inputs, "inputs")
    if not 1 <= number <= MOST:
        raise BadShape(f"inputs: {shown(number)} variables: there are 1 to {MOST}")
    return number


# ---- names

def is_text(text: str, errors: str = "strict") -> bool:
    """Whether a text can be written in UTF-8."""
    try:
        text.encode("utf-8", errors)
    except UnicodeEncodeError:
        return False
    return True


def names_of(names: object, named: str, count: int) -> Tuple[str, ...]:
    """So many names. Raises BadArgument, BadShape."""
    found = []
    for name in in_turn(names, named, "sequence of names"):
        if not isinstance(name, str) or not name or not is_text(name):
            raise BadArgument(f"{named}: {shown(name)} is no name")
        found.append(name)
    if len(found) != count:
        raise BadShape(f"{named}: {len(found)} names where there are {count}")
    return tuple(found)


@lru_cache(maxsize=None)
def numbered_names(letter: str, count: int) -> Tuple[str, ...]:
    """The names of inputs, x0, x1, .., or of outputs, f0, f1, .., that have no others."""
    return tuple(f"{letter}{i}" for i in range(count))
