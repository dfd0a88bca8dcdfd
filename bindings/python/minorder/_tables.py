"""What is given as truth tables, in the words that the library reads."""
from array import array
from inspect import signature
from itertools import product
from string import hexdigits
from typing import Any, Callable, Iterable, List, NamedTuple, Optional, Sequence, SupportsIndex, Tuple, Union

from ._arguments import MOST, in_turn, names_of, native, numbered_names, shortened, shown, whole
from ._errors import BadArgument, BadShape
from ._truth_tables import TruthTable, names_among

Table = Union[TruthTable, SupportsIndex, bytes, bytearray, memoryview, "array[int]", Callable[..., object]]
Tables = Union[Table, Sequence[Table], "Pla"]


class _Named(NamedTuple):
    tables: Tuple[TruthTable, ...]
    inputs: Tuple[str, ...]
    outputs: Tuple[str, ...]


class Pla(_Named):
    """A PLA file: the truth tables of its outputs, and the names of its inputs, which the tables have too, and outputs: x0, x1,
    .. and f0, f1, .. if the file has none. Raises BadArgument, BadShape."""

    def __new__(cls, tables: Iterable[TruthTable], inputs: Iterable[str], outputs: Iterable[str]) -> "Pla":
        each: List[TruthTable] = []
        for table in in_turn(tables, "tables", "sequence of tables"):
            if not isinstance(table, TruthTable):
                raise BadArgument(f"tables: {shown(table)} is no TruthTable")
            each.append(table)
            if table.inputs != each[0].inputs:
                raise BadShape(f"tables: a table of {table.inputs} variables beside one of {each[0].inputs}")
        if not 1 <= len(each) <= MOST:
            raise BadShape(f"tables: {len(each)} tables: there are 1 to {MOST}")
        names = names_of(inputs, "inputs", each[0].inputs)
        named = tuple(TruthTable(table.number, table.inputs, names) for table in each)
        return super().__new__(cls, named, names, names_of(outputs, "outputs", len(each)))

    @classmethod
    def _make(cls, iterable: Iterable[Any]) -> "Pla":  # type: ignore[override]
        return cls(*iterable)


# ---- what is given, one by one

def listed(tables: Tables) -> List[Table]:
    """The tables, one by one. Raises BadArgument, BadShape."""
    if _bytes_of(tables) is not None or callable(tables) or hasattr(tables, "__index__"):
        return [tables]  # type: ignore[list-item]
    if isinstance(tables, Pla):
        return list(tables.tables)
    if isinstance(tables, str) or not isinstance(tables, Sequence):
        raise _no_table(tables)
    if len(tables) > MOST and all(map(_is_value, tables)):
        raise _values(len(tables))
    if not 1 <= len(tables) <= MOST:
        raise BadShape(f"tables: {len(tables)} tables: there are 1 to {MOST}")
    return list(tables)


def inputs_said(tables: Sequence[Table]) -> Optional[int]:
    """The number of variables that the first of the tables says that says one; None if none does. Raises BadArgument."""
    for table in tables:
        if isinstance(table, TruthTable):
            return table.inputs
        if isinstance(native(table), bool):
            raise _no_table(table)
        names = parameters_of(table) if callable(table) else None
        if names is not None:
            return len(names)
    return None


def no_inputs(tables: Sequence[Table]) -> BadArgument:
    """Why ``inputs`` can't be left out."""
    first, said = tables[0], "the tables don't say how many variables they have"
    for table in tables:
        if _bytes_of(table) is None and not callable(table) and not hasattr(table, "__index__"):
            return _no_table(table)
    if callable(first):
        said = f"a function of {_spelled(first)} doesn't say how many variables it has"
    elif len(tables) > 1 and all(map(_is_value, tables)):
        said += ": from_values makes one table of a list of values"
    return BadArgument(f"inputs: it is left out, and {said}")


def names_said(tables: Sequence[Table], inputs: int) -> Tuple[str, ...]:
    """The names of the variables that tables have, else those of functions' parameters where they agree. Raises BadShape if a
    parameter has the name of another variable."""
    known = [table for table in tables if isinstance(table, TruthTable)]
    none = numbered_names("x", inputs)
    names = names_among(known) if known else none
    written = [parameters_of(table) for table in tables if callable(table)]
    first, *others = [it for it in (None if names == none else names, *written) if it is not None] or [none]
    for other in others:
        if any(it in first and first.index(it) != place for place, it in enumerate(other)):
            raise BadShape(f"tables: a function of {', '.join(other)} beside one of {', '.join(first)}")
    if names != none:
        return names
    return first if {*written} <= {first, None} else none


def words_of(tables: Sequence[Table], inputs: int) -> bytes:
    """The tables one after the other, each in whole words of eight bytes, lowest first. Raises BadArgument, BadShape."""
    if len(tables) == 1 << inputs and all(map(_is_value, tables)):
        raise _values(len(tables))
    length = max(8, (1 << inputs) // 8)
    return b"".join(_number_of(table, inputs).to_bytes(length, "little") for table in tables)


def _number_of(table: Table, inputs: int) -> int:
    points = 1 << inputs
    if isinstance(table, TruthTable):
        if table.inputs != inputs:
            raise BadShape(f"tables: a table of {table.inputs} variables where there are {inputs}")
        return table.number
    data = _bytes_of(table)
    if data is not None:
        length = max(1, points // 8)
        if len(data) != length:
            raise BadShape(f"tables: {len(data)} bytes: a table of {inputs} variables has {length}; from_values takes its values")
        number = int.from_bytes(data, "little")
    elif callable(table):
        return _values_of(table, inputs)
    elif isinstance(native(table), bool) or not hasattr(table, "__index__"):
        raise _no_table(table)
    else:
        number = whole(table, "tables")
    if number < 0 or number >> points:
        raise BadShape(f"tables: a table with values outside the {points} points of {inputs} variables")
    return number


def _is_value(it: object) -> bool:
    """Whether an entry may be meant as one value of a table."""
    value = native(it)
    return isinstance(value, int) and value in (0, 1)


def _bytes_of(table: object) -> Optional[bytes]:
    """What an object's buffer holds; None if it has none that is an array."""
    if isinstance(table, (int, TruthTable)):
        return None
    try:
        view = memoryview(table)  # type: ignore[arg-type]
    except (TypeError, ValueError, BufferError):
        return None
    if view.ndim == 0:
        return None
    if view.ndim > 1 or view.format not in ("B", "c", "<B", "=B", "@B"):
        raise BadShape(
            f"tables: an array of {view.ndim} dimensions with items of format {view.format!r} is no table: write "
            "from_values(array) if it has the values of one, list(array) if it has tables")
    return view.tobytes()


# ---- functions

def parameters_of(function: Callable[..., object]) -> Optional[Tuple[str, ...]]:
    """The names of the parameters; None where they leave open how many booleans the function takes."""
    try:
        parameters = signature(function).parameters.values()
    except (TypeError, ValueError):
        return None
    are_plain = all(it.kind <= it.POSITIONAL_OR_KEYWORD and it.default is it.empty for it in parameters)
    return tuple(it.name for it in parameters) if are_plain else None


def _spelled(function: Callable[..., object]) -> str:
    """The parameters as a message has them."""
    try:
        return shortened(str(signature(function)))
    except (TypeError, ValueError):
        return "(..)"


def _check_parameters(function: Callable[..., object], inputs: int) -> None:
    try:
        taken = signature(function)
    except (TypeError, ValueError):
        # it is called, and then raises what it does
        return
    try:
        taken.bind(*range(inputs))
    except TypeError:
        raise BadShape(f"tables: a function of {_spelled(function)} where there are {inputs} variables") from None


def _values_of(function: Callable[..., object], inputs: int) -> int:
    """The truth table of a function of booleans. The last factor of a product runs fastest, so the points are turned round."""
    _check_parameters(function, inputs)
    digits = []
    for number, point in enumerate(product((False, True), repeat=inputs)):
        value = function(*reversed(point))
        if value is not True and value is not False and not _is_value(value):
            raise BadShape(
                f"tables: the function gives {shown(value)} at the point {number}: a value is 0 or 1, or a bool{_hint(value)}")
        digits.append("1" if value else "0")
    return int("".join(reversed(digits)), 2)


def _hint(value: object) -> str:
    """What is meant by a value of a function that is none."""
    if isinstance(value, TruthTable):
        return "; a table is given itself, without a function"
    # what ~ makes of a bool
    return "; write `not` or `^ 1` for the complement of a bool" if value in (-1, -2) else ""


# ---- refusals

def _values(count: int) -> BadShape:
    return BadShape(f"tables: {count} entries that are all 0 or 1: from_values makes one table of a list of values; "
                    f"{count} tables are a list of TruthTable(number, inputs)")


def _no_table(it: object) -> BadArgument:
    """Why something is no table, and what is written for it."""
    if isinstance(it, str) and it and {*it} <= {*hexdigits}:
        call = "from_values" if {*it} <= {*"01"} else "from_hexadecimal"
        return BadArgument(f'tables: {shown(it)} is a text: write {call}({shown(it)}, first="highest"), or "lowest"')
    if isinstance(native(it), bool):
        return BadArgument(
            f"tables: {it} is no table: from_values makes one of a list of values, and for a == b of tables write ~(a ^ b)")
    said = "neither a table (a TruthTable, an integer, bytes or a function of booleans) nor a list of tables"
    return BadArgument(f"tables: {shown(it)} is {said}")
