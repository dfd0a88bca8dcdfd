"""Truth tables as values: made of numbers, lists and texts, and joined by operators."""
from __future__ import annotations

from dataclasses import dataclass, field
from operator import and_, or_, xor
from string import hexdigits
from typing import Callable, Iterable, Literal, Mapping, NoReturn, Optional, Sequence, Tuple, Union

from ._arguments import MOST, checked_inputs, in_turn, names_of, native, numbered_names, shown, whole
from ._errors import BadArgument, BadShape

# which value comes first: that at the point 0, or that at the last point
End = Literal["lowest", "highest"]
ENDS = ("lowest", "highest")
NO_TRUTH = "write & for and, | for or, ~ for not, and ite(a, b, c) for `b if a else c`"
CONSTANTS = "the constants are a & ~a and a | ~a"


@dataclass(frozen=True, repr=False)
class TruthTable:
    """The values of a function of ``inputs`` variables: bit p of ``number`` is that at the point p, and bit i of p is the value
    of variable i, whose name is ``names[i]``; without names they are x0, x1, .. ``int(table)`` is ``number``, too.

    ``&``, ``|``, ``^`` and ``~`` make tables of tables, and so does ``ite``. Their variables have the same names, or some have
    none. ``==`` compares two tables: they are equal if they have the same values and as many inputs, whatever the names; a table
    equals nothing else, no integer either. The function that is 1 where a and b agree is ``~(a ^ b)``. A table has no truth
    and no order: ``and``, ``if`` or ``<`` raises BadArgument, which is a TypeError.
    """
    number: int
    inputs: int
    names: Tuple[str, ...] = field(default=(), compare=False)

    # arrays of numpy leave operators to tables
    __array_ufunc__ = None

    def __post_init__(self) -> None:
        inputs, number = checked_inputs(self.inputs), whole(self.number, "number")
        if number < 0 or number >> (1 << inputs):
            raise BadShape(f"number: it has values outside the {1 << inputs} points of {inputs} variables")
        names = numbered_names("x", inputs) if self.names == () else names_of(self.names, "names", inputs)
        vars(self).update(number=number, inputs=inputs, names=names)

    def __repr__(self) -> str:
        names = f", names={self.names}" if self.names != numbered_names("x", self.inputs) else ""
        return f"TruthTable({self.number:#x}, inputs={self.inputs}{names})"

    def __index__(self) -> int:
        return self.number

    def __bool__(self) -> bool:
        raise BadArgument(f"a table is neither true nor false: {NO_TRUTH}")

    def _unordered(self, other: object) -> NoReturn:
        raise BadArgument(f"tables have no order: {NO_TRUTH}")

    __lt__ = __le__ = __gt__ = __ge__ = _unordered

    def _joined(self, other: object, join: Callable[[int, int], int]) -> TruthTable:
        if not isinstance(other, TruthTable):
            raise _no_truth_table("tables", other)
        return TruthTable(join(self.number, other.number), self.inputs, names_among((self, other)))

    def __and__(self, other: TruthTable) -> TruthTable:
        return self._joined(other, and_)

    def __or__(self, other: TruthTable) -> TruthTable:
        return self._joined(other, or_)

    def __xor__(self, other: TruthTable) -> TruthTable:
        return self._joined(other, xor)

    __rand__, __ror__, __rxor__ = __and__, __or__, __xor__

    def __invert__(self) -> TruthTable:
        return TruthTable(self.number ^ ((1 << (1 << self.inputs)) - 1), self.inputs, self.names)


def _no_truth_table(named: str, it: object) -> BadArgument:
    equality = ", and for a == b write ~(a ^ b)" if isinstance(native(it), bool) else ""
    return BadArgument(f"{named}: {shown(it)} is no TruthTable: {CONSTANTS}{equality}")


def names_among(tables: Sequence[TruthTable], named: str = "tables") -> Tuple[str, ...]:
    """The names of the variables of tables that stand together, of which some may have none. Raises BadShape."""
    first = tables[0]
    none = found = numbered_names("x", first.inputs)
    for table in tables:
        if table.inputs != first.inputs:
            raise BadShape(f"{named}: a table of {first.inputs} variables beside one of {table.inputs}")
        if found not in (none, table.names) and table.names != none:
            raise BadShape(f"{named}: one of the variables {', '.join(found)} beside one of {', '.join(table.names)}")
        found = found if table.names == none else table.names
    return found


def ite(test: TruthTable, high: TruthTable, low: TruthTable) -> TruthTable:
    """The table that is ``high`` where ``test`` is 1, and ``low`` where it is 0: if, then, else.

        >>> a, b, s = minorder.variables("a b s")
        >>> minorder.ite(s, b, a) == s & b | ~s & a
        True
    """
    if all(isinstance(native(it), bool) for it in (test, high, low)):
        raise BadArgument("test, high, low: ite joins tables; of booleans write `high if test else low`")
    for named, table in (("test", test), ("high", high), ("low", low)):
        if not isinstance(table, TruthTable):
            raise _no_truth_table(named, table)
    names_among((test, high, low), "test, high, low")
    return test & high | ~test & low


def variables(inputs: Union[int, str, Iterable[str]]) -> Tuple[TruthTable, ...]:
    """The tables of variables 0, 1, .., of so many or with these names, which are a sequence, or words of a text.

        >>> a, b, s = minorder.variables("a b s")
        >>> minorder.exact(s & b | ~s & a).names
        ('s', 'a', 'b')
    """
    names = _names_in(inputs)
    count = checked_inputs(inputs if names is None else len(names))
    ones = (1 << (1 << count)) - 1
    # 2^i points with variable i at 0 and as many at 1, again and again
    return tuple(TruthTable(ones // ((1 << (1 << i)) + 1) << (1 << i), count, names or ()) for i in range(count))


def _names_in(inputs: object) -> Optional[Tuple[str, ...]]:
    if isinstance(inputs, str):
        given: Sequence[object] = inputs.replace(",", " ").split()
    elif isinstance(inputs, Iterable):
        given = in_turn(inputs, "inputs", "number, and no sequence of names")
    else:
        return None
    names = names_of(given, "inputs", len(given))
    twice = [name for i, name in enumerate(names) if name in names[:i]]
    if twice:
        raise BadShape(f"inputs: {twice[0]} stands twice")
    return names


# ---- of values

def from_values(values: Iterable[object], first: Optional[End] = None) -> TruthTable:
    """The table with these values, each 0 or 1 or a bool. ``first="lowest"`` says that the first one is the value at the point
    0, ``first="highest"`` that it is the value at the last point. It may be left out for a sequence, which begins at
    the point 0, but not for a text.

        >>> minorder.from_values([0, 1, 0, 1, 0, 0, 1, 1])
        TruthTable(0xca, inputs=3)
        >>> minorder.from_values("11001010", first="highest")
        TruthTable(0xca, inputs=3)
    """
    end = _checked_end(first or "lowest" if not isinstance(values, str) else first)
    if isinstance(values, str):
        return _of_bits(_checked_text(values, "01", "values"), end, "values")
    # a memoryview has no __iter__ in Python 3.9, and its list has one
    plain = native(values)
    if isinstance(values, (bytes, bytearray, set, frozenset, Mapping)) or not isinstance(plain, Iterable):
        raise BadArgument(f"values: {shown(values)} is no sequence of values")
    listed = [native(value) for value in plain]
    for place, value in enumerate(listed):
        if not isinstance(value, int) or value not in (0, 1):
            raise BadShape(f"values: {shown(value)} at the place {place}: a value is 0 or 1, or a bool")
    return _of_bits("".join("1" if value else "0" for value in listed), end, "values")


def from_hexadecimal(digits: str, first: Optional[End] = None) -> TruthTable:
    """The table of hexadecimal digits, each of which stands for four values, as it is written in binary. ``first`` is that of
    ``from_values``: with ``first="highest"`` the text is a number whose leftmost bit is the value at the last point, as in
    ABC's ``read_truth``. A table of n variables has 2^n / 4 digits.

        >>> minorder.from_hexadecimal("ca", first="highest")
        TruthTable(0xca, inputs=3)
    """
    if not isinstance(digits, str):
        raise BadArgument(f"digits: {shown(digits)} is no text: TruthTable(number, inputs) is the table of a number")
    end, text = _checked_end(first), _checked_text(digits, hexdigits, "digits")
    return _of_bits("".join(f"{int(digit, 16):04b}" for digit in text), end, "digits")


def _checked_end(first: Optional[str]) -> str:
    if first is None:
        raise BadArgument('first: a text is read from either end: write first="highest" if it begins with the value at the last '
                          'point, as in ABC, or first="lowest" if with that at the point 0')
    if first not in ENDS:
        raise BadArgument(f'first: {shown(first)} is neither "lowest" nor "highest"')
    return first


def _checked_text(text: str, characters: str, named: str) -> str:
    for place, character in enumerate(text):
        if character not in characters:
            raise BadShape(f"{named}: {character!r} at the place {place} of the text is none of {characters}")
    return text


def _of_bits(bits: str, end: str, named: str) -> TruthTable:
    inputs = len(bits).bit_length() - 1
    if not 1 <= inputs <= MOST or len(bits) != 1 << inputs:
        raise BadShape(f"{named}: {len(bits)} values: a table of n variables has 2^n, and n is 1 to {MOST}")
    return TruthTable(int(bits if end == "highest" else bits[::-1], 2), inputs)
