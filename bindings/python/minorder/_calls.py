"""The calls, each one call of the library."""
from ctypes import Array, byref, c_size_t, c_uint8, c_uint32, c_uint64
from functools import cached_property, lru_cache
from struct import iter_unpack
from typing import Iterable, Mapping, NamedTuple, Optional, Sequence, Tuple, Type, Union

from ._arguments import checked_inputs, items_of, numbered_names, order_of, shown, whole
from ._certificates import bytes_of, check_text, inputs_of
from ._diagrams import Diagram, Node
from ._errors import BadArgument, BadOrder, BadPairs, BadShape, MinorderError
from ._library import Judged, NodeRow, Pair, library
from ._tables import Pla, Table, Tables, inputs_said, listed, names_said, no_inputs, words_of
from ._threads import aside
from ._truth_tables import TruthTable

NO_CERTIFICATE = 3
SHORT_TEXT = 7
# a certificate has no more
MOST_PAIRS = 240
REFUSALS: Mapping[int, Tuple[Type[Exception], str]] = {
    2: (BadShape, "tables: a shape that the library refuses"),
    NO_CERTIFICATE: (MinorderError, "certificate: the library refuses the text"),
    4: (MemoryError, "the library was refused memory"),
    5: (BadOrder, "order: it hasn't each variable once"),
    8: (BadPairs, "above: the pairs lead from a variable back to itself"),
}
REASONS = ("Valid", "Shape", "Order", "Pairs", "Levels", "Total", "Start", "CellTooBig", "Edge")


Given = Tuple["Array[c_uint64]", int, int, int]


class Functions(NamedTuple):
    """Tables in the words that the library reads, how many variables and tables they are, and the names of both."""
    words: bytes
    inputs: int
    outputs: int
    names: Tuple[Tuple[str, ...], Tuple[str, ...]]

    def given(self) -> Given:
        """The first arguments of each call."""
        words = len(self.words) // 8
        return (c_uint64 * words).from_buffer_copy(self.words), words, self.inputs, self.outputs


class _Sized(NamedTuple):
    order: Tuple[int, ...]
    levels: Tuple[int, ...]
    total: int


class Result(_Sized):
    """An order, top first, its level counts, top first, and its size, which is their sum. Those of ``exact`` and ``sift`` know
    their tables: a notebook shows their diagram. ``levels``, ``sift`` and ``diagram`` take a result as its order."""
    _functions: Optional[Functions] = None
    _inputs: Optional[Tuple[str, ...]] = None

    @property
    def names(self) -> Tuple[str, ...]:
        """The names of the order's variables, top first: x0, x1, .. if its tables have none, or if it comes from elsewhere."""
        names = self._inputs or numbered_names("x", len(self.order))
        return tuple(names[variable] for variable in self.order)

    @cached_property
    def _diagram(self) -> Optional[Diagram]:
        return None if self._functions is None else _diagram_of(self._functions, self.order)

    def _repr_svg_(self) -> Optional[str]:
        return None if self._diagram is None else self._diagram._repr_svg_()

    def _repr_html_(self) -> Optional[str]:
        return None if self._diagram is None else self._diagram._repr_html_()


class Verdict(NamedTuple):
    """Why a certificate isn't good: ``Valid`` if it is, else the word that ``ordercheck`` prints. ``mask`` and
    ``variable`` are those of ``Edge``, else 0. ``total`` and ``pairs`` are the certificate's: if it is ``Valid``, no order
    that keeps the pairs has fewer nodes than ``total``. A verdict counts as true if it is ``Valid``."""
    reason: str
    mask: int
    variable: int
    total: int
    pairs: Tuple[Tuple[int, int], ...]

    def __bool__(self) -> bool:
        return self.reason == "Valid"


Order = Union[Sequence[int], Result]


def done(status: int) -> None:
    """Raises what a status other than 0 stands for."""
    if status:
        error, text = REFUSALS.get(status, (MinorderError, f"the library ended with status {status}"))
        raise error(text)


def functions_of(tables: Tables, inputs: Optional[int]) -> Functions:
    """The functions that are given, of so many variables; of as many as they say themselves if that is left out."""
    each = listed(tables)
    if isinstance(inputs, TruthTable):
        raise BadArgument(f"inputs: {shown(inputs)} is a table: several tables are one argument, a list")
    said = inputs_said(each)
    if inputs is None and said is None:
        raise no_inputs(each)
    count = checked_inputs(said if inputs is None else inputs)
    if said not in (None, count):
        raise BadShape(f"inputs: {count}, where the tables have {said} variables")
    return _in_words(tables, each, count)


def _in_words(tables: Tables, each: Sequence[Table], inputs: int) -> Functions:
    words = words_of(each, inputs)
    outputs = tables.outputs if isinstance(tables, Pla) else numbered_names("f", len(each))
    return Functions(words, inputs, len(each), (names_said(each, inputs), outputs))


def _ordered(tables: Tables, order: Order) -> Tuple[Functions, Tuple[int, ...]]:
    """The functions that are given, and an order of their variables. Raises BadArgument, BadShape, BadOrder."""
    each = listed(tables)
    variables = variables_of(order, inputs_said(each))
    return _in_words(tables, each, len(variables)), variables


def variables_of(order: Order, inputs: Optional[int]) -> Tuple[int, ...]:
    """An order, top first, of so many variables, of any number if that is None. Raises BadArgument, BadShape, BadOrder."""
    return order_of(order.order if isinstance(order, Result) else order, inputs)


def _result_of(functions: Functions, order: Iterable[int], levels: Iterable[int], total: int) -> Result:
    found = Result(tuple(order), tuple(levels), total)
    found._functions, found._inputs = functions, functions.names[0]
    return found


def pairs_of(above: Iterable[Tuple[int, int]], inputs: int) -> Tuple["Array[Pair]", int]:
    """The pairs, with room for one at least, and how many they are. Raises BadArgument, BadPairs."""
    pairs = []
    for pair in items_of(above, "above", "sequence of pairs of variables"):
        if isinstance(pair, (set, frozenset)):
            raise BadArgument(f"above: {shown(pair)} is no pair of variables: it has no first one")
        both = [whole(variable, "above") for variable in items_of(pair, "above", "pair of variables")]
        if len(both) != 2:
            raise BadPairs(f"above: {shown(pair)} is no pair of variables")
        if not all(0 <= variable < inputs for variable in both):
            raise BadPairs(f"above: {shown(pair)}: variables are 0 to {inputs - 1}")
        pairs.append(Pair(*both))
    return (Pair * max(1, len(pairs)))(*pairs), len(pairs)


def exact(tables: Tables, inputs: Optional[int] = None, above: Iterable[Tuple[int, int]] = ()) -> Result:
    """The first order under which the tables' shared diagram has the fewest nodes.

    The tables have ``inputs`` variables, which may be left out where one of them is a TruthTable, or a function whose
    parameters have no defaults and no ``*``; these parameters name the variables, by their places. ``above`` are pairs of
    variables; then it is the first such among the orders that have the first variable of each pair above the second. Raises
    BadArgument, BadShape, BadPairs, MemoryError.

        >>> minorder.exact(lambda a, b, s: b if s else a)
        Result(order=(2, 0, 1), levels=(1, 1, 1), total=3)
        >>> minorder.exact(0xca, inputs=3, above=[(0, 2)]).order
        (0, 2, 1)
    """
    functions = functions_of(tables, inputs)
    given, inputs = functions.given(), functions.inputs
    pairs, count = pairs_of(above, inputs)
    order, levels, total = (c_uint8 * inputs)(), (c_uint32 * inputs)(), c_uint32()
    places = order, inputs, levels, inputs, byref(total)
    if count:
        done(aside(inputs, library().minorder_exact_above_with_lengths, *given, pairs, count, *places))
    else:
        done(aside(inputs, library().minorder_exact_with_lengths, *given, *places))
    return _result_of(functions, order, levels, total.value)


def certify(tables: Tables, inputs: Optional[int] = None, above: Iterable[Tuple[int, int]] = ()) -> str:
    """The text of the certificate of the first order of the fewest nodes, as ``minorder --cert`` writes it and ``check`` and
    ``ordercheck`` accept it. The arguments are those of ``exact``, and so is what it raises; it takes longer.
    """
    functions = functions_of(tables, inputs)
    given = *functions.given(), *pairs_of(above, functions.inputs)
    # room for most certificates; where it isn't enough, the call says how long the text is
    room, length = 1 << 16, c_size_t()
    while True:
        text = (c_uint8 * room)()
        status = aside(functions.inputs, library().minorder_certify_with_pairs, *given, text, room, byref(length))
        if status != SHORT_TEXT:
            done(status)
            return bytes(text[:length.value]).decode("ascii")
        room = length.value


def levels(tables: Tables, order: Order) -> Tuple[int, ...]:
    """The level counts of the tables' shared diagram under an order. Raises BadArgument, BadShape, BadOrder, MemoryError.

        >>> minorder.levels(lambda a, b, s: b if s else a, [0, 1, 2])
        (1, 2, 2)
    """
    return levels_of(*_ordered(tables, order))


def levels_of(functions: Functions, order: Tuple[int, ...]) -> Tuple[int, ...]:
    inputs = functions.inputs
    counts, given = (c_uint32 * inputs)(), functions.given()
    done(library().minorder_levels_with_lengths(*given, (c_uint8 * inputs)(*order), inputs, counts, inputs))
    return tuple(counts)


def sift(tables: Tables, order: Order) -> Result:
    """What one pass of Rudell's sifting makes of an order. Raises BadArgument, BadShape, BadOrder, MemoryError.

        >>> minorder.sift(lambda a, b, s: b if s else a, [0, 1, 2])
        Result(order=(2, 0, 1), levels=(1, 1, 1), total=3)
    """
    functions, variables = _ordered(tables, order)
    inputs = functions.inputs
    sifted, counts, total = (c_uint8 * inputs)(*variables), (c_uint32 * inputs)(), c_uint32()
    done(library().minorder_sift_with_lengths(*functions.given(), sifted, inputs, counts, inputs, byref(total)))
    return _result_of(functions, sifted, counts, total.value)


def diagram(tables: Tables, order: Order) -> Diagram:
    """The tables' reduced shared diagram under an order, with the names that they have, else x0, x1, .. and f0, f1, ..
    Raises BadArgument, BadShape, BadOrder, MemoryError.

        >>> a, b, s = minorder.variables("a b s")
        >>> mux = minorder.ite(s, b, a)
        >>> minorder.diagram(mux, minorder.exact(mux)).inputs
        ('a', 'b', 's')
    """
    return _diagram_of(*_ordered(tables, order))


def _diagram_of(functions: Functions, order: Tuple[int, ...]) -> Diagram:
    inputs, outputs = functions.inputs, functions.outputs
    room = most_nodes(inputs, outputs)
    nodes, roots, count = (NodeRow * room)(), (c_uint32 * outputs)(), c_size_t()
    places = nodes, room, roots, outputs, byref(count)
    done(library().minorder_diagram_with_lengths(*functions.given(), (c_uint8 * inputs)(*order), inputs, *places))
    rows = iter_unpack("=III", bytes(memoryview(nodes)[:count.value]))
    return Diagram(order, tuple(map(Node._make, rows)), tuple(roots), *functions.names)


@lru_cache(maxsize=None)
def level_bounds(inputs: int, outputs: int) -> Tuple[int, ...]:
    """No diagram has more nodes on a level, top first: one for each assignment of the variables above and each output, and one
    for each function of the variables from the level on that depends on the first of them."""
    levels = ((outputs << level, 1 << (1 << (inputs - level)), 1 << (1 << (inputs - level - 1))) for level in range(inputs))
    return tuple(min(assigned, functions - without) for assigned, functions, without in levels)


def most_nodes(inputs: int, outputs: int) -> int:
    """No diagram has more."""
    return sum(level_bounds(inputs, outputs))


def check(tables: Tables, certificate: Union[str, bytes], inputs: Optional[int] = None) -> Verdict:
    """The verdict on a certificate of the tables, as ``minorder --cert`` writes them.

    The tables have ``inputs`` variables; if that is left out, as many as they say themselves, else as many as the
    certificate says. Raises BadArgument, BadShape, BadCertificate (with the text's first faulty line and what is
    wrong there), MemoryError.
    """
    text = bytes_of(certificate)
    if inputs is None and inputs_said(listed(tables)) is None:
        inputs = inputs_of(text)
    functions = functions_of(tables, inputs)
    judged, total, pairs, count = Judged(), c_uint32(), (Pair * MOST_PAIRS)(), c_size_t()
    # an empty text also is given an address
    spelled = (c_uint8 * max(1, len(text))).from_buffer_copy(text or b"\0")
    status = aside(
        functions.inputs, library().minorder_check_total_with_pairs, *functions.given(), spelled, len(text), byref(judged),
        byref(total), pairs, MOST_PAIRS, byref(count))
    if status == NO_CERTIFICATE:
        check_text(text)
    done(status)
    kept = tuple((pair.above, pair.below) for pair in pairs[:count.value])
    return Verdict(REASONS[judged.reason], judged.mask, judged.variable, total.value, kept)
