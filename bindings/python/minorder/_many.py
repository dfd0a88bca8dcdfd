"""The orders of many functions by one call, in chunks that threads or an executor's workers share."""
from array import array
from concurrent.futures import Executor
from ctypes import c_uint8, c_uint32, c_uint64
from struct import Struct
from typing import Dict, Iterable, Iterator, List, Mapping, Optional, Sequence, Tuple

from ._arguments import checked_inputs, native, shown
from ._calls import Result, done
from ._errors import BadArgument, BadShape, MinorderError
from ._library import library
from ._tables import Pla, Tables, inputs_said, listed, names_said, no_inputs, words_of
from ._threads import Crew, checked_executor, workers_of

# of a chunk: inputs, outputs, and how many functions
HEAD = Struct("<III")
# a chunk's functions have so many points at most, where they are more than one
MOST_POINTS = 1 << 18


def exact_many(
        tables: Iterable[Tables], inputs: Optional[int] = None, workers: Optional[int] = None,
        executor: Optional[Executor] = None,
) -> List[Result]:
    """What ``exact`` gives for each of many functions, in their order, but that a notebook shows no diagram of these results.

    Each is given as ``exact`` takes it, and all have as many inputs and tables as the first. They are done by
    ``workers`` threads, as many as there are processors if that is left out, or by an executor of ``concurrent.futures``, which
    is handed some four chunks of bytes for each worker, and whose workers have this package and the library. Raises what
    ``exact`` does, and names the function.
    """
    each = _functions_of(tables)
    workers_of(workers)
    checked_executor(executor)
    if inputs is not None:
        checked_inputs(inputs)
    if not each:
        return []
    try:
        first = listed(each[0])
        if inputs is None and (inputs := inputs_said(first)) is None:
            raise no_inputs(first)
    except MinorderError as error:
        raise _of_function(0, error) from None
    inputs, outputs = checked_inputs(inputs), len(first)
    size = max(1, min(MOST_POINTS >> inputs, -(-len(each) // (4 * workers_of(workers)))))
    names: List[Optional[Tuple[str, ...]]] = []
    chunks = chunks_of(each, inputs, outputs, size, names)
    with Crew[int](exact_chunk, workers, executor) as crew:
        results = _results_by(crew, chunks, inputs)
    for result, known in zip(results, names):
        if known is not None:
            result._inputs = known
    return results


def _results_by(crew: Crew[int], chunks: Iterable[bytes], inputs: int) -> List[Result]:
    """The results of chunks of functions, in their order, by a crew, which goes on while those of a chunk are made."""
    found: Dict[int, List[Result]] = {}

    def take() -> None:
        number, answers = crew.take()
        found[number] = list(_results_of(answers, inputs))

    for number, chunk in enumerate(chunks):
        while not crew.has_room():
            take()
        crew.give(number, chunk)
    while crew.has_tasks():
        take()
    return [result for number in range(len(found)) for result in found[number]]


def _functions_of(tables: Iterable[Tables]) -> Sequence[Tables]:
    if isinstance(tables, (str, bytes, bytearray, set, frozenset, Mapping, Pla)) or not hasattr(tables, "__iter__"):
        raise BadArgument(f"tables: {shown(tables)} is no sequence of functions")
    return list(native(tables))  # type: ignore[call-overload,no-any-return]


def _of_function(number: int, error: MinorderError) -> MinorderError:
    said = str(error)
    return type(error)(f"tables: function {number}: {said[len('tables: '):] if said.startswith('tables: ') else said}")


def chunks_of(
        functions: Sequence[Tables], inputs: int, outputs: int, size: int, names: List[Optional[Tuple[str, ...]]],
) -> Iterator[bytes]:
    """The functions, so many in a chunk. Appends the names of each one's variables to ``names``, None for a plain number."""
    for start in range(0, len(functions), size):
        part = functions[start:start + size]
        yield HEAD.pack(inputs, outputs, len(part)) + b"".join(_words_of_each(part, start, inputs, outputs, names))


def _words_of_each(
        functions: Sequence[Tables], start: int, inputs: int, outputs: int, names: List[Optional[Tuple[str, ...]]],
) -> Iterator[bytes]:
    length, top = max(8, (1 << inputs) // 8), (1 << (1 << inputs)) - 1
    for number, function in enumerate(functions, start):
        # a table that is a plain number needs no more looking at
        if outputs == 1 and type(function) is int and 0 <= function <= top:
            names.append(None)
            yield function.to_bytes(length, "little")
            continue
        try:
            each = listed(function)
            if len(each) != outputs:
                raise BadShape(f"tables: {len(each)} tables where the first function has {outputs}")
            words = words_of(each, inputs)
            names.append(names_said(each, inputs))
            yield words
        except MinorderError as error:
            raise _of_function(number, error) from None


def exact_chunk(chunk: bytes) -> bytes:
    """The orders, the level counts and the sizes of a chunk's functions, one list behind the other."""
    inputs, outputs, count = HEAD.unpack_from(chunk)
    words = (len(chunk) - HEAD.size) // 8
    tables = (c_uint64 * words).from_buffer_copy(chunk, HEAD.size)
    places = count * inputs
    orders, levels, totals = (c_uint8 * places)(), (c_uint32 * places)(), (c_uint32 * count)()
    done(library().minorder_exact_many_with_lengths(
        tables, words, inputs, outputs, orders, places, levels, places, totals, count))
    return bytes(orders) + bytes(levels) + bytes(totals)


def _results_of(answers: bytes, inputs: int) -> Iterator[Result]:
    # of each function: a byte and a number for each variable, and its size
    count = len(answers) // (5 * inputs + 4)
    numbers = array("I", answers[count * inputs:])
    for at in range(0, count * inputs, inputs):
        yield Result(tuple(answers[at:at + inputs]), tuple(numbers[at:at + inputs]), numbers[count * inputs + at // inputs])
