"""The texts that minorder reads and writes: PLA files, which the library reads, and reports."""
import os
from ctypes import Array, byref, c_uint32, c_uint64
from typing import Dict, Iterable, List, Tuple, Union

from ._arguments import MOST, numbered_names
from ._calls import done
from ._errors import BadPla
from ._library import Fault, Name, library
from ._tables import Pla
from ._truth_tables import TruthTable
from ._writing import path_of

LIMIT = 16_777_216
NO_PLA = 9
# how many kinds of faults a PLA file may have
KINDS = 15
# the truth tables of a file take no more words
MOST_WORDS = 16_384
REPORT_LINES = ("order", "names", "levels", "nodes", "sifted order", "sifted nodes", "file order nodes")


def read_pla(path: Union[str, "os.PathLike[str]"]) -> Pla:
    """The truth tables and the names of a PLA file of type f, which is refused where ``minorder`` refuses it, with
    the same line and word. Raises BadArgument, BadPla, MemoryError, and OSError if the file can't be read."""
    name = path_of(path)
    with open(name, "rb") as file:
        content = file.read(LIMIT + 1)
    try:
        return pla_of(content)
    except BadPla as fault:
        raise BadPla(fault.line, fault.kind, name) from None


def pla_of(content: bytes) -> Pla:
    """The same of a file's content."""
    inputs, outputs, fault = c_uint32(), c_uint32(), Fault()
    input_names, output_names, words = (Name * MOST)(), (Name * MOST)(), (c_uint64 * MOST_WORDS)()
    status = library().minorder_read_pla_with_lengths(
        content, len(content), byref(inputs), byref(outputs), input_names, MOST, output_names, MOST, words, MOST_WORDS,
        byref(fault))
    if status == NO_PLA:
        raise _refusal(fault)
    done(status)
    xs, fs = numbered_names("x", inputs.value), numbered_names("f", outputs.value)
    return Pla(
        _tables(words, inputs.value, outputs.value), _names(content, input_names, xs), _names(content, output_names, fs))


def fault_words() -> List[str]:
    """The words of what is wrong with PLA files, as ``minorder`` prints them; the last one has no line."""
    return [library().minorder_fault_text(kind).decode() for kind in range(1, KINDS + 1)]


def _refusal(fault: Fault) -> BadPla:
    kind = library().minorder_fault_text(fault.kind).decode()
    return BadPla(None if kind == "TooLong" else fault.line, kind)


def _tables(words: "Array[c_uint64]", inputs: int, outputs: int) -> Tuple[TruthTable, ...]:
    """The tables that stand at the front of the words."""
    length = max(8, (1 << inputs) // 8)
    found = bytes(memoryview(words)[:outputs * length // 8])
    return tuple(
        TruthTable(int.from_bytes(found[at:at + length], "little"), inputs) for at in range(0, len(found), length))


def _names(content: bytes, places: Iterable[Name], plain: Iterable[str]) -> Tuple[str, ...]:
    """The names at these places of a file's content, and the plain ones if it gives none."""
    return tuple(content[it.start:it.start + it.length].decode() or name for it, name in zip(places, plain))


def parts_of(report: str) -> Dict[str, str]:
    """What stands behind the names of a report's lines."""
    return dict(line.split(": ", 1) for line in report.splitlines() if ": " in line)
