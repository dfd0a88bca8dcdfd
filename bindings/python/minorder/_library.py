"""The shared library and the types of its calls."""
import os
from contextlib import suppress
from ctypes import CDLL, POINTER, Structure, c_char_p, c_size_t, c_uint8, c_uint32, c_uint64
from ctypes.util import find_library
from threading import Lock
from typing import Iterator, Optional

from ._errors import NoLibrary

NAME = "libminorder.so.1"
# the version that has all calls below; a later one has them too, as long as the first number stays
NEEDED = (1, 0, 0)
# the loader's words where there is no room for a library
NO_ROOM = ("cannot allocate", "failed to map", "cannot map")


class Pair(Structure):
    """minorder_pair."""
    _fields_ = [("above", c_uint8), ("below", c_uint8)]


class NodeRow(Structure):
    """minorder_node."""
    _fields_ = [("variable", c_uint32), ("low", c_uint32), ("high", c_uint32)]


class Judged(Structure):
    """minorder_verdict."""
    _fields_ = [("reason", c_uint32), ("mask", c_uint32), ("variable", c_uint32)]


class Figures(Structure):
    """minorder_figures."""
    _fields_ = [
        *((name, c_uint64) for name in ("orders", "optimal_orders", "worst_orders", "total_nodes")),
        ("fewest_nodes", c_uint32), ("most_nodes", c_uint32)]


class Name(Structure):
    """minorder_name."""
    _fields_ = [("start", c_size_t), ("length", c_size_t)]


class Fault(Structure):
    """minorder_fault."""
    _fields_ = [("line", c_size_t), ("kind", c_uint32)]


TABLES = [POINTER(c_uint64), c_size_t, c_uint32, c_uint32]
ORDER = [POINTER(c_uint8), c_size_t]
LEVELS = [POINTER(c_uint32), c_size_t]
TOTAL = [POINTER(c_uint32)]
PAIRS = [POINTER(Pair), c_size_t]
CALLS = {
    "minorder_exact_with_lengths": [*TABLES, *ORDER, *LEVELS, *TOTAL],
    "minorder_exact_above_with_lengths": [*TABLES, *PAIRS, *ORDER, *LEVELS, *TOTAL],
    "minorder_certify_with_pairs": [*TABLES, *PAIRS, POINTER(c_uint8), c_size_t, POINTER(c_size_t)],
    "minorder_levels_with_lengths": [*TABLES, *ORDER, *LEVELS],
    "minorder_sift_with_lengths": [*TABLES, *ORDER, *LEVELS, *TOTAL],
    "minorder_diagram_with_lengths": [
        *TABLES, *ORDER, POINTER(NodeRow), c_size_t, POINTER(c_uint32), c_size_t, POINTER(c_size_t)],
    "minorder_exact_many_with_lengths": [*TABLES, *ORDER, *LEVELS, *LEVELS],
    "minorder_orders_with_pairs": [*TABLES, *PAIRS, POINTER(Figures)],
    "minorder_sizes_with_pairs": [*TABLES, *PAIRS, c_uint32, POINTER(c_uint64), c_size_t, *TOTAL, POINTER(c_size_t)],
    "minorder_widths_with_lengths": [*TABLES, *LEVELS],
    "minorder_check_total_with_pairs": [
        *TABLES, POINTER(c_uint8), c_size_t, POINTER(Judged), *TOTAL, *PAIRS, POINTER(c_size_t)],
    "minorder_read_pla_with_lengths": [
        c_char_p, c_size_t, *TOTAL, *TOTAL, POINTER(Name), c_size_t, POINTER(Name), c_size_t, POINTER(c_uint64), c_size_t,
        POINTER(Fault)],
    "minorder_fault_text": [c_uint32],
}

_lock = Lock()
_loaded: Optional[CDLL] = None


def _candidates() -> Iterator[str]:
    named = os.environ.get("MINORDER_LIBRARY")
    if named:
        yield named
        return
    here = os.path.dirname(os.path.abspath(__file__))
    # beside this module, and the lib/ of a checkout, or of the prefix that the package was installed under
    for beside in (f"{here}/{NAME}", f"{here}/libminorder.so", f"{here}/../../../lib/{NAME}", f"{here}/../../../../lib/{NAME}"):
        if os.path.exists(beside):
            yield os.path.normpath(beside)
            return
    yield NAME
    found = find_library("minorder")
    if found:
        yield found


def _file_of(path: str) -> str:
    """The file that was loaded by a path, or by a name that the loader found."""
    if "/" not in path:
        with suppress(OSError, StopIteration), open("/proc/self/maps") as maps:
            # an address, four more columns, and the file
            return next(line.split(None, 5)[5].rstrip("\n") for line in maps if "/libminorder.so" in line)
    return path


def _check_version(loaded: CDLL, path: str) -> None:
    loaded.minorder_version.restype = c_uint32
    number: int = loaded.minorder_version()
    version = number // 10000, number // 100 % 100, number % 100
    if version[0] != NEEDED[0] or version < NEEDED:
        found, needed = (".".join(map(str, it)) for it in (version, NEEDED))
        raise NoLibrary(
            f"{_file_of(path)} is of version {found}, and this package needs version {needed} or a later one below "
            f"{NEEDED[0] + 1}.0.0; MINORDER_LIBRARY may name another file")


def _with_calls(loaded: CDLL, path: str) -> CDLL:
    """The library with the types of its calls. Raises NoLibrary if it is another one."""
    try:
        _check_version(loaded, path)
        for name, arguments in CALLS.items():
            call = getattr(loaded, name)
            call.argtypes, call.restype = arguments, c_char_p if name.endswith("_text") else c_uint32
    except AttributeError as error:
        raise NoLibrary(f"{_file_of(path)} is no {NAME} that this package can call: {error}") from error
    return loaded


def _load() -> CDLL:
    why = ""
    for path in _candidates():
        try:
            loaded = CDLL(path)
        except OSError as error:
            if any(words in str(error).lower() for words in NO_ROOM):
                raise MemoryError(str(error)) from None
            why = why or str(error)
        else:
            return _with_calls(loaded, path)
    raise NoLibrary(
        f"the C library that this package calls isn't found: {why}; minorder's Debian package libminorder1 has {NAME}, as has "
        f"its release in lib/, and `./install.sh` of its repository installs it; MINORDER_LIBRARY may name the file")


def library() -> CDLL:
    """The library, loaded by the first call."""
    global _loaded
    with _lock:
        if _loaded is None:
            _loaded = _load()
        return _loaded
