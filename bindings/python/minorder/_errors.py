"""Why calls are refused."""
from typing import Optional, Tuple


class MinorderError(Exception):
    """A call was refused; each other exception of this package is one of these, and its text names the argument.
    Where memory is out it is a MemoryError instead, and a file that can't be read or written is an OSError."""


class NoLibrary(MinorderError, OSError):
    """The shared library isn't there, or is another one, or of a version that this package doesn't call."""


class BadArgument(MinorderError, TypeError):
    """An argument is of another type, or a table is asked for its truth or order."""


class BadShape(MinorderError, ValueError):
    """There aren't 1 to 16 variables and 1 to 16 tables, or a table has values for other points than theirs, or there are
    other names or other numbers of them, or a node or a root leads to none of a diagram's nodes."""


class BadOrder(MinorderError, ValueError):
    """An order hasn't each variable of the tables once."""


class BadPairs(MinorderError, ValueError):
    """A pair has another variable, or the pairs lead from a variable back to itself."""


class BadSize(MinorderError, ValueError):
    """A number of nodes or a share is none, or beyond the bound up to which sizes are counted."""


class BadPath(MinorderError, ValueError):
    """The suffix of a file's name is none that is written to, or the diagram is too large for a picture."""


class NoGraphviz(MinorderError, OSError):
    """Graphviz, which makes pictures, isn't there or fails."""


class NoMatplotlib(MinorderError, ImportError):
    """Matplotlib, which makes pictures of other formats than .svg, isn't there."""


class BadText(MinorderError, ValueError):
    """A text isn't of its format: ``kind`` is the word that the programs print, ``line`` the number of the faulty
    line, None if the kind has none, as ``TooLong``."""

    def __init__(self, line: Optional[int], kind: str, named: str = "") -> None:
        self.line, self.kind, self.named = line, kind, named
        where = kind if line is None else f"line {line}: {kind}"
        super().__init__(f"{named}: {where}" if named else where)

    def __reduce__(self) -> Tuple[object, ...]:
        return type(self), (self.line, self.kind, self.named)


class BadPla(BadText):
    """A text is no PLA file that ``minorder`` reads."""


class BadCertificate(BadText):
    """A text is no certificate."""
