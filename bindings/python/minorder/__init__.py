"""Exact minimum variable orders of shared reduced ordered binary decision diagrams.

    exact(tables)             the first order of the fewest nodes, its level counts, its size
    exact_many(functions)     the same of many functions, on several threads
    certify(tables)           the certificate of that order
    check(tables, text)       the verdict on a certificate
    levels(tables, order)     the level counts under an order
    sift(tables, order)       what one pass of sifting makes of an order
    diagram(tables, order)    the diagram under an order, which a notebook shows
    orders(tables)            the fewest, the mean and the most nodes over all orders
    sizes(tables)             how many orders have each size, which a notebook shows as a curve
    widths(tables)            the widths of all variables over all sets of others
    variables("a b s")        the tables of variables, which &, |, ^, ~ and ite join
    ite(test, high, low)      the table of if, then, else
    from_values(values)       the table of a list or text of values
    from_hexadecimal(digits)  the table of hexadecimal digits
    read_pla(path)            the tables and names of a PLA file
    report_files(paths)       what the program minorder reports of many files

``help(minorder.exact)`` and so on have more about each:

    >>> import minorder
    >>> a, b, s = minorder.variables("a b s")
    >>> mux = minorder.ite(s, b, a)
    >>> found = minorder.exact(mux)
    >>> found
    Result(order=(2, 0, 1), levels=(1, 1, 1), total=3)
    >>> found.names
    ('s', 'a', 'b')
    >>> minorder.diagram(mux, found).nodes
    (Node(variable=1, low=0, high=1), Node(variable=0, low=0, high=1), Node(variable=2, low=3, high=2))

``tables`` is one table or a sequence of them, of 1 to 16 variables. A table is

* a TruthTable, as these calls make it, which knows how many variables it has, and their names;
* a function of booleans, variable 0 first, which is called once for each point and gives a bool, 0 or 1; the names
  of its parameters are those of the variables;
* an integer: bit p is the value at the point p, and bit i of p is the value of variable i;
* bytes: bit p % 8 of byte p // 8 is the value at the point p, as in ``integer.to_bytes(length, "little")``.

    >>> minorder.exact(lambda a, b, s: b if s else a) == minorder.exact(0xca, inputs=3) == found
    True

Tables with names stand together if they have the same, or some have none; parameters of functions that have other names are
x0, x1, .. A list of values that isn't put into ``from_values`` is refused where it can be told from a list of tables: 2^n
entries, each 0 or 1.

An order lists each variable once, top first; a result stands for its own. Level counts are numbers of decision nodes, top level
first: one root a table, no complement edges, terminals not counted.

The calls are made by the shared library libminorder, without the interpreter's lock, so that threads run side by side. It is
the file that the environment variable MINORDER_LIBRARY names, else one beside this module or in the lib/ of the checkout or
prefix that it lies in, else what the loader finds.
"""
from ._all_orders import Widths, orders, sizes, widths
from ._calls import Result, Verdict, certify, check, diagram, exact, levels, sift
from ._diagrams import Diagram, Node
from ._errors import (
    BadArgument, BadCertificate, BadOrder, BadPairs, BadPath, BadPla, BadShape, BadSize, BadText, MinorderError, NoGraphviz,
    NoLibrary, NoMatplotlib)
from ._many import exact_many
from ._sizes import Orders, Sizes
from ._tables import Pla, Table, Tables
from ._truth_tables import TruthTable, from_hexadecimal, from_values, ite, variables
from .batch import FileReport, Report, Status, report_files
from .files import read_pla

__version__ = "1.0.0"
__all__ = [
    "BadArgument", "BadCertificate", "BadOrder", "BadPairs", "BadPath", "BadPla", "BadShape", "BadSize", "BadText",
    "MinorderError", "NoGraphviz", "NoLibrary", "NoMatplotlib",
    "Diagram", "FileReport", "Node", "Orders", "Pla", "Report", "Result", "Sizes", "Status", "Table", "Tables", "TruthTable",
    "Verdict", "Widths",
    "certify", "check", "diagram", "exact", "exact_many", "from_hexadecimal", "from_values", "ite", "levels", "orders",
    "read_pla", "report_files", "sift", "sizes", "variables", "widths",
]
