#!/usr/bin/env python3
"""Boolean functions, benchmarks of variable orders and functions that people use, as PLA files.

    functions.py            lists the names, with inputs, outputs and what each is
    functions.py NAME       writes the PLA file of one to standard output; `minorder-functions` writes several into a folder

A function is given by a formula on its inputs; its file is an irredundant cover of each output, or the list of its points
where that is shorter. Numbers have their lowest bit first in the formulas, and the file's inputs stand in the order that the
entry says. The modules of the Python package's `benchmarks` have the formulas.
"""
import os
import signal
import sys

sys.path.insert(0, f"{os.path.dirname(os.path.abspath(__file__))}/../bindings/python")
from minorder.benchmarks import UnknownName, entries, entry  # noqa: E402


def refuse(message):
    print(f"functions.py: {message}", file=sys.stderr)
    sys.exit(2)


def main(words):
    if {"-h", "--help"} & set(words):
        print(__doc__, end="")
        return
    if not words:
        for it in entries():
            print(f"{it.name}\t{len(it.inputs)}\t{it.outputs}\t{it.family}: {it.words}")
        return
    if len(words) > 1:
        refuse(f"{' '.join(words)}: one NAME; --help says more")
    try:
        sys.stdout.write(entry(words[0]).pla())
    except UnknownName as error:
        refuse(error)


if __name__ == "__main__":
    # a reader that takes no more, as `head`, ends it
    signal.signal(signal.SIGPIPE, signal.SIG_DFL)
    main(sys.argv[1:])
