#!/usr/bin/env python3
"""permute.py ORDER < FILE      the PLA file with its inputs in another order, top first, as `2 0 1` or `2,0,1`

So `minorder --count` tells that order's size.

A file that minorder refuses and an ORDER that hasn't each input of the file once are refused, with status 2. minorder's library
reads the file."""
import os
import signal
import sys

sys.path.insert(0, f"{os.path.dirname(os.path.abspath(__file__))}/../bindings/python")
from minorder import BadPla, NoLibrary  # noqa: E402
from minorder._orders import fault_of  # noqa: E402
from minorder.files import pla_of  # noqa: E402


def refuse(message):
    print(f"permute.py: {message}", file=sys.stderr)
    sys.exit(2)


def permuted(content, order):
    """A file's content, which minorder reads, with the inputs of its names and terms in the order."""
    lines = content.split(b"\n")
    for at, line in enumerate(lines):
        words = line.partition(b"#")[0].split()
        if words[:1] in ([b".e"], [b".end"]):
            break
        if words[:1] == [b".ilb"]:
            lines[at] = b" ".join([b".ilb", *(words[1 + x] for x in order)])
        elif words and not words[0].startswith(b"."):
            term = b"".join(words).replace(b"|", b"")
            lines[at] = bytes(term[x] for x in order) + b" " + term[len(order):]
    return b"\n".join(lines)


def main():
    words = " ".join(sys.argv[1:]).replace(",", " ").split()
    if {"-h", "--help"} & set(words):
        print(__doc__)
        return
    if not words:
        refuse("which ORDER? --help says how it is written")
    content = sys.stdin.buffer.read()
    try:
        inputs = len(pla_of(content).inputs)
    except BadPla as fault:
        refuse(f"the file: {fault}")
    except NoLibrary as fault:
        refuse(fault)
    fault = fault_of(words, inputs)
    if fault:
        refuse(fault)
    sys.stdout.buffer.write(permuted(content, [int(word) for word in words]))


if __name__ == "__main__":
    signal.signal(signal.SIGPIPE, signal.SIG_DFL)
    main()
