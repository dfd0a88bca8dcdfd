"""Worked cases, whose format crates/worked_cases/data/README.md has."""
import os
import re

TEXTS = "file", "output", "errors", "after", "absent"


def blocks_of(text):
    """The parts of a text of worked cases: what stands before the first case, and each case with what follows it."""
    return re.split(r"^(?=case )", text, flags=re.MULTILINE)


def bytes_of(lines, folder):
    """What the lines of a text make, of which some may name files of a folder."""
    made = bytearray()
    for line in lines:
        word, _, rest = line.partition(" ")
        if word == "bytes":
            made += bytes.fromhex(rest)
        elif word == "fill":
            made += b"x" * (int(rest) - len(made))
        elif word == "from":
            with open(os.path.join(folder, rest), "rb") as file:
                made += file.read()
        else:
            made += line[1:].encode() + b"\n" * (line[0] == "|")
    return bytes(made)


class Case:
    """A case: each call's program and words, the status, the lengths or None, and the lines of each text by the line above."""

    def __init__(self, block):
        self.calls, self.status, self.lengths, self.texts = [], 0, None, {}
        lines = []
        for line in block.split("\n")[1:]:
            word, _, rest = line.partition(" ")
            if word == "call":
                self.calls.append(rest.split(" "))
            elif word == "status":
                self.status = int(rest)
            elif word == "lengths":
                first, last = map(int, rest.split())
                self.lengths = range(first, last + 1)
            elif word in TEXTS:
                lines = self.texts[line] = []
            elif line and line[0] != "#":
                lines.append(line)

    def files(self, folder):
        """The contents of the files that are there before a call, by their names, where the cases lie in a folder."""
        named = {line.partition(" ")[2]: lines for line, lines in self.texts.items() if line.startswith("file ")}
        return {name: bytes_of(lines, folder) for name, lines in named.items()}
