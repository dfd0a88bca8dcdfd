#!/usr/bin/env python3
"""check.py FILE CERT      judges a certificate as ordercheck does, with the same lines and statuses, by the rule of
USING.md, "The certificate's format", alone. It needs Python 3.9 and nothing else, and has no code of minorder, of
ordercheck or of their toolchain.

A function's truth table is a whole number: bit p is its value at the point p, and bit i of p that of variable i. A
set of variables is a mask. The functions got by fixing all variables outside a set are kept as a list of numbers, one
for each function and each assignment of the variables outside, and equal just where the functions are; so the width
of x over S is how many of the numbers over S with x depend on x. The list over a set comes from that over the set
without its largest variable: each number stands for a pair of the smaller set's.
"""
import os
import re
import sys
from array import array
from collections import Counter, defaultdict
from itertools import chain, count

PLA_LIMIT, CERTIFICATE_LIMIT, MOST = 16_777_216, 1_048_576, 999_999
# rows of so many numbers or more are compared, so that equal ones are kept once
ROW = 8
# over up to so many variables a function's number is its truth table, kept as an item of an array of these codes
WORDS, CODES = 6, "BBBBHIQ"
# where variable i is 0 in such truth tables that stand side by side
ZEROS = [b"\x55", b"\x33", b"\x0f", b"\xff\0", b"\xff\xff\0\0", b"\xff\xff\xff\xff\0\0\0\0"]


class Fault(Exception):
    """A text is refused; what stands behind the program's name."""


# ---- FILE

def number_of(words):
    if len(words) != 1 or not re.fullmatch(rb"[0-9]{1,9}", words[0]):
        raise Fault("BadNumber")
    return int(words[0])


class Cover:
    """The numbers of inputs and outputs, and the truth tables."""

    def __init__(self, content):
        self.heads, self.type, self.tables, self.any_term = {}, None, None, False
        lines = content.split(b"\n")
        at = 0
        for at, line in enumerate(lines if lines[-1] else lines[:-1], 1):
            try:
                if self.is_last(line.split(b"#")[0]):
                    break
            except Fault as fault:
                raise Fault(f"line {at}: {fault}") from None
        if not self.has_shape():
            raise Fault(f"line {at}: MissingHead")
        self.inputs, self.outputs = self.heads[b".i"], self.heads[b".o"]
        self.tables = self.tables or [0] * self.outputs

    def has_shape(self):
        return b".i" in self.heads and b".o" in self.heads

    def is_last(self, line):
        """Reads a line; whether it is the last one."""
        words = re.findall(rb"[^ \t\r]+", line)
        if not words:
            return False
        if not words[0].startswith(b"."):
            if not self.has_shape():
                raise Fault("MissingHead")
            self.term(line.translate(None, b" \t\r|"), self.heads[b".i"], self.heads[b".o"])
            return False
        if words[0] in (b".e", b".end"):
            return True
        self.directive(words[0], words[1:])
        return False

    def directive(self, name, words):
        if name not in (b".i", b".o", b".type", b".ilb", b".ob", b".p"):
            raise Fault("UnknownDirective")
        if name == b".p":
            number_of(words)
            return
        count_of = {b".ilb": b".i", b".ob": b".o"}.get(name)
        if count_of and count_of not in self.heads:
            raise Fault("MissingHead")
        if name in self.heads:
            raise Fault("RepeatedHead")
        self.heads[name] = words
        if count_of:
            if len(words) != self.heads[count_of]:
                raise Fault("NameCount")
            if not all(0x21 <= byte <= 0x7E for byte in b"".join(words)):
                raise Fault("BadName")
        elif name == b".type":
            if words not in ([b"f"], [b"fd"]) or self.any_term:
                raise Fault("UnsupportedType")
        else:
            self.heads[name] = number_of(words)
            if not 1 <= self.heads[name] <= 16:
                raise Fault("InputCount" if name == b".i" else "OutputCount")

    def term(self, characters, inputs, outputs):
        """A term adds the points at which its literals hold to each output that it has `1` for."""
        ignores = self.heads.get(b".type") == [b"f"]
        for place, character in enumerate(characters):
            if place >= inputs + outputs:
                raise Fault("LongTerm")
            if place < inputs:
                if character not in b"01-2":
                    raise Fault("BadInputChar")
            elif character in b"-2":
                if not ignores:
                    raise Fault("DontCare")
            elif character not in b"01~":
                raise Fault("BadOutputChar")
        if len(characters) < inputs + outputs:
            raise Fault("ShortTerm")
        if not self.any_term:
            self.any_term, self.tables = True, [0] * outputs
        points = 1
        for x, literal in enumerate(characters[:inputs]):
            points = points if literal in b"0" else points << (1 << x) if literal in b"1" else points | points << (1 << x)
        for j, output in enumerate(characters[inputs:]):
            if output in b"1":
                self.tables[j] |= points


# ---- CERT

class Certificate:
    """The lines of a certificate; `pairs` is None in format 1."""

    def __init__(self, content):
        *self.lines, rest = content.split(b"\n")
        self.at = 0
        self.format = self.words(2)
        if self.format not in ([b"bddorder-certificate", b"1"], [b"bddorder-certificate", b"2"]):
            self.refuse("BadLine")
        self.inputs, self.outputs = self.one(b"inputs", 1, 16), self.one(b"outputs", 1, 16)
        self.order = [self.number(word, 0, 15) for word in self.words(self.inputs, b"order")]
        self.levels = [self.number(word, 0, MOST) for word in self.words(self.inputs, b"levels")]
        self.total = self.one(b"total", 0, MOST)
        self.pairs = self.rising(b"pairs", 240, self.pair) if self.format[1] == b"2" else None
        self.costs = dict(self.rising(b"cells", (1 << self.inputs) - 1, self.cell))
        self.words(0, b"end")
        if self.at < len(self.lines) or rest:
            self.at += 1
            self.refuse("TrailingText")

    def refuse(self, kind):
        raise Fault(f"certificate line {self.at}: {kind}")

    def words(self, many, *fixed):
        """The words of the next line behind its fixed ones."""
        self.at += 1
        if self.at > len(self.lines):
            self.refuse("MissingLine")
        words = self.lines[self.at - 1].split(b" ")
        if len(words) != len(fixed) + many or words[:len(fixed)] != list(fixed):
            self.refuse("BadLine")
        return words[len(fixed):]

    def number(self, word, least, most):
        if not re.fullmatch(rb"0|[1-9][0-9]{0,6}", word) or not least <= int(word) <= most:
            self.refuse("BadNumber")
        return int(word)

    def one(self, fixed, least, most):
        return self.number(self.words(1, fixed)[0], least, most)

    def rising(self, fixed, most, read):
        """A line with a number, and so many lines whose items rise."""
        items = []
        for _ in range(self.one(fixed, 0, most)):
            item, key = read(self.words(2))
            if items and key <= last:
                self.refuse("NotRising")
            items.append(item)
            last = key
        return items

    def pair(self, words):
        pair = tuple(self.number(word, 0, self.inputs - 1) for word in words)
        return pair, pair

    def cell(self, words):
        if not re.fullmatch(rb"[0-9a-f]{4}", words[0]) or int(words[0], 16) > (1 << self.inputs) - 2:
            self.refuse("BadNumber")
        mask = int(words[0], 16)
        return (mask, self.number(words[1], 0, MOST)), mask


# ---- widths

def paired(numbers):
    """The list over a set with one variable more, whose values stand in turns, and the distinct pairs by their numbers."""
    pairs = defaultdict(count().__next__)
    return list(map(pairs.__getitem__, zip(numbers[0::2], numbers[1::2]))), pairs


def joined(words, size):
    """The same for truth tables over `size` variables: two that stand side by side are one over a variable more."""
    if size >= 3:
        return array(CODES[size + 1], words.tobytes())
    low, high = (int.from_bytes(words[i::2].tobytes(), "little") for i in (0, 1))
    return array(CODES[size + 1], (low | high << (1 << size)).to_bytes(len(words) // 2, "little"))


def depends_of(words, size):
    """On which of its variables each truth table depends, as a bit each: all are compared at once, as one long number."""
    content, step, found = words.tobytes(), words.itemsize, 0
    whole = int.from_bytes(content, "little")
    for i in range(size):
        zeros = int.from_bytes(ZEROS[i] * (len(content) // len(ZEROS[i])), "little")
        differ = (whole >> (1 << i) ^ whole) & zeros
        for shift in (32, 16, 8):
            differ |= differ >> shift if shift < 8 * step else 0
        lowest = differ.to_bytes(len(content), "little")[::step]
        found |= int.from_bytes(lowest.translate(bytes([0] + [1 << i] * 255)), "little")
    return found.to_bytes(len(words), "little")


def without_repeats(numbers, width):
    """The list with each row of this width once; a row is a function over the set and the variables that may join."""
    if width < ROW:
        return numbers
    kind = tuple if isinstance(numbers, list) else bytes
    rows = dict.fromkeys(kind(numbers[i:i + width]) for i in range(0, len(numbers), width))
    if len(rows) * width == len(numbers):
        return numbers
    return list(chain.from_iterable(rows)) if kind is tuple else array(numbers.typecode, b"".join(rows))


def levels_of(values, order):
    """The level counts under an order: from the bottom level up, how many distinct pairs of unequal numbers there are."""
    places = [0]
    for x in reversed(order):
        places += [place | 1 << x for place in places]
    numbers = [table[place] for table in values for place in places]
    counts = []
    for _ in order:
        numbers, pairs = paired(numbers)
        counts.append(sum(low != high for low, high in pairs))
    return counts[::-1]


class Walk:
    """Asks for the widths into the sets of `asked`, which gives for a set some of its variables and the least width
    that is enough. `failed` are the edges whose width is less: the set without the variable, and the variable."""

    def __init__(self, values, inputs, asked):
        self.inputs, self.asked, self.failed = inputs, asked, []
        # the sets from which larger variables lead to one that is asked for
        self.wanted = {mask & (2 << x) - 1 for mask in asked for x in range(inputs) if mask >> x & 1}
        self.visit_words(0, array("B", chain.from_iterable(values)), 0)

    def steps(self, mask, first):
        return [x for x in range(first, self.inputs) if mask | 1 << x in self.wanted]

    def lists(self, mask, numbers, first):
        """Each variable that joins, with the list over the set in which its values stand in turns."""
        steps = self.steps(mask, first)
        for x in range(first, steps[-1] + 1 if steps else first):
            if x in steps:
                yield x, numbers
            if x < steps[-1]:
                numbers = without_repeats(numbers[0::2] + numbers[1::2], 1 << self.inputs - 1 - x)

    def judge(self, mask, width):
        self.failed += [(mask ^ 1 << x, x) for x, least in self.asked.get(mask, ()) if width(x) < least]

    def visit_words(self, mask, words, first):
        """A set of at most six variables, whose numbers are truth tables, and the smallest variable that may join."""
        members = [x for x in range(self.inputs) if mask >> x & 1]
        size = len(members)
        if mask in self.asked or size == WORDS:
            distinct = array(words.typecode, set(words))
            depends = depends_of(distinct, size)
            if len(distinct) == len(words) and set(depends) == {(1 << size) - 1}:
                self.visit_distinct(mask, len(words), first)
                return
            if size == WORDS:
                sets = {it: sum(1 << x for i, x in enumerate(members) if it >> i & 1) for it in set(depends)}
                numbers = {word: number for number, word in enumerate(distinct)}
                self.visit(mask, [sets[it] for it in depends], [numbers[word] for word in words], first)
                return
            shares = Counter(depends)
            self.judge(mask, lambda x: sum(many for it, many in shares.items() if it >> members.index(x) & 1))
        for x, turns in self.lists(mask, words, first):
            self.visit_words(mask | 1 << x, joined(turns, size), x + 1)

    def visit(self, mask, depends, numbers, first):
        """A set: the variables on which each number depends, and the list over the set."""
        if mask in self.asked:
            shares = Counter(depends)
            self.judge(mask, lambda x: sum(many for it, many in shares.items() if it >> x & 1))
        for x, turns in self.lists(mask, numbers, first):
            larger, pairs = paired(turns)
            both = [depends[low] | depends[high] | (low != high) << x for low, high in pairs]
            if len(both) == len(larger) and set(both) == {mask | 1 << x}:
                self.visit_distinct(mask | 1 << x, len(larger), x + 1)
            else:
                self.visit(mask | 1 << x, both, larger, x + 1)

    def visit_distinct(self, mask, many, first):
        """A set over which all functions differ and depend on all of it: so they do over each larger set, which has
        half as many."""
        self.judge(mask, lambda x: many)
        for x in self.steps(mask, first):
            self.visit_distinct(mask | 1 << x, many // 2, x + 1)


# ---- the verdict

def lawful_sets(inputs, pairs):
    """Of each set whether it has B wherever it has A."""
    if not pairs:
        return [True] * (1 << inputs)
    below = [0] * inputs
    for a, b in pairs:
        below[a] |= 1 << b
    return [all(not below[x] & ~mask for x in range(inputs) if mask >> x & 1) for mask in range(1 << inputs)]


def values_of(it, essential):
    """The value of each set."""
    most = (1 << it.inputs) - 1
    values = [it.costs.get(mask, max(0, it.total - outside(it, essential, mask))) for mask in range(most)]
    return [*values, it.total]


def outside(it, essential, mask):
    """How many essential variables outside a set are counted on: none in format 1."""
    return bin(essential & ~mask).count("1") if it.pairs is not None else 0


def verdict(cover, it):
    """The line of the verdict: the first reason that applies."""
    n, pairs = cover.inputs, it.pairs or []
    if (it.inputs, it.outputs) != (n, cover.outputs):
        return "invalid Shape"
    if sorted(it.order) != list(range(n)):
        return "invalid Order"
    if any(it.order.index(a) >= it.order.index(b) for a, b in pairs):
        return "invalid Pairs"
    functions = [list(map(int, reversed(f"{table:0{1 << n}b}"))) for table in cover.tables]
    if it.levels != levels_of(functions, it.order):
        return "invalid Levels"
    if it.total != sum(it.levels):
        return "invalid Total"
    # a level has nodes just if some output depends on its variable
    essential = sum(1 << x for x, nodes in zip(it.order, it.levels) if nodes)
    values = values_of(it, essential)
    if values[0] != 0:
        return "invalid Start"
    if any(cost + outside(it, essential, mask) > it.total for mask, cost in it.costs.items()):
        return "invalid CellTooBig"
    lawful, asked = lawful_sets(n, pairs), defaultdict(list)
    for mask in filter(lawful.__getitem__, it.costs):
        for x in range(n):
            larger = mask | 1 << x
            if larger != mask and lawful[larger] and values[larger] > values[mask]:
                asked[larger].append((x, values[larger] - values[mask]))
    failed = Walk(functions, n, asked).failed
    if failed:
        return "invalid Edge {:04x} {}".format(*min(failed))
    return f"valid {it.total}" + (f" pairs {len(pairs)}" if pairs else "")


def judged(read_file, read_certificate):
    """The status, and the line of the verdict or the fault. The certificate is read once the file has no fault."""
    try:
        file = read_file()
        if len(file) > PLA_LIMIT:
            raise Fault("TooLong")
        cover = Cover(file)
        certificate = read_certificate()
        if len(certificate) > CERTIFICATE_LIMIT:
            raise Fault("certificate: TooLong")
        line = verdict(cover, Certificate(certificate))
    except Fault as fault:
        return 3, str(fault)
    except MemoryError:
        return 4, "OutOfMemory"
    return int(line.startswith("invalid")), line


# ---- the words

def content_of(opened, limit):
    """What an open file holds, or a byte more than the limit of it."""
    parts, left = [], limit + 1
    while left and (part := os.read(opened, left)):
        parts.append(part)
        left -= len(part)
    return b"".join(parts)


def main(words):
    if words in (["--help"], ["-h"]):
        print(__doc__)
        return 0
    if words[:1] in (["--version"], ["-V"]):
        print("check.py 1.0.0")
        return 0
    if len(words) != 2 or any(word.startswith("-") and word != "-" for word in words):
        print("usage: check.py FILE CERT", file=sys.stderr)
        return 2
    try:
        file, certificate = [os.open(word, os.O_RDONLY) for word in words]
        status, line = judged(lambda: content_of(file, PLA_LIMIT), lambda: content_of(certificate, CERTIFICATE_LIMIT))
        os.write(1 if status < 2 else 2, f"{'' if status < 2 else 'check.py: '}{line}\n".encode())
        return status
    except OSError:
        print("check.py: Device", file=sys.stderr)
        return 5


if __name__ == "__main__":
    sys.exit(main(sys.argv[1:]))
