"""What minorder and ordercheck answer, written from docs/DEFINITIONS.md and docs/USING.md alone: a function is its truth table
as a whole number (bit p is the value at point p), and up to 5 inputs each order is looked at; beyond, the recurrence of Friedman
and Supowit is used."""
from collections import Counter
from functools import lru_cache
from itertools import combinations, permutations

PLA_LIMIT, CERTIFICATE_LIMIT = 16_777_216, 1_048_576
ALL_ORDERS_UP_TO = 5
MOST_INPUTS = 10


class Fault(Exception):
    """A refusal: its status, and what stands behind the program's name."""

    def __init__(self, status, text):
        super().__init__(text)
        self.status, self.text = status, text


# PLA files

class Cover:
    def __init__(self, inputs, outputs, names, terms):
        self.inputs, self.outputs, self.names = inputs, outputs, names
        self.tables = [0] * outputs
        for literals, outs in terms:
            if not outs:
                continue
            ones = 0
            for point in range(1 << inputs):
                if all(literal is None or point >> i & 1 == literal for i, literal in enumerate(literals)):
                    ones |= 1 << point
            for j in outs:
                self.tables[j] |= ones


def counted(words):
    """The number of a directive's words."""
    if len(words) != 1 or not 1 <= len(words[0]) <= 9 or any(c not in b"0123456789" for c in words[0]):
        raise ValueError("BadNumber")
    return int(words[0])


def names_of(words, count):
    if len(words) != count:
        raise ValueError("NameCount")
    if any(not 0x21 <= c <= 0x7e for word in words for c in word):
        raise ValueError("BadName")
    return [word.decode() for word in words]


def term_of(line, inputs, outputs, kind):
    literals, outs, at = [], [], 0
    for c in line:
        if c in b" \t\r|":
            continue
        if at < inputs:
            if c not in b"01-2":
                raise ValueError("BadInputChar")
            literals.append({48: 0, 49: 1}.get(c))
        elif at < inputs + outputs:
            if c in b"-2":
                if kind != b"f":
                    raise ValueError("DontCare")
            elif c not in b"01~":
                raise ValueError("BadOutputChar")
            elif c == 49:
                outs.append(at - inputs)
        else:
            raise ValueError("LongTerm")
        at += 1
    if at < inputs + outputs:
        raise ValueError("ShortTerm")
    return literals, outs


def words_of(line):
    """The words between blanks, which are space, tab and carriage return."""
    return [word for word in line.replace(b"\t", b" ").replace(b"\r", b" ").split(b" ") if word]


def cover_of(content):
    """The cover that a file's bytes stand for."""
    if len(content) > PLA_LIMIT:
        raise Fault(3, "TooLong")
    lines = content.split(b"\n")
    if lines[-1] == b"":
        lines.pop()
    heads, terms, number = {}, [], 0
    for number, line in enumerate(lines, 1):
        line = line.split(b"#")[0]
        words = words_of(line)
        if not words:
            continue
        try:
            if words[0][:1] != b".":
                if b".i" not in heads or b".o" not in heads:
                    raise ValueError("MissingHead")
                terms.append(term_of(line, heads[b".i"], heads[b".o"], heads.get(b".type")))
            elif words[0] in (b".e", b".end"):
                break
            else:
                directive(words, heads, terms)
        except ValueError as fault:
            raise Fault(3, f"line {number}: {fault}") from None
    if b".i" not in heads or b".o" not in heads:
        raise Fault(3, f"line {number}: MissingHead")
    inputs, outputs = heads[b".i"], heads[b".o"]
    if inputs > MOST_INPUTS:
        raise NotImplementedError
    return Cover(inputs, outputs, heads.get(b".ilb") or [f"x{i}" for i in range(inputs)], terms)


def directive(words, heads, terms):
    name = words[0]
    if name == b".p":
        counted(words[1:])
        return
    if name not in (b".i", b".o", b".ilb", b".ob", b".type"):
        raise ValueError("UnknownDirective")
    counts = {b".ilb": b".i", b".ob": b".o"}.get(name)
    if counts and counts not in heads:
        raise ValueError("MissingHead")
    if name in heads:
        raise ValueError("RepeatedHead")
    if counts:
        heads[name] = names_of(words[1:], heads[counts])
    elif name == b".type":
        if words[1:] not in ([b"f"], [b"fd"]) or terms:
            raise ValueError("UnsupportedType")
        heads[name] = words[1]
    else:
        count = counted(words[1:])
        if not 1 <= count <= 16:
            raise ValueError("InputCount" if name == b".i" else "OutputCount")
        heads[name] = count


# Functions of n variables

@lru_cache(None)
def zeros_of(n, x):
    """The points at which variable x is 0."""
    return sum(1 << point for point in range(1 << n) if not point >> x & 1)


def restricted(table, n, x, bit):
    """The function with variable x set to a bit, again as a table of n variables."""
    half = (table >> (1 << x) if bit else table) & zeros_of(n, x)
    return half | half << (1 << x)


def depends(table, n, x):
    return (table >> (1 << x) ^ table) & zeros_of(n, x) != 0


def levels_under(functions, n, order):
    """The level counts: of the functions that restricting by the variables above gives, those that
    depend on the level's variable."""
    counts, reached = [], set(functions)
    for x in order:
        counts.append(sum(depends(f, n, x) for f in reached))
        reached = {restricted(f, n, x, bit) for f in reached for bit in (0, 1)}
    return counts


def keeps(order, pairs):
    return all(a in order and b in order and order.index(a) < order.index(b) for a, b in pairs)


class Functions:
    """The functions of a cover, with what is asked of them."""

    def __init__(self, cover):
        self.n, self.tables = cover.inputs, cover.tables
        self.essential = sum(1 << x for x in range(self.n) if any(depends(f, self.n, x) for f in self.tables))
        self.sizes, self.subs, self.leasts = {}, {(1 << self.n) - 1: frozenset(self.tables)}, {}

    def levels(self, order):
        order = tuple(order)
        if order not in self.sizes:
            self.sizes[order] = levels_under(self.tables, self.n, order)
        return self.sizes[order]

    def size(self, order):
        return sum(self.levels(order))

    def over(self, mask):
        """The distinct functions that fixing all variables outside the set in any way gives."""
        if mask not in self.subs:
            x = next(x for x in range(self.n) if not mask >> x & 1)
            self.subs[mask] = frozenset(restricted(f, self.n, x, bit) for f in self.over(mask | 1 << x) for bit in (0, 1))
        return self.subs[mask]

    def width(self, mask, x):
        return sum(depends(f, self.n, x) for f in self.over(mask | 1 << x))

    def lawful(self, mask, pairs):
        return all(not mask >> a & 1 or mask >> b & 1 for a, b in pairs)

    def outside(self, mask):
        """How many essential variables the set lacks."""
        return bin(self.essential & ~mask).count("1")

    def costs(self, pairs):
        """The least cost of each lawful set."""
        if pairs not in self.leasts:
            every = [m for m in range(1 << self.n) if self.lawful(m, pairs)]
            widths = {(m, x): self.width(m, x) for m in every for x in range(self.n) if not m >> x & 1}
            if self.n <= ALL_ORDERS_UP_TO:
                found = {mask: self.least_of_lists(mask, pairs, widths) for mask in every}
            else:
                found = {0: 0}
                for mask in every[1:]:
                    below = [(mask ^ 1 << x, x) for x in range(self.n) if mask >> x & 1]
                    found[mask] = min(found[m] + widths[m, x] for m, x in below if m in found)
            self.leasts[pairs] = found, widths
        return self.leasts[pairs]

    def least_of_lists(self, mask, pairs, widths):
        """Over all lists of the members, bottom first, whose beginnings are lawful."""
        best = None
        for up in permutations(x for x in range(self.n) if mask >> x & 1):
            at = total = 0
            for x in up:
                total += widths[at, x]
                at |= 1 << x
                if not self.lawful(at, pairs):
                    break
            else:
                best = total if best is None else min(best, total)
        return best

    def best(self, pairs):
        """The first order of the fewest nodes among those that keep the pairs."""
        if self.n <= ALL_ORDERS_UP_TO:
            kept = (order for order in permutations(range(self.n)) if keeps(order, pairs))
            return list(min(kept, key=lambda it: (self.size(it), it)))
        costs, widths = self.costs(pairs)
        order, mask = [], (1 << self.n) - 1
        while mask:
            x = min(x for x in range(self.n) if mask >> x & 1 and mask ^ 1 << x in costs
                    and costs[mask ^ 1 << x] + widths[mask ^ 1 << x, x] == costs[mask])
            order.append(x)
            mask ^= 1 << x
        return order

    def order_sizes(self, pairs):
        """How many of the orders that keep the pairs have each size."""
        if self.n <= ALL_ORDERS_UP_TO:
            return Counter(self.size(order) for order in permutations(range(self.n)) if keeps(order, pairs))
        widths = self.costs(pairs)[1]
        found = {0: Counter([0])}
        for mask in range(1, 1 << self.n):
            if self.lawful(mask, pairs):
                found[mask] = Counter()
                for x in range(self.n):
                    for size, orders in found.get(mask ^ 1 << x, {}).items() if mask >> x & 1 else ():
                        found[mask][size + widths[mask ^ 1 << x, x]] += orders
        return found[(1 << self.n) - 1]

    def first(self, pairs):
        """The first order that keeps the pairs."""
        order = []
        while len(order) < self.n:
            order.append(min(x for x in range(self.n) if x not in order and all(a in order for a, b in pairs if b == x)))
        return order

    def sifted(self, pairs):
        """One pass of sifting from the first order that keeps the pairs."""
        order = self.first(pairs)
        counts = dict(zip(order, self.levels(order)))
        for x in sorted(range(self.n), key=lambda x: (-counts[x], x)):
            rest = [y for y in order if y != x]
            places = [rest[:i] + [x] + rest[i:] for i in range(self.n)]
            order = min((it for it in places if keeps(it, pairs)), key=self.size)
        return order


# Pairs

def pairs_of(text, n):
    """The pairs of a list, each once and rising."""
    found = set()
    for pair in text.split(":"):
        numbers = pair.split(",")
        if len(numbers) != 2 or any(it not in [str(i) for i in range(16)] for it in numbers):
            raise Fault(8, "BadPair")
        found.add((int(numbers[0]), int(numbers[1])))
    if any(it >= n for pair in found for it in pair):
        raise Fault(8, "PairOutOfRange")
    for v in range(n):
        reached = {b for a, b in found if a == v}
        while more := {b for a, b in found if a in reached} - reached:
            reached |= more
        if v in reached:
            raise Fault(8, f"PairCycle {v}")
    return tuple(sorted(found))


# Texts

def words(*items):
    return " ".join(map(str, items)) + "\n"


def report(cover, functions, pairs):
    order, sifted = functions.best(pairs), functions.sifted(pairs)
    return "".join([
        words("order:", *order),
        words("names:", *(cover.names[x] for x in order)),
        words("levels:", *functions.levels(order)),
        words("nodes:", functions.size(order)),
        words("sifted order:", *sifted),
        words("sifted nodes:", functions.size(sifted)),
        words("file order nodes:", functions.size(range(functions.n))),
    ])


def count(functions):
    order = range(functions.n)
    return words("levels:", *functions.levels(order)) + words("nodes:", functions.size(order))


def orders(functions, pairs):
    """The lines of --orders; the mean in hundredths, rounded half up."""
    sizes, sifted = functions.order_sizes(pairs), functions.size(functions.sifted(pairs))
    number, total = sum(sizes.values()), sum(size * many for size, many in sizes.items())
    mean = (200 * total + number) // (2 * number)
    return "".join([
        words("orders:", number),
        words("nodes:", min(sizes)),
        words("optimal orders:", sizes[min(sizes)]),
        words("most nodes:", max(sizes)),
        words("worst orders:", sizes[max(sizes)]),
        words("mean nodes:", f"{mean // 100}.{mean % 100:02}"),
        words("sifted nodes:", sifted),
        words("orders below sifted:", sum(many for size, many in sizes.items() if size < sifted)),
    ])


def sizes_of_orders(functions, pairs):
    """The lines of --sizes."""
    return "".join(words(size, many) for size, many in sorted(functions.order_sizes(pairs).items()))


class Certificate:
    def __init__(self, inputs, outputs, order, levels, total, pairs, cells):
        self.inputs, self.outputs, self.order, self.levels, self.total = inputs, outputs, order, levels, total
        self.pairs, self.cells = pairs, cells

    def text(self):
        """Of format 1 if `pairs` is None."""
        heads = words("bddorder-certificate", 1 if self.pairs is None else 2)
        heads += words("inputs", self.inputs) + words("outputs", self.outputs)
        heads += words("order", *self.order) + words("levels", *self.levels) + words("total", self.total)
        if self.pairs is not None:
            heads += words("pairs", len(self.pairs)) + "".join(words(a, b) for a, b in self.pairs)
        return heads + words("cells", len(self.cells)) + "".join(words(f"{m:04x}", cost) for m, cost in self.cells) + "end\n"


def certificate(cover, functions, pairs):
    order = functions.best(pairs)
    total, costs = functions.size(order), functions.costs(pairs)[0]
    cells = [(m, costs[m]) for m in sorted(costs) if m != (1 << functions.n) - 1 and costs[m] + functions.outside(m) < total]
    return Certificate(cover.inputs, cover.outputs, order, functions.levels(order), total, pairs, cells)


# The certificate's text

class Lines:
    """The lines of a certificate's text, taken one after another."""

    def __init__(self, content):
        self.rest, self.at = content, 0

    def fault(self, kind):
        raise Fault(3, f"certificate line {self.at}: {kind}")

    def take(self):
        self.at += 1
        line, found, self.rest = self.rest.partition(b"\n")
        if not found:
            self.fault("MissingLine")
        return line.split(b" ")

    def numbers(self, head, many, most):
        """The numbers of a line behind its fixed words."""
        line = self.take()
        if line[:len(head)] != head or len(line) != len(head) + many:
            self.fault("BadLine")
        return [self.number(word, most) for word in line[len(head):]]

    def number(self, word, most):
        is_number = word and all(c in b"0123456789" for c in word) and (word[0] != 48 or word == b"0") and len(word) <= 9
        if not is_number or int(word) > most:
            self.fault("BadNumber")
        return int(word)

    def mask(self, word, most):
        if len(word) != 4 or any(c not in b"0123456789abcdef" for c in word) or int(word, 16) > most:
            self.fault("BadNumber")
        return int(word, 16)

    def one(self, head, least, most):
        it = self.numbers([head], 1, most)[0]
        if it < least:
            self.fault("BadNumber")
        return it


def certificate_of(content):
    if len(content) > CERTIFICATE_LIMIT:
        raise Fault(3, "certificate: TooLong")
    lines = Lines(content)
    title = lines.take()
    if title not in ([b"bddorder-certificate", b"1"], [b"bddorder-certificate", b"2"]):
        lines.fault("BadLine")
    n, m = lines.one(b"inputs", 1, 16), lines.one(b"outputs", 1, 16)
    order, levels = lines.numbers([b"order"], n, 15), lines.numbers([b"levels"], n, 999_999)
    total = lines.one(b"total", 0, 999_999)
    pairs = None
    if title[1] == b"2":
        pairs = []
        for _ in range(lines.one(b"pairs", 0, 240)):
            pair = tuple(lines.numbers([], 2, n - 1))
            if pairs and pair <= pairs[-1]:
                lines.fault("NotRising")
            pairs.append(pair)
    cells = []
    for _ in range(lines.one(b"cells", 0, (1 << n) - 1)):
        line = lines.take()
        if len(line) != 2:
            lines.fault("BadLine")
        cell = lines.mask(line[0], (1 << n) - 2), lines.number(line[1], 999_999)
        if cells and cell[0] <= cells[-1][0]:
            lines.fault("NotRising")
        cells.append(cell)
    lines.numbers([b"end"], 0, 0)
    if lines.rest:
        lines.at += 1
        lines.fault("TrailingText")
    return Certificate(n, m, order, levels, total, pairs, cells)


def verdict(cover, functions, it):
    """The line of the verdict on a certificate."""
    n, pairs = functions.n, it.pairs or []
    every = (1 << n) - 1
    if (it.inputs, it.outputs) != (cover.inputs, cover.outputs):
        return "invalid Shape\n"
    if sorted(it.order) != list(range(n)):
        return "invalid Order\n"
    if not keeps(it.order, pairs):
        return "invalid Pairs\n"
    if it.levels != functions.levels(it.order):
        return "invalid Levels\n"
    if it.total != sum(it.levels):
        return "invalid Total\n"
    listed = dict(it.cells)

    def spare(mask):
        return 0 if it.pairs is None else functions.outside(mask)

    def value(mask):
        return it.total if mask == every else listed.get(mask, max(0, it.total - spare(mask)))

    if value(0) != 0:
        return "invalid Start\n"
    if any(cost + spare(mask) > it.total for mask, cost in it.cells):
        return "invalid CellTooBig\n"
    for mask, x in ((mask, x) for mask in sorted(listed) for x in range(n) if not mask >> x & 1):
        if functions.lawful(mask, pairs) and functions.lawful(mask | 1 << x, pairs):
            if value(mask | 1 << x) > value(mask) + functions.width(mask, x):
                return f"invalid Edge {mask:04x} {x}\n"
    return words("valid", it.total, *(["pairs", len(pairs)] if pairs else []))
