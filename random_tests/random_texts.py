"""Random PLA files, lists of pairs and certificates, most of them good or almost so."""
from itertools import combinations

import plain

TERM_BYTES, ANY_BYTES = b"0011--2~|| ", b"\0\t\n\n\r\x0b\x0c #.|-~0123459:aefilopxyz\x7f\x80\xc3\xff"
ODD_WORDS = [
    "", " ", "01", "0x1", "+1", "-1", "FFFF", "00ff", "1000000", "999999", "65535", "é", "end", "cells", "pairs 1", "16", "17",
    "241", "240",
]


class Files:
    def __init__(self, draw):
        self.draw, self.partners = draw, []

    def chance(self, share):
        return self.draw.random() < share

    def sizes(self):
        """Numbers of inputs and outputs; few of the files are large."""
        inputs = self.draw.choices(range(1, 11), [6, 14, 22, 22, 16, 4, 1.5, 0.4, 0.06, 0.03])[0]
        return inputs, self.draw.choice([1, 1, 1, 2, 2, 3, 4, 5]) if inputs < 7 else self.draw.choice([1, 1, 2])

    def blanks(self):
        return self.draw.choice([b" ", b" ", b" ", b"  ", b"\t", b" \r", b" \t "])

    def name(self):
        return bytes(self.draw.choice(b"abcxyz0189_[]<>!~.|-") for _ in range(self.draw.randint(1, 4)))

    def number(self, count):
        return self.draw.choice([b"%d"] * 6 + [b"0%d", b"%09d"]) % count

    def names(self, count):
        if self.chance(0.02):
            count += self.draw.choice([-1, 1])
        found = [self.name() for _ in range(count)]
        if found and self.chance(0.02):
            found[self.draw.randrange(len(found))] += self.draw.choice([b"\x80", b"\x7f", b"\x0b", b"\0", b"#", b"\xc3\xa9"])
        return found

    def term(self, inputs, outputs, free, kind):
        """The characters of a term's inputs and outputs."""
        outs = [b"1", b"1", b"0", b"0", b"~"] + ([b"-", b"2"] if kind == b"f" else [])
        fixed, either = [b"0", b"1"], [b"-", b"-", b"2"]
        left = [self.draw.choice(fixed if self.chance(1 - free) else either) for _ in range(inputs)]
        return left, [self.draw.choice(outs) for _ in range(outputs)]

    def exchange(self, inputs):
        """Variables exchanged in pairs, by their partners: two of them, or the first half with the second."""
        partners = list(range(inputs))
        if self.chance(0.5):
            a, b = self.draw.randrange(inputs), self.draw.randrange(inputs)
            partners[a], partners[b] = b, a
        else:
            half = inputs // 2
            partners[:2 * half] = [*range(half, 2 * half), *range(half)]
        return partners

    def row(self, left, right):
        between = self.draw.choice([b" ", b" ", b"|", b" | ", b"", b"\t"])
        row = b"".join(left) + between + b"".join(right)
        if self.chance(0.03):
            at = self.draw.randrange(len(row) + 1)
            row = row[:at] + self.draw.choice([b" ", b"|", b"\t", b"\r"]) + row[at:]
        if self.chance(0.004):
            at = self.draw.randrange(len(row))
            row = row[:at] + self.draw.choice([b"", b"x", b"3", b"?", b"-", b"1", b"~", b"01"]) + row[at + 1:]
        return row

    def odd(self):
        """A line that may be faulty."""
        return self.draw.choice([
            b".i 2", b".o 1", b".i 0", b".i 17", b".o 17", b".o x", b".i", b".i 1 1", b".p x", b".p", b".p 1 2",
            b".p 0000000003", b".type fr", b".type", b".type f fd", b".type fd", b".type f", b".phase 1", b".mv 3 1", b".",
            b".i3", b".I 3", b".E", b"|", b" | |", b"\xef\xbb\xbf.i 3", b".ilb a", b".ob f", b".e", b".end", b".e#x",
            b".e and more", b".kiss", b"-", b"01", b"\x0b", b".pair 1", b"# .i 3", b".label a", b".p 000000003"])

    def pla(self):
        """The bytes of a random PLA file, most of them without a fault."""
        inputs, outputs = self.sizes()
        kind = self.draw.choice([None, None, b"f", b"fd"])
        heads = [b".i" + self.blanks() + self.number(inputs), b".o" + self.blanks() + self.number(outputs)]
        if self.chance(0.2):
            heads.reverse()
        late = [b".type " + kind] if kind else []
        late += [b".ilb " + self.blanks().join(self.names(inputs))] if self.chance(0.4) else []
        late += [b".ob " + b" ".join(self.names(outputs))] if self.chance(0.3) else []
        late += [b".p " + self.number(self.draw.randint(0, 99))] if self.chance(0.3) else []
        self.draw.shuffle(late)
        free = self.draw.choice([0, 0.2, 0.4, 0.6, 0.8])
        most = self.draw.choice([2, 4, 8, 1 << max(1, inputs - 1), 2 << inputs])
        terms = [self.term(inputs, outputs, free, kind) for _ in range(self.draw.randint(0, min(most, 80)))]
        self.partners = self.exchange(inputs)
        if self.chance(0.3):
            terms += [([left[y] for y in self.partners], right) for left, right in terms]
        terms = [self.row(left, right) for left, right in terms]
        if late and self.chance(0.1) and not late[-1].startswith(b".type"):
            terms.insert(self.draw.randint(0, len(terms)), late.pop())
        lines = heads + late + terms
        if self.chance(0.03):
            lines.insert(self.draw.randint(0, len(lines)), self.odd())
        if self.chance(0.15):
            lines.insert(self.draw.randint(0, len(lines)), self.draw.choice([b"", b"# a comment", b" \t", b"\r", b"#"]))
        if self.chance(0.7):
            lines.append(self.draw.choice([b".e", b".end", b".e and more"]))
            lines += [self.odd()] if self.chance(0.1) else []
        if self.chance(0.1):
            at = self.draw.randrange(len(lines))
            lines[at] += self.draw.choice([b" # note", b"#", b" ", b"\r", b"\t"])
        content = self.draw.choice([b"\n", b"\n", b"\n", b"\r\n"]).join(lines) + self.draw.choice([b"\n", b"\n", b""])
        return content

    def damaged(self, content):
        """The content with a few bytes or lines changed, or cut."""
        for _ in range(self.draw.choice([1, 1, 1, 2, 3])):
            at = self.draw.randrange(len(content) + 1)
            lines = content.split(b"\n")
            one, other = self.draw.randrange(len(lines)), self.draw.randrange(len(lines))
            way = self.draw.randrange(7)
            some = bytes([self.draw.choice(TERM_BYTES if self.chance(0.4) else ANY_BYTES)])
            if way == 0:
                content = content[:at]
            elif way == 1:
                content = content[:at] + some + content[at:]
            elif way in (2, 3):
                content = content[:at] + some + content[at + 1:]
            elif way == 4:
                content = content[:at] + content[at + 1:]
            elif way == 5:
                lines[one], lines[other] = lines[other], lines[one]
                content = b"\n".join(lines)
            else:
                lines.insert(one, lines[other])
                content = b"\n".join(lines)
        return content

    def padded(self, content):
        """The content with a comment up to the limit of a file, or one byte past it."""
        rest = plain.PLA_LIMIT + self.draw.choice([0, 1]) - len(content) - 1
        return content + b"#" * rest + b"\n"

    def pairs(self, inputs):
        """A list of pairs as `--above` takes it."""
        if self.chance(0.12):
            return self.draw.choice([
                "", "0-1", "0,1:", ":0,1", "01,0", "0,16", "0,15", "0, 1", "a,b", "0,1,2", "0", ",", "0,1;1,0", "-1,0", "0,1:2",
                "+0,1", "é,0"])
        numbers = list(range(inputs))
        self.draw.shuffle(numbers)
        inputs += self.chance(0.05)
        numbers.append(len(numbers))
        found = []
        for _ in range(self.draw.choice([1, 1, 2, 3, 4])):
            a, b = self.draw.randrange(inputs), self.draw.randrange(inputs)
            if self.chance(0.9):
                if a == b:
                    continue
                a, b = (a, b) if numbers.index(a) < numbers.index(b) else (b, a)
            found.append(f"{a},{b}")
        return ":".join(found) or "0,0"

    def kept_pairs(self, order):
        """Some of the pairs that an order keeps."""
        return tuple(sorted(pair for pair in combinations(order, 2) if self.chance(0.15)))

    def made(self, cover, functions):
        """A certificate of an order that need not be the best, with some of the least costs."""
        n, every = functions.n, (1 << functions.n) - 1
        order = self.draw.sample(range(n), n) if self.chance(0.5) else functions.best(())
        pairs = None if self.chance(0.4) else self.kept_pairs(order)
        levels = functions.levels(order)
        costs = dict(functions.costs(pairs or ())[0])
        if self.chance(0.2):
            m = self.draw.randrange(1 << n)
            costs[m] = costs.get(m, 0) + self.draw.choice([-1, 1, 1]) if costs.get(m) else 0
        share = self.draw.choice([0.2, 0.9, 1])
        cells = [(m, costs[m]) for m in sorted(costs) if m != every and self.chance(share)]
        if pairs and self.chance(0.15):
            a, b = self.draw.choice(pairs)
            pairs = tuple(sorted({*pairs, (b, a)}))
        bound = sum(levels) if self.chance(0.9) else sum(levels) + 1
        cells = [(m, cost) for m, cost in cells if cost + (pairs is not None) * functions.outside(m) <= bound]
        if self.chance(0.2):
            m = self.draw.randrange(every)
            cells = sorted(dict([*cells, (m, self.draw.randint(0, bound))]).items())
        if cells and self.chance(0.3):
            m, more = self.draw.choice(cells)[0], self.draw.choice([-1, 1, 1])
            both = (m, sum(1 << y for x, y in enumerate(self.partners) if m >> x & 1))
            cells = [(m, max(0, cost + more) if m in both else cost) for m, cost in cells]
        return plain.Certificate(cover.inputs, cover.outputs, order, levels, sum(levels), pairs, cells).text().encode()

    def edited(self, text):
        """A certificate's text with one line edited; the counts above may be mended."""
        lines = text.decode().split("\n")
        cells = next(i for i, line in enumerate(lines) if line.startswith("cells"))
        at = self.draw.randrange(len(lines))
        way = self.draw.choice([0, 1, 2, 3, 4, 4, 5, 6, 6, 7, 7, 8, 9])
        if len(lines) > cells + 2 and self.chance(0.3):
            at = self.draw.randint(cells, len(lines) - 2)
        if way <= 4:
            at = self.draw.choice([i for i, line in enumerate(lines) if line.split(" ")[-1].isdigit()])
        words = lines[at].split(" ")
        if way <= 3 and words[-1].isdigit() or way == 4 and len(words) > 1 and words[1].isdigit():
            word = len(words) - 1 if way > 1 else next(i for i, it in enumerate(words) if it.isdigit())
            words[word] = str(max(0, int(words[word]) + self.draw.choice([-1, 1, 1, 2, self.draw.randint(0, 20)])))
            lines[at] = " ".join(words)
        elif way == 5 and cells + 1 < at < len(lines) - 2 or way == 6:
            del lines[at]
            if at > cells and self.chance(0.8):
                lines[cells] = f"cells {max(0, int(lines[cells].split()[1]) - 1)}"
        elif way == 7 and cells + 2 < len(lines) - 2 and self.chance(0.7):
            place = self.draw.randint(cells + 1, len(lines) - 2)
            lines.insert(place, f"{self.draw.randrange(64):04x} {self.draw.randint(0, 12)}")
            lines[cells] = f"cells {int(lines[cells].split()[1]) + 1}"
        elif way == 8:
            word = self.draw.choice(ODD_WORDS)
            words[self.draw.randrange(len(words))] = word
            lines[at] = " ".join(words)
        else:
            it = lines[at]
            place = self.draw.randrange(len(it) + 1)
            some = self.draw.choice(["", " ", "0", "1", "a", "\r", "\t", "\n", "F"])
            lines[at] = it[:place] + some + it[place + self.draw.randrange(2):]
        return "\n".join(lines).encode()
