#!/usr/bin/env python3
"""make_examples.py FOLDER       writes the PLA files of this folder that are made by rule into another folder

In the repository:
make_examples.py              writes them here, and gives the worked cases copies of all files, reports and certificates here
make_examples.py --reports    the same, after the program at the top has made anew the reports and certificates here and the whole
                              reports of worked cases and pages
make_examples.py --check      writes nothing: the rules, the program and the copies are to give what stands there

MINORDER_PROGRAM is the program, if another one is to be taken. Status 1 if a check or the program fails, 2 if the words are
refused or a file can't be written."""
import os
import sys
import tempfile
from itertools import product

HERE = os.path.dirname(os.path.abspath(__file__))


def refuse(message):
    print(f"make_examples.py: {message}", file=sys.stderr)
    sys.exit(2)


def content(about, inputs, outputs, terms):
    head = [f"# {about}", f".i {len(inputs)}", f".o {len(outputs)}", f".ilb {' '.join(inputs)}", f".ob {' '.join(outputs)}"]
    return "\n".join([*head, f".p {len(terms)}", *terms, ".e", ""])


def minterms(count, outputs_of):
    """One term for each point with some output 1. outputs_of takes the bits, variable 0 first."""
    for bits in product((0, 1), repeat=count):
        outs = outputs_of(bits)
        if any(outs):
            yield "".join(map(str, bits)) + " " + "".join(str(int(o)) for o in outs)


def number(bits):
    """The number of bits, lowest first."""
    return sum(b << i for i, b in enumerate(bits))


def pairs(letters, count):
    return [f"{letter}{i}" for letter in letters for i in range(count)]


def adder(count):
    def outs(bits):
        total = number(bits[:count]) + number(bits[count:])
        return [total >> i & 1 for i in range(count + 1)]
    about = f"The sum of two {count}-bit numbers; a{count - 1} and b{count - 1} are the highest bits."
    outputs = [f"s{i}" for i in range(count + 1)]
    return f"adder{count}", content(about, pairs("ab", count), outputs, list(minterms(2 * count, outs)))


def comparator(count):
    def outs(bits):
        a, b = number(bits[:count]), number(bits[count:])
        return [a < b, a == b]
    about = f"Whether a {count}-bit number is below another one, and whether they are equal."
    return f"comparator{count}", content(about, pairs("ab", count), ["less", "equal"], list(minterms(2 * count, outs)))


def majority(count):
    about, inputs = f"Whether more than half of {count} inputs are 1.", [f"x{i}" for i in range(count)]
    return f"majority{count}", content(about, inputs, ["maj"], list(minterms(count, lambda bits: [2 * sum(bits) > count])))


def hidden_weighted_bit(count):
    def outs(bits):
        weight = sum(bits)
        return [weight > 0 and bits[weight - 1]]
    about = "Hidden weighted bit: input number w, where w inputs are 1 (Bryant 1991)."
    inputs = [f"x{i}" for i in range(1, count + 1)]
    return f"hwb{count}", content(about, inputs, ["hwb"], list(minterms(count, outs)))


def seven_segments():
    digits = ["1111110", "0110000", "1101101", "1111001", "0110011", "1011011", "1011111", "1110000", "1111111", "1111011"]
    terms = [f"{d >> 3 & 1}{d >> 2 & 1}{d >> 1 & 1}{d & 1} {segments}" for d, segments in enumerate(digits)]
    about = "A decimal digit as the seven segments a to g of a display; the codes 10 to 15 are dark."
    return "bcd7seg", content(about, ["d3", "d2", "d1", "d0"], list("abcdefg"), terms)


def multiplexer(select):
    inputs = [f"d{i}" for i in range(1 << select)] + [f"s{i}" for i in range(select)]
    terms = []
    for which in range(1 << select):
        data = "".join("1" if i == which else "-" for i in range(1 << select))
        terms.append(data + "".join(str(which >> i & 1) for i in range(select)) + " 1")
    return f"mux{1 << select}", content(f"A multiplexer: data input number s of {1 << select}.", inputs, ["out"], terms)


def products(count):
    terms = ["".join("1" if i % count == k else "-" for i in range(2 * count)) + " 1" for k in range(count)]
    about = f"a0 b0 + a1 b1 + ..: {count} products, whose best order is interleaved and whose file order is the worst."
    return f"products{count}", content(about, pairs("ab", count), ["f"], terms)


def parity(count):
    about = f"The exclusive or of {count} inputs: every order is as good as any other."
    inputs = [f"x{i}" for i in range(count)]
    return f"parity{count}", content(about, inputs, ["odd"], list(minterms(count, lambda bits: [sum(bits) % 2])))


def files_by_rule():
    """The names and the contents of the files that are made by rule."""
    return [
        adder(4), comparator(4), majority(7), hidden_weighted_bit(8), seven_segments(), multiplexer(2), products(3), products(8),
        parity(6),
    ]


def write_files(folder):
    try:
        os.makedirs(folder, exist_ok=True)
        for name, text in files_by_rule():
            with open(f"{folder}/{name}.pla", "w") as file:
                file.write(text)
    except OSError as error:
        refuse(f"{error.filename}: {error.strerror}")


def in_repository(words):
    if not os.path.isdir(f"{HERE}/../crates/worked_cases"):
        refuse("which FOLDER? Without one it writes in the repository alone")
    import reports  # isn't installed
    if words == ["--check"]:
        with tempfile.TemporaryDirectory() as made:
            write_files(made)
            reports.check(made)
        return
    write_files(HERE)
    if words:
        reports.write_reports(HERE)
        reports.write_texts()
    reports.copy_to_worked_cases()


def main(words):
    if words in (["-h"], ["--help"]):
        print(__doc__)
    elif words in ([], ["--reports"], ["--check"]):
        in_repository(words)
    elif len(words) == 1 and not words[0].startswith("-"):
        write_files(words[0])
    else:
        refuse(f"{' '.join(words)}: no such words; --help says which there are")


if __name__ == "__main__":
    main(sys.argv[1:])
