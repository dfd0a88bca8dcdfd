#!/usr/bin/env python3
"""random_files.py [--minorder PROGRAM] [--ordercheck PROGRAM] COUNT SEED

Makes COUNT calls of both programs on random PLA files (terms, don't cares, all directives, damaged bytes), lists of pairs,
command words and certificates of which a line was edited, and compares status, standard output, standard error and the written
certificate with what plain.py beside this file answers, which was written from the definitions apart. The first difference is
printed with its files, which stay in the folder that is named. The programs are ./minorder and ./ordercheck where none are
named.
"""
import argparse
import collections
import os
import random
import shutil
import sys
import tempfile

import plain
from random_texts import Files

TOP = os.path.dirname(os.path.dirname(os.path.abspath(__file__)))
READ, NEW = os.O_RDONLY, os.O_WRONLY | os.O_CREAT | os.O_TRUNC
OUTPUTS = ["--count", "--orders", "--sizes"]
VALUED = {"--workers": "workers", "--cert": "cert", "--above": "above"}


def content_of(path):
    """What a file holds; None where none is there."""
    try:
        with open(path, "rb") as it:
            return it.read()
    except OSError:
        return None


def put(path, content):
    with open(path, "wb") as it:
        it.write(content)


class Asked:
    """What words ask of minorder, by clap's rules for its options: an option once, with its value
    behind it or behind `=`; one FILE."""

    def __init__(self, given):
        self.help, self.values, self.file = False, {}, None
        self.fault = self.read(list(given)) or not self.help and self.is_at_odds()

    def read(self, given):
        """Whether the words are refused."""
        options = True
        while given:
            word = given.pop(0)
            name, equals, value = word.partition("=")
            if options and word == "--":
                options = False
            elif options and word in ("--help", "-h", "--version", "-V"):
                self.help = True
                return False
            elif options and word in OUTPUTS:
                if word in self.values:
                    return True
                self.values[word] = True
            elif options and name in VALUED:
                if not equals:
                    if not given or given[0].startswith("-") and given[0] != "-":
                        return True
                    value = given.pop(0)
                if VALUED[name] in self.values or name == "--workers" and not self.is_workers(value):
                    return True
                self.values[VALUED[name]] = value
            elif options and word.startswith("-") and word != "-" or self.file is not None:
                return True
            else:
                self.file = word
        return self.file is None

    def output(self):
        """The option that says what is printed, None for the report."""
        return next((it for it in OUTPUTS if it in self.values), None)

    def is_at_odds(self):
        """Whether two texts are asked for, or a certificate of all orders."""
        return sum(it in self.values for it in OUTPUTS) > 1 or "cert" in self.values and self.output() in OUTPUTS[1:]

    def is_workers(self, value):
        digits = value[1:] if value[:1] == "+" else value
        return digits.isascii() and digits.isdigit() and 1 <= int(digits) <= 64


class Runner:
    """Makes calls in a folder of its own and compares them."""

    def __init__(self, programs, folder):
        self.programs, self.calls, self.seen, self.skipped = programs, 0, collections.Counter(), 0
        os.chdir(folder)
        self.folder = folder
        os.mkdir("a_folder")

    def run(self, name, words):
        streams = [(0, "/dev/null", READ, 0), (1, "stdout", NEW, 0o600), (2, "stderr", NEW, 0o600)]
        actions = [(os.POSIX_SPAWN_OPEN, *stream) for stream in streams]
        child = os.posix_spawn(self.programs[name], [name, *words], {}, file_actions=actions)
        status = os.waitstatus_to_exitcode(os.waitpid(child, 0)[1])
        return status, content_of("stdout"), content_of("stderr")

    def compare(self, name, given, wanted, out=None):
        """A call against the status, the output and the errors that are wanted (None: some text),
        and the file OUT against its content."""
        status, output, errors = self.run(name, given)
        self.calls += 1
        self.seen[kind_of(name, *wanted)] += 1
        texts = zip((output, errors), wanted[1:])
        agrees = status == wanted[0] and all(bool(it) if want is None else it == want for it, want in texts)
        if agrees and (out is None or content_of(out[0]) == out[1]):
            return
        print(f"{name} {' '.join(map(repr, given))}\n  gave    {(status, output, errors)}\n  wanted  {wanted}")
        if out is not None:
            print(f"  {out[0]} holds {content_of(out[0])}\n  wanted {out[1]}")
        for file in ("in.pla", "in.cert"):
            print(f"  {file}: {(content_of(file) or b'')[:3000]}")
        sys.exit(f"a difference at call {self.calls}; the files are in {self.folder}")


def kind_of(name, status, output, errors):
    """The status with the fault, the reason, or what else was answered."""
    if status > 2:
        fault = next(word for word in errors.decode().split() if word[0].isupper())
        said = fault + (" of a certificate" if b"certificate" in errors else "")
    elif status == 2 or output is None:
        said = "words"
    else:
        said = " ".join(output.decode().split()[:2]) if status else output.decode().split()[0].strip(":")
    return f"{name} {status} {said}"


def answered(name, work):
    """The status and both streams that a piece of work stands for."""
    try:
        text = work()
    except plain.Fault as fault:
        return fault.status, b"", f"{name}: {fault.text}\n".encode()
    return (1 if text.startswith("invalid") else 0), text.encode(), b""


class Case:
    """The calls on one PLA file."""

    def __init__(self, runner, files, content):
        self.runner, self.files, self.content = runner, files, content
        put("in.pla", content)
        self.cover, self.functions, self.fault = None, None, None
        try:
            self.cover = plain.cover_of(content)
            self.functions = plain.Functions(self.cover)
        except plain.Fault as fault:
            self.fault = fault

    def functions_or_fault(self):
        if self.fault:
            raise self.fault
        return self.functions

    def minorder(self, given):
        """One call of minorder on in.pla."""
        asked = Asked(given)
        if asked.fault or asked.help:
            self.runner.compare("minorder", given, (2, b"", None) if asked.fault else (0, None, b""))
            return
        output, above, cert = asked.output(), asked.values.get("above"), asked.values.get("cert")
        if content_of("out.cert") is not None:
            os.remove("out.cert")
        makes = cert is not None and output is None
        if asked.file != "in.pla" and (asked.file != "a_folder") or makes and cert not in ("out.cert", "in.pla"):
            wanted, out = (5, b"", b"minorder: Device\n"), ("out.cert", None)
        elif asked.file == "a_folder":
            wanted, out = (5, b"", b"minorder: Device\n"), ("out.cert", b"" if makes and cert == "out.cert" else None)
        elif makes and cert == "in.pla":
            wanted, out = (3, b"", b"minorder: line 0: MissingHead\n"), ("in.pla", b"")
        else:
            written = []
            wanted = answered("minorder", lambda: self.answer(output, above, written))
            out = "out.cert", (written[0] if written else b"") if makes else None
        self.runner.compare("minorder", given, wanted, out)
        if cert == "in.pla":
            put("in.pla", self.content)

    def answer(self, output, above, written):
        functions = self.functions_or_fault()
        if output == "--count":
            return plain.count(functions)
        pairs = () if above is None else plain.pairs_of(above, functions.n)
        if output is not None:
            return (plain.orders if output == "--orders" else plain.sizes_of_orders)(functions, pairs)
        written.append(plain.certificate(self.cover, functions, pairs).text().encode())
        return plain.report(self.cover, functions, pairs)

    def ordercheck(self, text):
        """One call of ordercheck on in.pla and a certificate's text."""
        put("in.cert", text)

        def judged():
            functions = self.functions_or_fault()
            return plain.verdict(self.cover, functions, plain.certificate_of(text))

        self.runner.compare("ordercheck", ["in.pla", "in.cert"], answered("ordercheck", judged))

    def ordercheck_words(self):
        """A call of ordercheck with odd words, or with files that can't be read."""
        given, status = self.files.draw.choice([
            ([], 2), (["in.pla"], 2), (["in.pla", "in.cert", "in.cert"], 2), (["--count", "in.pla", "in.cert"], 2),
            (["--help"], 0), (["in.pla", "-h"], 0), (["in.pla", "missing.cert"], 5), (["missing.pla", "in.cert"], 5),
            (["in.pla", ""], 5), (["a_folder", "in.cert"], 5), ([b"\xff", "in.cert"], -2)])
        wanted = {2: (2, b"", None), 0: (0, None, b""), 5: (5, b"", b"ordercheck: Device\n"), -2: (2, b"", b"")}[status]
        self.runner.compare("ordercheck", given, wanted)

    def words(self):
        """Words of minorder: mostly as one would write them."""
        draw, chance = self.files.draw, self.files.chance
        found = [["in.pla"]]
        if chance(0.5):
            usual, odd = ["1", "2", "3", "4", "7", "64"], ["0", "65", "", "x", "007", "+3", "1.5", "-1", "999", "4 "]
            workers = draw.choice(usual if chance(0.95) else odd)
            found.append(draw.choice([["--workers", workers], [f"--workers={workers}"]]))
        output = draw.choice(OUTPUTS) if chance(0.35) else None
        if chance(0.6 if output is None else 0.1):
            cert = "out.cert" if chance(0.96) else draw.choice(["in.pla", "no_folder/out", "", "a_folder"])
            found.append(draw.choice([["--cert", cert], [f"--cert={cert}"]]))
        if output is not None:
            found.append([output])
        if chance(0.4):
            pairs = self.files.pairs(self.cover.inputs if self.cover else 3)
            found.append([f"--above={pairs}"] if chance(0.5) else ["--above", pairs])
        if chance(0.05):
            found[0] = draw.choice([[], ["missing.pla"], ["a_folder"], ["in.pla", "in.pla"], [""], ["-"], ["--", "in.pla"]])
        if chance(0.03):
            found.append(draw.choice([
                ["--help"], ["-h"], ["--unknown"], ["-x"], ["--count", "--count"], ["--work", "3"], ["--count=1"], ["--cert"],
                ["--version"], ["-V"], ["--above"], ["---"]]))
        draw.shuffle(found)
        return [word for words in found for word in words]


def calls_on_a_file(runner, files):
    """All calls on one random file."""
    content = files.pla()
    if files.chance(0.35):
        content = files.damaged(content)
    if files.chance(0.0005):
        content = files.padded(content)
    try:
        case = Case(runner, files, content)
    except NotImplementedError:
        runner.skipped += 1
        return
    case.minorder(case.words())
    if files.chance(0.02):
        put("in.cert", b"")
        case.ordercheck_words()
    if files.chance(0.005):
        runner.compare("minorder", [b"\xff", "in.pla"], (2, b"", b""))
    if case.fault:
        if files.chance(0.3):
            case.ordercheck(b"no certificate")
        return
    case.minorder(["--cert", "out.cert", "in.pla"])
    text = content_of("out.cert")
    case.ordercheck(text)
    for _ in range(2):
        case.ordercheck(files.edited(text))
    made = files.made(case.cover, case.functions)
    case.ordercheck(made)
    case.ordercheck(files.edited(made))
    if files.chance(0.5):
        case.minorder(["--above", files.pairs(case.cover.inputs), "--cert", "out.cert", "in.pla"])
        text = content_of("out.cert")
        if text:
            case.ordercheck(text)
            case.ordercheck(files.edited(text))
    if files.chance(0.05):
        case.ordercheck(files.damaged(made))
    if files.chance(0.001):
        case.ordercheck(made.ljust(plain.CERTIFICATE_LIMIT + files.draw.choice([0, 1]), b"x"))


def main():
    parser = argparse.ArgumentParser(description=__doc__, formatter_class=argparse.RawDescriptionHelpFormatter)
    parser.add_argument("--minorder", default=f"{TOP}/minorder")
    parser.add_argument("--ordercheck", default=f"{TOP}/ordercheck")
    parser.add_argument("count", type=int)
    parser.add_argument("seed", type=int)
    given = parser.parse_args()
    programs = {name: os.path.abspath(getattr(given, name)) for name in ("minorder", "ordercheck")}
    folder = tempfile.mkdtemp(dir="/dev/shm" if os.path.isdir("/dev/shm") else None)
    runner, files = Runner(programs, folder), Files(random.Random(given.seed))
    while runner.calls < given.count:
        before = runner.calls
        calls_on_a_file(runner, files)
        if runner.calls // 10_000 > before // 10_000:
            print(f"{runner.calls} calls agree", file=sys.stderr, flush=True)
    for kind, count in sorted(runner.seen.items()):
        print(f"{count:7} {kind}")
    print(f"{runner.calls} calls agree (seed {given.seed}); "
          f"{runner.skipped} files of more than {plain.MOST_INPUTS} inputs were left out")
    shutil.rmtree(folder)


if __name__ == "__main__":
    main()
