#!/usr/bin/env python3
"""small_checker.py [--count COUNT] [--seed SEED] ORDERCHECK      compares check.py with a built ordercheck

On the calls of ordercheck in crates/worked_cases/data, whose certificates lie there, and on COUNT certificates (1000
if it is left out) of small random files, each with a line edited or some bytes damaged: status and streams have to be
the same, but for the program's name.
"""
import argparse
import collections
import glob
import os
import random
import re
import shutil
import subprocess
import sys
import tempfile
from functools import partial

import plain
import random_texts
from worked_cases import Case, blocks_of

HERE = os.path.dirname(os.path.abspath(__file__))
DATA = f"{HERE}/../crates/worked_cases/data"
sys.path.append(f"{HERE}/../scripts")
import check  # noqa: E402

MOST_INPUTS = 6


def read(path):
    with open(path, "rb") as file:
        return file.read()


def write(path, content):
    with open(path, "wb") as file:
        file.write(content)


class Comparison:
    def __init__(self, program):
        self.program, self.seen = program, collections.Counter()

    def call(self, words):
        ran = subprocess.run([self.program, *words], capture_output=True, text=True)
        found = ran.returncode, ran.stdout, ran.stderr.replace("ordercheck: ", "", 1)
        if len(words) == 2 and all(map(os.path.isfile, words)):
            status, line = check.judged(*(partial(read, word) for word in words))
            answer = (status, f"{line}\n", "") if status < 2 else (status, "", f"{line}\n")
        else:
            answer = self.called(words)
            if answer[0] in (0, 2):
                # clap's texts are its own
                found = found[0], bool(found[1]), bool(found[2])
        if found != answer:
            sys.exit(f"{words} in {os.getcwd()}: ordercheck answers {found}, and check.py {answer}")
        verdict = re.match(r"valid|invalid \w+", ran.stdout)
        self.seen[verdict.group() if verdict else f"status {ran.returncode}"] += 1

    def called(self, words):
        ran = subprocess.run([sys.executable, f"{HERE}/../scripts/check.py", *words], capture_output=True, text=True)
        if ran.returncode in (0, 2):
            return ran.returncode, bool(ran.stdout), bool(ran.stderr)
        return ran.returncode, ran.stdout, ran.stderr.replace("check.py: ", "", 1)

    def worked(self, path):
        for case in map(Case, blocks_of(read(path).decode())[1:]):
            calls, files = [words for program, *words in case.calls if program == "ordercheck"], case.files(".")
            for length in case.lengths or [None]:
                for name, content in files.items():
                    write(name, content[:length])
                for words in calls:
                    self.call(words)
            for name in files:
                os.remove(name)

    def damaged(self, count, seed):
        files = random_texts.Files(random.Random(seed))
        while count:
            write("it.pla", files.pla())
            try:
                cover = plain.cover_of(read("it.pla"))
            except (plain.Fault, NotImplementedError):
                continue
            if cover.inputs <= MOST_INPUTS:
                text = files.made(cover, plain.Functions(cover))
                write("it.cert", files.damaged(text) if files.chance(0.2) else files.edited(text))
                self.call(["it.pla", "it.cert"])
                count -= 1


def main():
    given = argparse.ArgumentParser(description=__doc__, formatter_class=argparse.RawDescriptionHelpFormatter)
    given.add_argument("--count", type=int, default=1000)
    given.add_argument("--seed", type=int, default=1)
    given.add_argument("ordercheck")
    given = given.parse_args()
    comparison = Comparison(os.path.abspath(given.ordercheck))
    with tempfile.TemporaryDirectory() as folder:
        shutil.copytree(DATA, f"{folder}/data")
        os.chdir(f"{folder}/data")
        for path in sorted(glob.glob("*.cases")):
            comparison.worked(path)
        worked = sum(comparison.seen.values())
        comparison.damaged(given.count, given.seed)
        os.chdir(HERE)
    print(f"check.py answers as ordercheck does, on {worked} worked calls and {given.count} damaged certificates:")
    print(", ".join(f"{count} {said}" for said, count in sorted(comparison.seen.items())))


if __name__ == "__main__":
    main()
