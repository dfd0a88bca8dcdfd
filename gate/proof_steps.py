#!/usr/bin/env python3
"""proof_steps.py CRATE [COUNT]      the prover's steps for a crate's functions and lemma files, in millions, the dearest first,
                with the dearest goal or declaration of each and its steps

It reads what the last check kept (crates/CRATE/out/incremental). Steps depend neither on the machine nor on what else it does."""
import glob
import json
import os
import re
import sys
from collections import Counter, defaultdict
from contextlib import suppress

TOP = os.path.dirname(os.path.dirname(os.path.abspath(__file__)))
# the end of the name of a module that the prover makes of one function
PARTS = re.compile(r"(\.(Answers|Code|Goals|Given|Invariants|Kinds|Lts|Met|Named|Proof|Reads|Statement|Tie))+$")
RECORD = re.compile(r'\{"aux":')


def declarations(path: str) -> Counter[str]:
    """The steps of each declaration of a module."""
    found: Counter[str] = Counter()
    with open(path, encoding="utf-8", errors="replace") as it:
        text = it.read()
    for start in (it.start() for it in RECORD.finditer(text)):
        with suppress(ValueError, KeyError):
            record, _ = json.JSONDecoder().raw_decode(text, start)
            found[record["name"]] += sum(record["phases"])
    return found


def steps_of(crate: str) -> dict[str, Counter[str]]:
    """The steps of each declaration, by the function or lemma file that it belongs to."""
    found: dict[str, Counter[str]] = defaultdict(Counter)
    for path in glob.glob(f"{TOP}/crates/{crate}/out/incremental/**/*.oantt", recursive=True):
        if module := re.match(rf"Rattle-{crate}-(?:proofs|specs)\.(.*?)(\.decls)?\.oantt$", os.path.basename(path)):
            for name, steps in declarations(path).items():
                found[PARTS.sub("", module[1])][name] += steps
    return found


def main(crate: str, count: str = "20") -> None:
    if not (found := steps_of(crate)):
        sys.exit(f"proof_steps.py: no check of {crate} is kept here")
    print(f"{sum(it.total() for it in found.values()) / 1e6:8.1f} in all")
    for name, own in sorted(found.items(), key=lambda it: -it[1].total())[:int(count)]:
        [(dearest, steps)] = own.most_common(1)
        print(f"{own.total() / 1e6:8.1f} {name}: {dearest} {steps / 1e6:.1f}")


if __name__ == "__main__":
    if len(sys.argv) not in (2, 3) or not all(map(str.isdecimal, sys.argv[2:])):
        sys.exit(__doc__)
    main(*sys.argv[1:])
