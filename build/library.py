#!/usr/bin/env python3
"""library.py KIT CRATE JOBS      builds a crate's library where it isn't built, over the libraries below it as they lie there

It goes over what `rt check` kept of earlier proofs, and adds to it, as `rt lib` does. Where nothing is kept the library has its
statements alone, as `rt ci` builds it: what stands above loads these, and not all proofs of all libraries. `rt lib` has no flag
for that, and waits for each other `rt` in the crates below. Who calls this keeps others out of all these crates."""
from __future__ import annotations

import contextlib
import functools
import hashlib
import importlib.machinery
import importlib.util
import operator
import os
import shutil
import subprocess
import sys
from typing import Any, Iterable, Optional, Set

from crates import TOP, named
from sources import written

# what is used of the kit's module `rtlib`
NAMES = "RATTLE help_of root_above Crate.below Crate.build_rlib Crate.call Crate.is_built Crate.stamp Crate.words".split()


@functools.lru_cache(maxsize=None)
def kit() -> str:
    """The folder of the Rattle kit."""
    asked = subprocess.run(["rt", "doc"], stdout=subprocess.PIPE, text=True)
    if asked.returncode:
        sys.exit(f"rt doc ended with status {asked.returncode}")
    return os.path.dirname(asked.stdout.strip())


def loaded(kit: str) -> Any:
    """The kit's module `rtlib`, as rt uses it."""
    sys.dont_write_bytecode = True
    loader = importlib.machinery.SourceFileLoader("rt", f"{kit}/bin/rt")
    spec = importlib.util.spec_from_loader("rt", loader)
    assert spec
    rt: Any = importlib.util.module_from_spec(spec)
    sys.modules["rt"] = rt
    loader.exec_module(rt)
    return rt.rtlib


def lacking(kit: str) -> Optional[str]:
    """What is used of the kit and isn't there; None if all is."""
    try:
        rtlib = loaded(kit)
        for it in NAMES:
            operator.attrgetter(it)(rtlib)
    except (OSError, ImportError, AttributeError) as error:
        return str(error)
    return None if "--statements" in rtlib.help_of("build") else "rattle build has no --statements"


def crate_of(rtlib: Any, name: str) -> Any:
    folder = f"{TOP}/crates/{name}"
    return rtlib.Crate(folder, rtlib.root_above(folder), {})


def made(name: str) -> str:
    """The folder with a crate's library, and the stamp by which rt takes it: its sum of the sources, with those below."""
    return f"{TOP}/crates/{name}/out/rlib"


def format_of(name: str) -> bytes:
    with open(f"{made(name)}/{name}.rlib/format", "rb") as it:
        return it.read()


def fits(crate: Any) -> bool:
    """Whether a library's statements were proved over those builds of the libraries below that lie there; it lists their sums."""
    lines = (line.split() for line in format_of(crate.name).decode().splitlines())
    over = {line[1]: line[2] for line in lines if len(line) == 3 and line[0] == "over"}
    below = [it.name for it in crate.below() if it.name in over]
    return all(over[it] == hashlib.sha256(format_of(it)).hexdigest() for it in below)


def is_built(crate: Any) -> bool:
    with contextlib.suppress(OSError, ValueError):
        return bool(crate.is_built()) and fits(crate)
    return False


def forget(names: Iterable[str]) -> None:
    """Removes libraries and all that stand above them, so that they are built anew."""
    uses, gone = named(), set(names)
    while above := {it for it in uses if it not in gone and gone.intersection(uses[it])}:
        gone |= above
    for it in gone:
        # builds beside this one may remove the same
        if os.path.isdir(made(it)):
            shutil.rmtree(made(it), ignore_errors=True)
        else:
            with contextlib.suppress(FileNotFoundError):
                os.remove(made(it))


def mark(crate: Any, stamp: str) -> None:
    with written(f"{made(crate.name)}/stamp") as it:
        it.write(stamp.encode())


def build_statements(rtlib: Any, crate: Any, jobs: str) -> int:
    """Builds a library with its statements alone. rt leaves no stamp at such a one, since it fits only the builds below that it
    was proved over. `fits` sees to that here."""
    stamp, folder = crate.stamp(), made(crate.name)
    os.makedirs(folder)
    words = crate.words(["--jobs", jobs, "--statements"])
    status: int = crate.call(rtlib.RATTLE, "build", *words, "-o", f"{folder}/{crate.name}.rlib")
    if status == 0 and crate.stamp() == stamp:
        mark(crate, stamp)
    return status


def build(rtlib: Any, name: str, jobs: str) -> int:
    crate = crate_of(rtlib, name)
    if is_built(crate):
        return 0
    forget([name])
    if os.path.isdir(f"{crate.folder}/out/incremental"):
        return int(crate.build_rlib(["--jobs", jobs], anew=False))
    return build_statements(rtlib, crate, jobs)


def take_gate(kit: str, name: str) -> None:
    """Leaves stamps at the libraries below a crate that `rt ci` has just made of these sources, one over the other."""
    built: Set[str] = set()
    for crate in crate_of(loaded(kit), name).below():
        with contextlib.suppress(OSError, ValueError):
            fit = built.issuperset(it.name for it in crate.below()) and fits(crate)
            if fit and not os.path.exists(f"{made(crate.name)}/stamp"):
                mark(crate, crate.stamp())
            if fit and crate.is_built():
                built.add(crate.name)


if __name__ == "__main__":
    sys.exit(build(loaded(sys.argv[1]), *sys.argv[2:]) if len(sys.argv) == 4 else __doc__)
