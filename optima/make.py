#!/usr/bin/env python3
"""make.py [PART ..] [--minorder PROGRAM] [--ordercheck PROGRAM] [--workers W] [--peers FOLDER] [--into FOLDER] [--room FOLDER]

Makes the pages of optima anew, by parts:

    table   optima/optima.csv, and among the worked cases that the gate carries out the small certificates with their PLA files
    all5    optima/few.csv and optima/few_classes.csv: the functions of up to five inputs; wants cc
    orders  optima/sizes.csv.gz and optima/distributions.csv: how many of all orders of each function have each size, and how
            these are distributed
    league  optima/league.csv: what the methods of CUDD, BuDDy and ABC make of each function; wants --peers, the folder that
            bench/peers.sh and optima/league.sh have built them in, and is left out without it
    page    docs/OPTIMA.md with its pictures, which want matplotlib, and docs/optima.html, from the tables; the latter wants
            Debian's libjs-jquery, libjs-jquery-datatables, libjs-d3 and graphviz, and is left out without them

Without a PART it makes all of them. A part that is stopped goes on where it was: what is done lies in the room, optima/out
if none is named. With --into it is all written into another folder; a second run, with another room, that finds the same is
the test (`diff -r`). The programs are ./minorder and ./ordercheck of this repository where none are named, the library is
that of ./libminorder. Where these scripts are installed, the programs are those on the path, and --into must be named.
"""
import argparse
import os
import shutil
import subprocess
import sys

HERE = os.path.dirname(os.path.abspath(__file__))
TOP = os.path.dirname(HERE)
IS_REPOSITORY = os.path.exists(f"{TOP}/crates.txt")
PARTS = ("table", "all5", "orders", "league", "page")


def fail(message):
    sys.exit(f"make.py: {message}")


def begun(programs):
    """Has each program say its help: what is built first tells of itself."""
    for program in programs:
        if not shutil.which(program):
            fail(f"{program} isn't there: name it by --{os.path.basename(program)}")
        if subprocess.run([program, "--help"], stdout=subprocess.DEVNULL).returncode:
            fail(f"{program} doesn't run")


def words():
    given = argparse.ArgumentParser(description=__doc__, formatter_class=argparse.RawDescriptionHelpFormatter)
    given.add_argument("parts", nargs="*", metavar="PART", help=", ".join(PARTS))
    for program in ("minorder", "ordercheck"):
        given.add_argument(f"--{program}", default=f"{TOP}/{program}" if IS_REPOSITORY else program)
    given.add_argument("--workers", type=int, default=4)
    given.add_argument("--into", default=TOP if IS_REPOSITORY else None)
    given.add_argument("--peers")
    given.add_argument("--room")
    programs = given.parse_args()
    for part in programs.parts:
        if part not in PARTS:
            given.error(f"{part}: the parts are {', '.join(PARTS)}")
    if not programs.into:
        given.error("--into FOLDER is missing: where these scripts are installed they don't write")
    programs.room = programs.room or f"{HERE if IS_REPOSITORY else programs.into}/out"
    return programs


def has(path, maker):
    if not os.path.exists(path):
        fail(f"{path} isn't there: {maker} makes it")


def make(part, programs):
    if part in ("league", "page"):
        has(f"{programs.into}/optima/optima.csv", "the part table")
    if part == "page":
        has(f"{programs.into}/optima/few.csv", "the part all5")
        for name in ("distributions.csv", "sizes.csv.gz"):
            has(f"{programs.into}/optima/{name}", "the part orders")
    if part == "table":
        import table
        begun((programs.minorder, programs.ordercheck))
        table.make(programs)
    elif part == "all5":
        import few
        if not shutil.which("cc"):
            fail("not found: cc (Debian: gcc), which the classes of five inputs want")
        few.make(programs)
    elif part == "orders":
        import distributions
        distributions.make(programs)
    elif part == "league":
        if programs.peers:
            has(f"{programs.peers}/league_cudd", "optima/league.sh")
            import league
            league.make(programs)
    else:
        try:
            import page
        except ModuleNotFoundError as error:
            fail(f"no {error.name}: the page's pictures want it (Debian: python3-{error.name}, for /usr/bin/python3)")
        page.make(programs)


def main():
    programs = words()
    os.makedirs(programs.room, exist_ok=True)
    for part in programs.parts or PARTS:
        make(part, programs)


if __name__ == "__main__":
    main()
