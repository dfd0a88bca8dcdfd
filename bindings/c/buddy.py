#!/usr/bin/env python3
"""buddy.py      lets BuDDy load the diagram of each worked file under its best order, and compares the number of nodes and the
truth tables that it has then with the library's; CC is the C compiler, and BuDDy is Debian's libbdd-dev"""
import glob
import os
import shutil
import subprocess
import sys
import tempfile

TOP = os.path.dirname(os.path.dirname(os.path.dirname(os.path.abspath(__file__))))
sys.path.insert(0, f"{TOP}/bindings/python")
sys.dont_write_bytecode = True
import minorder  # noqa: E402

FOLDERS = ("examples", "crates/worked_cases/data", "crates/worked_cases/data/optima")


def worked_files():
    return [path for folder in FOLDERS for path in sorted(glob.glob(f"{TOP}/{folder}/*.pla"))]


def built(folder):
    """The program; nothing where there is no compiler or no BuDDy."""
    compiler = os.environ.get("CC", "cc").split()
    if not shutil.which(compiler[0]):
        return None
    if subprocess.run([*compiler, "-E", "-x", "c", "-"], input=b"#include <bdd.h>\n", capture_output=True).returncode:
        return None
    program = f"{folder}/buddy"
    subprocess.run([*compiler, "-O2", "-Wall", "-Wextra", f"{TOP}/bindings/c/buddy.c", "-lbdd", "-o", program], check=True)
    return program


def compare(program, path, saved):
    """Ends the process where BuDDy has another diagram of a file."""
    file = minorder.read_pla(path)
    found = minorder.exact(file)
    minorder.diagram(file, found.order).save(saved)
    words = [program, saved, str(len(file.tables)), *map(str, found.order)]
    count, *tables = subprocess.run(words, stdout=subprocess.PIPE, text=True, check=True).stdout.split()
    if int(count) != found.total:
        sys.exit(f"buddy.py: {path}: BuDDy counts {count} nodes, and the fewest are {found.total}")
    if [int.from_bytes(bytes.fromhex(table), "little") for table in tables] != list(map(int, file.tables)):
        sys.exit(f"buddy.py: {path}: BuDDy has other functions")


def main():
    with tempfile.TemporaryDirectory() as folder:
        program = built(folder)
        if program is None:
            print("left out: BuDDy, for want of a C compiler or of Debian's libbdd-dev")
            return
        files = worked_files()
        for path in files:
            compare(program, path, f"{folder}/it.bdd")
    print(f"BuDDy loads the diagrams of {len(files)} worked files: the same functions, and as many nodes")


main()
