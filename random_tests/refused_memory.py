#!/usr/bin/env python3
"""refused_memory.py [--minorder PROGRAM] [--ordercheck PROGRAM]

Refuses the first allocation of a run of each program, then the second of another run, and so on until a run meets none, and
asks of each run: it ended with status 4, its message (none before the words are read) and nothing else written, or as a run
that is refused nothing. A C compiler makes the allocator that refuses.
"""
import argparse
import os
import subprocess
import sys
import tempfile

HERE = os.path.dirname(os.path.abspath(__file__))
TOP = os.path.dirname(HERE)
sys.path.append(f"{TOP}/build")
import tools  # noqa: E402

MOST = 100_000
STREAMS = {"stdin": subprocess.DEVNULL, "stdout": subprocess.PIPE, "stderr": subprocess.PIPE}
FILES = {"multiplexer": f"{TOP}/examples/mux2.pla", "hidden weighted bit": f"{TOP}/examples/hwb8.pla"}


def refusing(library, number, words):
    """A run with one allocation refused: its status, standard output and error, and whether it came to that allocation."""
    given, taken = os.pipe()
    environment = {"PATH": os.environ["PATH"], "LD_PRELOAD": library, "REFUSED": str(number), "TOLD": str(taken)}
    ran = subprocess.run(words, **STREAMS, env=environment, pass_fds=[taken], timeout=60)
    os.close(taken)
    with os.fdopen(given, "rb") as pipe:
        return ran.returncode, ran.stdout, ran.stderr, pipe.read() != b""


def content(path):
    """What a file holds; nothing where none is named or there."""
    if path is None or not os.path.exists(path):
        return b""
    with open(path, "rb") as file:
        return file.read()


def sweep(name, library, words, made):
    """All runs of a command; `made` is the file that it writes, if it writes one."""
    plain = subprocess.run(words, **STREAMS)
    if plain.returncode not in (0, 1):
        sys.exit(f"{name}: status {plain.returncode}, errors {plain.stderr}")
    wanted = plain.returncode, plain.stdout, b"", content(made)
    messages = (os.path.basename(words[0]).encode() + b": OutOfMemory\n", b"")
    without = 0
    for number in range(1, MOST):
        if made and os.path.exists(made):
            os.remove(made)
        status, out, err, came = refusing(library, number, words)
        written = content(made)
        if (status, out, err, written) == wanted:
            without += 1
        elif (status, out, written) != (4, b"", b"") or err not in messages:
            sys.exit(f"{name}: allocation {number} refused: status {status}, output {out}, errors {err}, "
                     f"{len(written)} bytes in its file")
        if not came:
            print(f"{name}: {number - 1} allocations refused in turn; {without - 1} runs did without, "
                  "the others ended with status 4 and nothing written")
            return
    sys.exit(f"{name}: more than {MOST} allocations")


def main():
    given = argparse.ArgumentParser(description=__doc__, formatter_class=argparse.RawDescriptionHelpFormatter)
    given.add_argument("--minorder", default=f"{TOP}/crates/minorder/out/minorder")
    given.add_argument("--ordercheck", default=f"{TOP}/crates/ordercheck/out/ordercheck")
    programs = given.parse_args()
    tools.need("cc", programs.minorder, programs.ordercheck)
    with tempfile.TemporaryDirectory() as room:
        library, cert = f"{room}/refuse.so", f"{room}/out.cert"
        subprocess.run(["cc", "-O2", "-fPIC", "-shared", "-o", library, f"{HERE}/refuse.c"], check=True)
        for name, file in FILES.items():
            run = [programs.minorder, "--workers", "2", "--cert", cert, "--above", "0,1", file]
            sweep(f"minorder, {name}", library, run, cert)
            sweep(f"ordercheck, {name}", library, [programs.ordercheck, file, cert], None)
            for output in ("--orders", "--sizes"):
                run = [programs.minorder, "--workers", "2", output, "--above", "0,1", file]
                sweep(f"minorder {output}, {name}", library, run, None)
        # of a symmetric function: a search that keeps no pairs but those of its variables, and a check that walks twice
        file = f"{TOP}/examples/majority7.pla"
        sweep("minorder, majority", library, [programs.minorder, "--workers", "2", file], None)
        subprocess.run([programs.minorder, "--cert", cert, file], stdout=subprocess.DEVNULL, check=True)
        sweep("ordercheck, majority", library, [programs.ordercheck, file, cert], None)
        with open(cert) as good:
            text = good.read()
        with open(cert, "w") as bad:
            bad.write(text.replace("\n0003 3\n", "\n0003 9\n"))
        sweep("ordercheck, majority, a cost too high", library, [programs.ordercheck, file, cert], None)


if __name__ == "__main__":
    main()
