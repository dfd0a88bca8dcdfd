#!/usr/bin/env python3
"""closed_streams.py FOLDER

Runs the programs `minorder` and `ordercheck` of a folder with each choice of standard streams closed, and asks of each run: no
file that it was given has changed, its certificate is empty or whole, and a stream that is open gets what it always gets. A
report or verdict that can't be written is a device's fault, with status 5.
"""
import os
import subprocess
import sys
import tempfile
from itertools import product

HERE = os.path.dirname(os.path.abspath(__file__))
FILE = f"{os.path.dirname(HERE)}/examples/hwb8.pla"
STREAMS = 3
OUT = 1
DEVICE = 5


def ended(words, closed):
    """How a run ends without these streams: its status, standard output and error."""
    def close():
        for stream in closed:
            os.close(stream)

    ran = subprocess.run(words, stdin=subprocess.DEVNULL, capture_output=True, preexec_fn=close, timeout=60)
    return ran.returncode, ran.stdout, ran.stderr


def content(path):
    """What a file holds, nothing if it isn't there."""
    if not os.path.exists(path):
        return b""
    with open(path, "rb") as file:
        return file.read()


def wanted(whole, program, closed):
    """How a run ends that ends with `whole` if all streams are open."""
    status, out, err = whole
    if OUT in closed and out:
        status, out, err = DEVICE, b"", f"{program}: Device\n".encode()
    return status, out, b"" if STREAMS - 1 in closed else err


def tried(words, made, given):
    """The number of choices of closed streams with which a run ended as it must."""
    program, files = os.path.basename(words[0]), {path: content(path) for path in given}
    whole, certificate = ended(words, ()), content(made)
    choices = [[stream for stream in range(STREAMS) if is_closed[stream]] for is_closed in product((False, True), repeat=STREAMS)]
    for closed in choices:
        if os.path.exists(made) and made not in given:
            os.remove(made)
        said = ended(words, closed)
        if said != wanted(whole, program, closed):
            sys.exit(f"{words}, streams {closed} closed: {said}")
        if content(made) not in (b"", certificate) or files != {path: content(path) for path in given}:
            sys.exit(f"{words}, streams {closed} closed: they are written into a file")
    return len(choices)


def main():
    if len(sys.argv) != 2:
        sys.exit(__doc__)
    with tempfile.TemporaryDirectory() as room:
        minorder, ordercheck = f"{sys.argv[1]}/minorder", f"{sys.argv[1]}/ordercheck"
        made, cert, broken = f"{room}/made.cert", f"{room}/good.cert", f"{room}/broken.pla"
        with open(broken, "w", encoding="ascii") as file:
            file.write(".i 2\n")
        subprocess.run([minorder, "--cert", cert, FILE], check=True, stdout=subprocess.DEVNULL)
        runs = sum(tried(words, made, [FILE, cert, broken]) for words in (
            [minorder, FILE], [minorder, "--cert", made, FILE], [minorder, "--orders", FILE], [minorder, "--cert", made, broken],
            [ordercheck, FILE, cert], [ordercheck, broken, cert]))
    print(f"closed streams: {runs} runs")


if __name__ == "__main__":
    main()
