#!/usr/bin/env python3
"""prove.py NAME              proves the crates that a program or a static library needs, several at a time, and builds it
prove.py --run NAME WORD..  does so with a program, and runs it with the words; an unproved answer comes before, if there is
                            memory for both and MINORDER_PREVIEW isn't "no"
prove.py --folders NAME     writes their folders
prove.py --built NAME..     takes programs as they lie there, which `rt ci` has just proved and built, and builds static
                            libraries over the libraries that it left"""
from __future__ import annotations

import contextlib
import errno
import os
import resource
import signal
import sys
import time
from typing import NoReturn, Sequence

import library
from builds import build
from calls import SIGNALS, Interrupt, end_on_signals, go_on, interrupts, kept_alone, lock
from crates import TOP, all_of, is_static
from sources import is_up_to_date, made_of, stamped, sums_of, take_as_built, take_as_compared


def fill_streams() -> None:
    """Opens those of the three streams that are closed, so that no file takes their place. The program finds them closed."""
    while (opened := os.open(os.devnull, os.O_RDWR)) < 3:
        pass
    os.close(opened)
    sys.stderr = sys.stderr or open(2, "w", closefd=False)


def main(name: str, words: Sequence[str] = ()) -> None:
    """Proves and builds a program or a static library. The words are those that a program is run with next."""
    folder = made_of(name)[0]
    # one build at a time: two of them have crates in common
    with open(f"{TOP}/crates.txt") as crates:
        lock(crates)
        try:
            os.makedirs(folder, exist_ok=True)
            with stamped(name):
                start = time.time_ns()
                if is_up_to_date(name):
                    take_as_compared(name, start)
                else:
                    sums = sums_of(name)
                    build(name, words)
                    take_as_built(name, sums)
        except OSError as error:
            if error.errno not in (errno.EACCES, errno.EPERM, errno.EROFS):
                raise
            if not is_up_to_date(name):
                sys.exit(f"{name}: it isn't built, and you may not build it here: {error}")


def run(name: str, words: Sequence[str]) -> NoReturn:
    """Runs a program in place of this process."""
    main(name, words)
    # Python ignores the last two
    for it in (*SIGNALS, signal.SIGPIPE, signal.SIGXFSZ):
        if it not in SIGNALS or signal.getsignal(it) is not signal.SIG_IGN:
            signal.signal(it, signal.SIG_DFL)
    go_on()
    made = made_of(name)[1]
    os.execv(made, [made, *words])


def take(name: str) -> None:
    """Takes a program as `rt ci` left it, or builds a static library over the libraries that it left."""
    if is_static(name):
        folder = library.kit()
        with kept_alone(all_of(name)[:-1]):
            if not library.lacking(folder):
                library.take_gate(folder, name)
        main(name)
    elif os.access(made_of(name)[1], os.X_OK):
        take_as_built(name, sums_of(name))
    else:
        sys.exit(f"{name}: it isn't built")


def called_with(words: Sequence[str]) -> None:
    if words[:1] == ["--folders"] and len(words) == 2:
        print(*(f"crates/{crate}" for crate in all_of(words[1])))
    elif words[:1] == ["--built"] and len(words) > 1:
        for it in words[1:]:
            take(it)
    elif words[:1] == ["--run"] and len(words) > 1:
        run(words[1], words[2:])
    elif len(words) == 1 and not words[0].startswith("-"):
        main(words[0])
    else:
        sys.exit(__doc__)


if __name__ == "__main__":
    fill_streams()
    end_on_signals()
    try:
        called_with(sys.argv[1:])
    except Interrupt:
        with contextlib.suppress(OSError):
            print("\n" * sys.stderr.isatty(), end="", file=sys.stderr, flush=True)
        signal.signal(interrupts[0], signal.SIG_DFL)
        resource.setrlimit(resource.RLIMIT_CORE, (0, 0))
        os.kill(os.getpid(), interrupts[0])
    except OSError as error:
        sys.exit(f"{error.filename or 'build/prove.py'}: {error.strerror or error}")
