"""How each command of the package begins and ends: its statuses, its messages, its signals.

0; 1 without the library, or without what makes a picture, 2 for words that are refused, 3 for a file or results that are,
4 out of memory or threads, 5 where a file isn't read or written or standard output takes no more. Each message is a line.
Ctrl-C and a reader that takes no more end a command as a shell expects, by the signal.
"""
from __future__ import annotations

import argparse
import errno
import io
import os
import signal
import sys
from contextlib import suppress
from typing import Any, Callable, Iterable, NoReturn, Optional, Sequence, TextIO

from ._arguments import on_a_line
from ._errors import MinorderError, NoGraphviz, NoLibrary, NoMatplotlib
from ._writing import named, overwritten

NO_LIBRARY, BAD_WORDS, REFUSED, OUT_OF_MEMORY, DEVICE = range(1, 6)
OUTPUT = "standard output"
# of what can't be had these say that memory or processes are out
OUT = (errno.ENOMEM, errno.EAGAIN)

Command = Callable[[argparse.Namespace], int]


class Refused(Exception):
    """A command ends with a status, and a line for each message."""

    def __init__(self, status: int, *messages: object) -> None:
        super().__init__(*messages)
        self.status = status


class Closed(io.StringIO):
    """In the place of a standard output that was closed."""

    def write(self, text: str) -> NoReturn:
        raise OSError(errno.EBADF, os.strerror(errno.EBADF))


class Once(argparse.Action):
    """Keeps a value; an option that is given twice is refused."""

    def __call__(
            self, parser: argparse.ArgumentParser, namespace: argparse.Namespace, values: Any, option: Optional[str] = None,
    ) -> None:
        if option is not None and getattr(namespace, self.dest) is not self.default:
            raise argparse.ArgumentError(self, "given twice")
        setattr(namespace, self.dest, values)


class Parser(argparse.ArgumentParser):
    """A parser of words that hides no failure of standard output, and takes one value of an option."""

    def __init__(self, *args: Any, **kwargs: Any) -> None:
        super().__init__(*args, **kwargs)
        self.register("action", None, Once)

    def _print_message(self, message: str, file: Optional[Any] = None) -> None:
        if file is sys.stdout:
            file.write(message)
        else:
            super()._print_message(message, file)


def parser_of(name: str, about: Optional[str]) -> argparse.ArgumentParser:
    """A parser with what each command has."""
    from . import __version__
    parser = Parser(name, description=about, formatter_class=argparse.RawDescriptionHelpFormatter)
    parser.add_argument("--version", action="version", version=f"{name} {__version__}")
    return parser


def run(parser: argparse.ArgumentParser, command: Command, words: Optional[Sequence[str]] = None) -> int:
    """The status of a command. Where no words are given the process is the command's own, and its words are taken."""
    if words is None:
        own_process()
    try:
        status = _status_of(parser, command, words)
        sys.stdout.flush()
    except OSError as error:
        # a file that can't be read or written has its name
        named_file = OUTPUT if error.filename is None else error.filename or "''"
        say(parser.prog, f"{named_file}: {error.strerror or error}")
        status = DEVICE
        _write_no_more(sys.stdout)
    try:
        sys.stderr.flush()
    except OSError:
        _write_no_more(sys.stderr)
    return status


def _status_of(parser: argparse.ArgumentParser, command: Command, words: Optional[Sequence[str]]) -> int:
    try:
        # options may stand between other words, where none of these begins with a dash
        has_mark = "--" in (sys.argv[1:] if words is None else words)
        return command(parser.parse_args(words) if has_mark else parser.parse_intermixed_args(words))
    except SystemExit as end:
        return end.code if isinstance(end.code, int) else 0
    except Refused as end:
        say(parser.prog, *end.args)
        return end.status
    except (NoLibrary, NoGraphviz, NoMatplotlib) as error:
        say(parser.prog, error)
        return NO_LIBRARY
    except MinorderError as error:
        say(parser.prog, error)
        return BAD_WORDS
    except MemoryError:
        say(parser.prog, "OutOfMemory")
        return OUT_OF_MEMORY
    except UnicodeEncodeError as error:
        say(parser.prog, f"{OUTPUT}: {error.encoding} has no {error.object[error.start]!a}")
        return DEVICE
    except OSError as error:
        if error.errno in OUT and not error.filename:
            say(parser.prog, "OutOfMemory")
            return OUT_OF_MEMORY
        raise


def own_process() -> None:
    """Takes the signals and the standard streams of a process as a command has them."""
    signal.signal(signal.SIGPIPE, signal.SIG_DFL)
    # a shell's background command ignores it
    if signal.getsignal(signal.SIGINT) != signal.SIG_IGN:
        signal.signal(signal.SIGINT, signal.SIG_DFL)
    # a stream that was closed is None
    sys.stdout = sys.stdout or Closed()
    sys.stderr = sys.stderr or io.StringIO()
    for stream in (sys.stdin, sys.stdout):
        # names of files needn't be text
        if isinstance(stream, io.TextIOWrapper):
            stream.reconfigure(errors="surrogateescape")


def say(name: str, *messages: object) -> None:
    """Writes each message as a line to standard error, where that takes it."""
    for message in messages:
        with suppress(OSError):
            print(f"{name}: {on_a_line(str(message))}", file=sys.stderr)


def _write_no_more(stream: TextIO) -> None:
    """Lets what is left unwritten go nowhere, else the interpreter tries again at its end."""
    try:
        os.dup2(os.open(os.devnull, os.O_WRONLY), stream.fileno())
    except (OSError, ValueError):
        # it is no file
        pass


# ---- files

def content_of(path: str) -> bytes:
    """What a file holds, `-` being standard input."""
    try:
        if path == "-" and sys.stdin is None:
            raise OSError(errno.EBADF, os.strerror(errno.EBADF))
        if path == "-":
            return sys.stdin.buffer.read()
        with open(path, "rb") as file:
            return file.read()
    except OSError as error:
        raise named(error, "standard input" if path == "-" else path) from None


def check_out(path: str, read: Iterable[str]) -> None:
    """Raises Refused if the file to be written is one of those that are read."""
    if overwritten([path], read) is not None:
        raise Refused(BAD_WORDS, f"{path}: it is one of the files that are read")
