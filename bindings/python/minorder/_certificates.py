"""The faults of a certificate's text: the library tells that there is one, this module which. The rules are those of
docs/USING.md."""
import re
from contextlib import suppress
from typing import List, NoReturn, Optional

from ._arguments import shown
from ._errors import BadArgument, BadCertificate

LIMIT = 1_048_576
MOST = 999_999
NUMBER = re.compile(rb"0|[1-9][0-9]*")
MASK = re.compile(rb"[0-9a-f]{4}")
HEAD = re.compile(rb"bddorder-certificate [12]\ninputs ([1-9]|1[0-6])\n")


def fault(line: Optional[int], kind: str) -> NoReturn:
    raise BadCertificate(line, kind, "certificate")


def bytes_of(certificate: object) -> bytes:
    """A certificate's text as the library reads it. Raises BadArgument."""
    with suppress(UnicodeEncodeError):
        if isinstance(certificate, str):
            return certificate.encode("utf-8", "surrogateescape")
        if isinstance(certificate, (bytes, bytearray, memoryview)):
            return bytes(certificate)
    raise BadArgument(f"certificate: {shown(certificate)} is no text")


class _Lines:
    """The lines of a text, taken one after another."""

    def __init__(self, text: bytes) -> None:
        *self.lines, self.rest = text.split(b"\n")
        self.at = 0

    def fault(self, kind: str) -> NoReturn:
        fault(self.at, kind)

    def take(self, many: int, *fixed: bytes) -> List[bytes]:
        """The words of the next line behind its fixed ones."""
        self.at += 1
        if self.at > len(self.lines):
            self.fault("MissingLine")
        words = self.lines[self.at - 1].split(b" ")
        if len(words) != len(fixed) + many or tuple(words[:len(fixed)]) != fixed:
            self.fault("BadLine")
        return words[len(fixed):]

    def number(self, word: bytes, most: int, least: int = 0) -> int:
        if not NUMBER.fullmatch(word) or len(word) > 7 or not least <= int(word) <= most:
            self.fault("BadNumber")
        return int(word)

    def numbers(self, many: int, most: int, *fixed: bytes) -> List[int]:
        return [self.number(word, most) for word in self.take(many, *fixed)]

    def one(self, least: int, most: int, fixed: bytes) -> int:
        return self.number(self.take(1, fixed)[0], most, least)

    def end(self) -> None:
        self.take(0, b"end")
        if self.at < len(self.lines) or self.rest:
            self.at += 1
            self.fault("TrailingText")


def check_text(text: bytes) -> None:
    """Raises BadCertificate for the first fault of a text."""
    if len(text) > LIMIT:
        fault(None, "TooLong")
    lines = _Lines(text)
    title = lines.take(2)
    if title not in ([b"bddorder-certificate", b"1"], [b"bddorder-certificate", b"2"]):
        lines.fault("BadLine")
    inputs = lines.one(1, 16, b"inputs")
    lines.one(1, 16, b"outputs")
    lines.numbers(inputs, 15, b"order")
    lines.numbers(inputs, MOST, b"levels")
    lines.one(0, MOST, b"total")
    if title[1] == b"2":
        pairs: List[List[int]] = []
        for _ in range(lines.one(0, 240, b"pairs")):
            pairs.append(lines.numbers(2, inputs - 1))
            if pairs[-2:] != sorted(pairs[-2:]) or pairs[-2:-1] == pairs[-1:]:
                lines.fault("NotRising")
    last = -1
    for _ in range(lines.one(0, (1 << inputs) - 1, b"cells")):
        mask, cost = lines.take(2)
        if not MASK.fullmatch(mask) or int(mask, 16) > (1 << inputs) - 2:
            lines.fault("BadNumber")
        lines.number(cost, MOST)
        if int(mask, 16) <= last:
            lines.fault("NotRising")
        last = int(mask, 16)
    lines.end()


def inputs_of(text: bytes) -> int:
    """The number of inputs that a certificate says; a text that doesn't begin as one has its first fault told."""
    said = HEAD.match(text)
    if not said:
        check_text(text)
        raise AssertionError("the head of a certificate without a fault says its inputs")
    return int(said.group(1))
