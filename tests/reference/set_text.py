"""The reader of set text and the set functions. Written independently, from docs/FORMATS.md, section 1, and compared with the proved
programs."""
from __future__ import annotations

import re
from dataclasses import dataclass

from .gtids import GREATEST, GtidSet, Span

UUID_TOKEN = re.compile(r"[0-9a-fA-F]{8}(-[0-9a-fA-F]{4}){3}-[0-9a-fA-F]{12}")
NAMES = {2: "bad-uuid", 3: "no-interval", 4: "bad-number", 5: "number-range", 6: "reversed", 7: "stray"}


@dataclass
class TextFault(Exception):
    """What is wrong with a text, E2 to E7, and at which byte."""

    code: int
    at: int

    def line(self) -> str:
        """The printed line."""
        return f"refused E{self.code} {NAMES[self.code]} at {self.at}"


class Cursor:
    """A text, and how far it is read. Its characters are bytes."""

    def __init__(self, text: str) -> None:
        self.text, self.at = text, 0

    def skip_blanks(self) -> None:
        """Goes on to what is no blank."""
        self.run(" \t\r\n")

    def run(self, members: str) -> str:
        """Takes the longest run of these characters."""
        begin = self.at
        while self.at < len(self.text) and self.text[self.at] in members:
            self.at += 1
        return self.text[begin : self.at]

    def is_at_end(self) -> bool:
        """Whether nothing but blanks is left."""
        self.skip_blanks()
        return self.at == len(self.text)

    def takes(self, mark: str) -> bool:
        """Takes this character where it is next."""
        self.skip_blanks()
        if not self.text.startswith(mark, self.at):
            return False
        self.at += 1
        return True

    def uuid(self) -> str:
        """Takes a UUID."""
        self.skip_blanks()
        begin = self.at
        token = self.run("0123456789abcdefABCDEF-")
        if not UUID_TOKEN.fullmatch(token):
            raise TextFault(2, begin)
        return token.lower()

    def number(self, least: int) -> int:
        """Takes a number that is not below the one before it."""
        self.skip_blanks()
        begin = self.at
        token = self.run("0123456789")
        if not token:
            raise TextFault(4, begin)
        digits = token.lstrip("0")
        if not digits or len(digits) > 19 or int(digits) > GREATEST:
            raise TextFault(5, begin)
        if int(digits) < least:
            raise TextFault(6, begin)
        return int(digits)

    def colon(self) -> None:
        """Takes the colon after a UUID."""
        if not self.takes(":"):
            raise TextFault(3, self.at)

    def end(self) -> None:
        """Nothing is left."""
        if not self.is_at_end():
            raise TextFault(7, self.at)


def read_source(text: str) -> str:
    """The one UUID of a text."""
    cursor = Cursor(text)
    source = cursor.uuid()
    cursor.end()
    return source


def read_set(text: str) -> GtidSet:
    """The set that a text spells."""
    cursor, spans = Cursor(text), []
    while not cursor.is_at_end():
        if cursor.takes(","):
            continue
        source = cursor.uuid()
        cursor.colon()
        more = True
        while more:
            low = high = cursor.number(0)
            if cursor.takes("-"):
                high = cursor.number(low)
            spans.append(Span(source, low, high))
            more = cursor.takes(":")
        if not cursor.is_at_end() and not cursor.takes(","):
            raise TextFault(7, cursor.at)
    return GtidSet(spans)


BINARY = {
    "union": lambda a, b: a | b,
    "intersect": lambda a, b: a & b,
    "subtract": lambda a, b: a - b,
    "symmetric": lambda a, b: (a - b) | (b - a),
    "subset": lambda a, b: int(a <= b),
    "equal": lambda a, b: int(a == b),
    "disjoint": lambda a, b: int(not a & b),
}
UNARY = {"normalize": lambda a: a, "count": GtidSet.count}
WITH_SOURCE = {"only": GtidSet.only, "without": GtidSet.without}


def set_function(name: str, words: list[str]) -> tuple[str, int]:
    """The line of `set NAME WORDS..` for one word or two, and the exit status."""
    if name not in {*BINARY, *UNARY, *WITH_SOURCE} or len(words) != (1 if name in UNARY else 2):
        return "refused E30 usage", 2
    try:
        first = read_set(words[0])
        if name in UNARY:
            return str(UNARY[name](first)), 0
        if name in WITH_SOURCE:
            return str(WITH_SOURCE[name](first, read_source(words[1]))), 0
        return str(BINARY[name](first, read_set(words[1]))), 0
    except TextFault as fault:
        return fault.line(), 1
