"""GTIDs, sets of GTIDs and their texts. Written independently, from docs/FORMATS.md and compared with the proved programs."""
from __future__ import annotations

import re
from bisect import bisect_right
from collections.abc import Iterable, Iterator
from typing import NamedTuple

GREATEST = 2**63 - 1
MOST_SOURCES = 65_536

UUID = r"[0-9a-f]{8}-[0-9a-f]{4}-[0-9a-f]{4}-[0-9a-f]{4}-[0-9a-f]{12}"
NUMBER = r"[1-9][0-9]*"
UUID_FORM = re.compile(UUID)
GTID_FORM = re.compile(f"({UUID}):({NUMBER})")
ELEMENT_FORM = re.compile(f"{UUID}(:{NUMBER}(-{NUMBER})?)+")


class SourcesFull(Exception):
    """A set would have more sources than a set may have."""


class Gtid(NamedTuple):
    """A source's UUID, in lower case, and a transaction number. Their order is that of GTIDs: by source, then by number."""

    source: str
    number: int

    def __str__(self) -> str:
        return f"{self.source}:{self.number}"


class Span(NamedTuple):
    """The numbers `low` to `high` of a source."""

    source: str
    low: int
    high: int


class GtidSet:
    """A set of GTIDs: for each source its longest runs of numbers, ascending."""

    def __init__(self, spans: Iterable[Span] = ()) -> None:
        self._runs: dict[str, list[tuple[int, int]]] = {}
        for source, low, high in sorted(spans):
            runs = self._runs.setdefault(source, [])
            if runs and low <= runs[-1][1] + 1:
                runs[-1] = (runs[-1][0], max(runs[-1][1], high))
            else:
                runs.append((low, high))

    @staticmethod
    def of(gtids: Iterable[Gtid]) -> GtidSet:
        """The set of these GTIDs."""
        return GtidSet(Span(source, number, number) for source, number in gtids)

    def spans(self) -> Iterator[Span]:
        """The longest runs, by source and number."""
        for source in sorted(self._runs):
            for low, high in self._runs[source]:
                yield Span(source, low, high)

    def sources(self) -> list[str]:
        """The sources of its members."""
        return sorted(self._runs)

    def is_full(self) -> bool:
        """Whether it has more sources than a set may have."""
        return len(self._runs) > MOST_SOURCES

    def has_room(self, source: str) -> bool:
        """Whether a member of this source may be put in."""
        return source in self._runs or len(self._runs) < MOST_SOURCES

    def add(self, gtid: Gtid) -> None:
        """Puts one more member in."""
        runs = self._runs.setdefault(gtid.source, [])
        number = gtid.number
        at = bisect_right(runs, (number, GREATEST))
        if at and number <= runs[at - 1][1]:
            return
        low = high = number
        begin, end = at, at
        if at and runs[at - 1][1] == number - 1:
            begin, low = at - 1, runs[at - 1][0]
        if at < len(runs) and runs[at][0] == number + 1:
            end, high = at + 1, runs[at][1]
        runs[begin:end] = [(low, high)]

    def copy(self) -> GtidSet:
        """A set with the same members."""
        made = GtidSet()
        made._runs = {source: list(runs) for source, runs in self._runs.items()}
        return made

    def __contains__(self, gtid: Gtid) -> bool:
        runs = self._runs.get(gtid.source, [])
        at = bisect_right(runs, (gtid.number, GREATEST))
        return at > 0 and gtid.number <= runs[at - 1][1]

    def __bool__(self) -> bool:
        return bool(self._runs)

    def __eq__(self, other: object) -> bool:
        return isinstance(other, GtidSet) and self._runs == other._runs

    def __or__(self, other: GtidSet) -> GtidSet:
        return GtidSet([*self.spans(), *other.spans()])

    def __sub__(self, other: GtidSet) -> GtidSet:
        return GtidSet(part for span in self.spans() for part in other._outside(span))

    def __and__(self, other: GtidSet) -> GtidSet:
        return self - (self - other)

    def _outside(self, span: Span) -> Iterator[Span]:
        """What of a span is not in the set."""
        low = span.low
        for begin, end in self._runs.get(span.source, []):
            if begin > span.high:
                break
            if low < begin:
                yield Span(span.source, low, begin - 1)
            low = max(low, end + 1)
        if low <= span.high:
            yield Span(span.source, low, span.high)

    def __le__(self, other: GtidSet) -> bool:
        return not self - other

    def count(self) -> int:
        """How many members it has."""
        return sum(high - low + 1 for _, low, high in self.spans())

    def only(self, source: str) -> GtidSet:
        """Its members of one source."""
        return GtidSet(span for span in self.spans() if span.source == source)

    def without(self, source: str) -> GtidSet:
        """Its members of other sources."""
        return GtidSet(span for span in self.spans() if span.source != source)

    def least_number_outside(self, source: str, others: Iterable[int]) -> int | None:
        """The least number from 1 of a source that is neither in the set nor among the others; None where all are."""
        taken, number = set(others), 1
        for low, high in [*self._runs.get(source, []), (GREATEST + 1, GREATEST + 1)]:
            while number < low:
                if number not in taken:
                    return number
                number += 1
            number = max(number, high + 1)
        return None

    def __str__(self) -> str:
        """The canonical text; the empty set is the empty text."""
        elements = []
        for source in self.sources():
            runs = (f":{low}" if low == high else f":{low}-{high}" for low, high in self._runs[source])
            elements.append(source + "".join(runs))
        return ",".join(elements)

    def word(self) -> str:
        """The word for it in journals and scripts, where `-` is the empty set."""
        return str(self) or "-"


def gtid_in(text: str) -> Gtid | None:
    """The GTID that a word is the canonical text of."""
    found = GTID_FORM.fullmatch(text)
    if not found or int(found[2]) > GREATEST:
        return None
    return Gtid(found[1], int(found[2]))


def set_in(text: str) -> GtidSet | None:
    """The set that a word is the canonical text of, `-` for the empty one. Raises SourcesFull where it has too many sources."""
    if text == "-":
        return GtidSet()
    spans = []
    for element in text.split(","):
        if not ELEMENT_FORM.fullmatch(element):
            return None
        source, *intervals = element.split(":")
        for interval in intervals:
            low, _, high = interval.partition("-")
            spans.append(Span(source, int(low), int(high or low)))
    if any(span.low > span.high or span.high > GREATEST for span in spans):
        return None
    found = GtidSet(spans)
    if str(found) != text:
        return None
    if found.is_full():
        raise SourcesFull
    return found
