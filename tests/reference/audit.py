"""What `audit`, `apply`, `position` and `upgrade` answer. Written independently, from docs/FORMATS.md and compared with
the proved programs."""
from __future__ import annotations

from bisect import bisect_left
from collections.abc import Callable, Iterator
from functools import wraps

from .formats import FORMATS, VERSIONS, Bundle, Entry, Refused, bundle_lines, read_bundle, read_journal
from .gtids import Gtid, GtidSet, Span
from .rows import Key, RowFault, Rows, Transaction, keys_of
from .set_text import TextFault, read_set, read_source

Answer = tuple[str, int]


class Seen:
    """What a journal has so far, and up to which GTID it has all of a source."""

    def __init__(self, gtids: list[Gtid]) -> None:
        self.gtids, self.seen = gtids, set[Gtid]()
        self.places: dict[str, int] = {}

    def add(self, gtid: Gtid) -> None:
        """The journal has one more."""
        self.seen.add(gtid)
        place = self.first_lacking(gtid.source)
        while place < len(self.gtids) and self.gtids[place] in self.seen:
            place += 1
        self.places[gtid.source] = place

    def first_lacking(self, source: str) -> int:
        """The place, among all GTIDs, up to which the journal has all of this source."""
        return self.places.get(source, bisect_left(self.gtids, (source, 0)))

    def lacking(self, touchers: list[Gtid], gtid: Gtid) -> list[Gtid]:
        """Which of these, ascending and all of one source, are smaller and not in the journal."""
        begin = self.first_lacking(gtid.source)
        first = bisect_left(touchers, self.gtids[begin]) if begin < len(self.gtids) else len(touchers)
        return [it for it in touchers[first : bisect_left(touchers, gtid)] if it not in self.seen]


class Audit:
    """The journals of a bundle as one world: of each GTID outside the opening set the first content that is found."""

    def __init__(self, bundle: Bundle) -> None:
        self.bundle = bundle
        self.contents: dict[Gtid, Transaction] = {}
        for _, entry in self.entries():
            self.contents.setdefault(entry.gtid, entry.changes)
        self.gtids = sorted(self.contents)
        self.keys = {gtid: keys_of(bundle.schema, changes) for gtid, changes in self.contents.items()}
        self.touchers: dict[tuple[str, Key], list[Gtid]] = {}
        for gtid in self.gtids:
            for key in self.keys[gtid]:
                self.touchers.setdefault((gtid.source, key), []).append(gtid)

    def entries(self) -> Iterator[tuple[int, Entry]]:
        """The entries outside the opening set with the number of their journal, in order of journals and entries."""
        for number, channel in enumerate(self.bundle.channels):
            for entry in channel.journal.entries:
                if entry.gtid not in self.bundle.opening:
                    yield number, entry

    def unequal(self) -> str | None:
        """The first entry whose content is not the world's."""
        for _, entry in self.entries():
            if entry.changes != self.contents[entry.gtid]:
                return f"unequal {entry.gtid}"
        return None

    def purged(self) -> str | None:
        """The first journal that has purged what was not executed from the start."""
        for number, channel in enumerate(self.bundle.channels):
            lacking = channel.journal.previous - self.bundle.opening
            if lacking:
                return f"purged {number} {lacking}"
        return None

    def missing(self) -> str | None:
        """The least GTID that is in no journal though a greater number of its source is."""
        known = GtidSet.of(self.gtids) | self.bundle.opening
        greatest = {gtid.source: gtid.number for gtid in self.gtids}
        for source, number in sorted(greatest.items()):
            least = known.least_number_outside(source, ())
            if least is not None and least < number:
                return f"missing {Gtid(source, least)}"
        return None

    def shared(self) -> str | None:
        """The least GTID that shares a key with a smaller source, the least such of those sources, and the first key."""
        touchers: dict[Key, Gtid] = {}
        for gtid in self.gtids:
            for key in self.keys[gtid]:
                first = touchers.setdefault(key, gtid)
                if first.source < gtid.source:
                    return f"shared {first} {gtid} {key.text()}"
        return None

    def not_closed(self) -> str | None:
        """The first entry that is in a journal without a smaller number of its source with a common key, and the least of those."""
        journal, seen = -1, Seen(self.gtids)
        for number, entry in self.entries():
            if number != journal:
                journal, seen = number, Seen(self.gtids)
            gtid = entry.gtid
            lacking = [it for key in self.keys[gtid] for it in seen.lacking(self.touchers[gtid.source, key], gtid)]
            if lacking:
                return f"not-closed {gtid} {min(lacking)}"
            seen.add(gtid)
        return None

    def does_not_apply(self) -> str | None:
        """The first transaction that fails in its source's list, taken alone from the opening rows."""
        source, rows = "", self.bundle.rows
        for gtid in self.gtids:
            if gtid.source != source:
                source, rows = gtid.source, self.bundle.rows.copy()
            try:
                rows.apply(self.contents[gtid])
            except RowFault as fault:
                return f"does-not-apply {gtid} {fault.text()}"
        return None

    def conflict(self) -> str | None:
        """The first verdict on keys."""
        return self.shared() or self.not_closed()

    def verdict(self) -> str:
        """The first verdict that holds; of keys alone where the rows aren't known."""
        tests = [self.unequal, self.purged, self.missing, self.conflict, self.does_not_apply]
        tests = tests[:-1] if self.bundle.rows_line else tests
        return next((found for found in (test() for test in tests) if found), "sound")

    def answer(self) -> Answer:
        """The verdict with what it rests on, and the exit status."""
        verdict, assumed = self.verdict(), self.bundle.assumed()
        if verdict != "sound":
            return verdict, 1
        return (f"sound if {', '.join(assumed)}", 5) if assumed else ("sound", 0)

    def answer_all(self) -> Answer:
        """The verdict and all other faults, with what they rest on, and the exit status."""
        first, status = self.answer()
        assumed = self.bundle.assumed() if status == 1 else []
        return "\n".join([first, *self.all_faults()[1:], *([f"if {', '.join(assumed)}"] if assumed else [])]), status

    def applied(self) -> Answer:
        """The state where the verdict is `sound`, with what it rests on, or that there are no rows to apply changes to; and the exit status."""
        verdict, assumed = self.verdict(), self.bundle.assumed()
        if verdict != "sound":
            return verdict, 1
        if self.bundle.rows_line:
            return f"refused E31 no-rows at line {self.bundle.rows_line}", 1
        return "\n".join([*(f"assume {it}" for it in assumed), self.state()]), 5 if assumed else 0

    def missing_gtids(self) -> GtidSet:
        """What no journal has though it has a greater number of the source, and was not executed from the start."""
        greatest = {gtid.source: gtid.number for gtid in self.gtids}
        return GtidSet(Span(source, 1, number) for source, number in greatest.items()) - (GtidSet.of(self.gtids) | self.bundle.opening)

    def shared_keys(self) -> Iterator[str]:
        """Each key that two sources touch with its least pair, in the order of the greater GTIDs."""
        touchers: dict[Key, Gtid] = {}
        told = set[Key]()
        for gtid in self.gtids:
            for key in self.keys[gtid]:
                first = touchers.setdefault(key, gtid)
                if first.source < gtid.source and key not in told:
                    told.add(key)
                    yield f"shared {first} {gtid} {key.text()}"

    def nearest(self, gtid: Gtid, key: Key) -> Gtid | None:
        """The last smaller number of the source that touches a key."""
        touchers = self.touchers.get((gtid.source, key), [])
        place = bisect_left(touchers, gtid)
        return touchers[place - 1] if place else None

    def gaps(self) -> Iterator[tuple[Gtid, Gtid]]:
        """Each GTID that is in some journal without its nearest earlier one at a key, and the first such, by the order of its keys."""
        told = set[Gtid]()
        for channel in self.bundle.channels:
            there = set[Gtid]()
            for entry in channel.journal.entries:
                gtid = entry.gtid
                nearest = (self.nearest(gtid, key) for key in self.keys.get(gtid, []))
                absent = [it for it in nearest if it and it not in there and it not in channel.journal.previous]
                if absent and gtid not in told:
                    told.add(gtid)
                    yield gtid, absent[0]
                there.add(gtid)

    def refused(self) -> Iterator[str]:
        """Of each source the first transaction that fails in its list, taken alone from the opening rows."""
        for source in sorted({gtid.source for gtid in self.gtids}):
            rows = self.bundle.rows.copy()
            for gtid in (it for it in self.gtids if it.source == source):
                try:
                    rows.apply(self.contents[gtid])
                except RowFault as fault:
                    yield f"does-not-apply {gtid} {fault.text()}"
                    break

    def all_faults(self) -> list[str]:
        """The verdict, and after it each other fault."""
        verdict = self.verdict()
        kind, *names = verdict.split(" ")
        differing = [entry.gtid for _, entry in self.entries() if entry.changes != self.contents[entry.gtid]]
        lines = [f"unequal {gtid}" for gtid in dict.fromkeys(differing)]
        for number, channel in enumerate(self.bundle.channels):
            if lacking := channel.journal.previous - self.bundle.opening:
                lines.append(f"purged {number} {lacking}")
        said = GtidSet.of([Gtid(names[0][:36], int(names[0][37:]))]) if kind == "missing" else GtidSet()
        for source, low, high in (self.missing_gtids() - said).spans():
            lines.append(f"missing {source}:{low}" if low == high else f"missing {source}:{low}-{high}")
        lines += self.shared_keys()
        lines += [f"not-closed {gtid} {absent}" for gtid, absent in self.gaps() if kind != "not-closed" or str(gtid) != names[0]]
        if kind == "does-not-apply":
            lines += self.refused()
        return [verdict, *(line for line in lines if line != verdict)]

    def rows_of_all(self) -> Rows:
        """The rows of all transactions, where the verdict is `sound`."""
        rows = self.bundle.rows.copy()
        for gtid in self.gtids:
            rows.apply(self.contents[gtid])
        return rows

    def state(self) -> str:
        """The executed set and the rows, where the verdict is `sound`."""
        executed = self.bundle.opening
        for channel in self.bundle.channels:
            executed = executed | channel.journal.whole()
        if executed.is_full():
            raise Refused("refused E9 sources-full")
        return "\n".join([f"executed {executed.word()}", *self.rows_of_all().lines()])


def refusals_told(call: Callable[..., Answer]) -> Callable[..., Answer]:
    """Makes a refusal an answer."""

    @wraps(call)
    def told(*words: str) -> Answer:
        try:
            return call(*words)
        except Refused as refused:
            return refused.line, 1
        except TextFault as fault:
            return fault.line(), 1

    return told


@refusals_told
def audit(text: str) -> Answer:
    """What `audit` prints for an input, and its exit status."""
    return Audit(read_bundle(text, VERSIONS)).answer()


@refusals_told
def audit_all(text: str) -> Answer:
    """What `audit --all` prints for an input, and its exit status."""
    return Audit(read_bundle(text, VERSIONS)).answer_all()


@refusals_told
def apply(text: str) -> Answer:
    """What `apply` prints for an input, and its exit status."""
    return Audit(read_bundle(text, VERSIONS)).applied()


@refusals_told
def upgrade(text: str, to: str = "2") -> Answer:
    """What `upgrade` prints for an input, and its exit status."""
    return "\n".join(bundle_lines(read_bundle(text, {it for it in FORMATS if it < to}), int(to))), 0


@refusals_told
def position(text: str, own: str, ask: str) -> Answer:
    """What `position` prints for an input, and its exit status."""
    source, asked = read_source(own), read_set(ask)
    journal = read_journal(text)
    purged = journal.previous - asked
    if purged:
        return f"refused E19 purged {purged}", 1
    more = asked.only(source) - journal.whole()
    if more:
        return f"refused E20 has-more {more}", 1
    sent = [str(entry.gtid) for entry in journal.entries if entry.gtid not in asked]
    return "\n".join([f"send {len(sent)}", *sent]), 0
