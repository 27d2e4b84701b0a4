"""Random bundles. Written independently, from docs/FORMATS.md: the bundles that the references are compared on.

A wild bundle has any changes that its tables take, under any GTIDs. A tidy one has histories that apply and share no key, and journals
that are closed, so that most of them are sound; a change or two of a tidy one gives each of the other verdicts.
"""
from __future__ import annotations

from collections.abc import Iterable
from dataclasses import replace
from random import Random

from .formats import Bundle, Channel, Entry, Journal
from .gtids import GREATEST, Gtid, GtidSet, Span
from .rows import Change, Key, Row, RowFault, Rows, Schema, Table, Transaction, Value, keys_of

SOURCES = [
    "aaaaaaaa-aaaa-aaaa-aaaa-aaaaaaaaaaaa",
    "bbbbbbbb-bbbb-bbbb-bbbb-bbbbbbbbbbbb",
    "cccccccc-cccc-cccc-cccc-cccccccccccc",
    "00000000-0000-0000-0000-000000000000",
    "bbbbbbbb-bbbb-bbbb-bbbb-bbbbbbbbbbba",
    "ffffffff-ffff-ffff-ffff-ffffffffffff",
    "01234567-89ab-cdef-0123-456789abcdef",
]
TABLE_NAMES = ["t", "u", "account", "_", "t9", "t10", "_0", "tt", "z" * 64]
CHANNEL_NAMES = ["x", "y", "from_a", "_c", "x1", "preserve", "q" * 64]
WILD_VALUES: list[Value] = [
    *(None, None, 0, 1, 1, 2, -1, 10, -10, 2**63 - 1, -(2**63)),
    *(b"", b"a", b"a", b"b", b"\x00\xff", b"1", b"a" * 22, b"a" * 23, b"0123456789" * 5),
]


class BundleMaker:
    """Makes bundles of one source of chance."""

    def __init__(self, chance: Random) -> None:
        self.chance = chance

    def few(self, most: int) -> int:
        """A number from 0 that is more often small."""
        return min(self.chance.randint(0, most), self.chance.randint(0, most))

    def is_one_in(self, number: int) -> bool:
        """True once in so many calls."""
        return self.chance.randrange(number) == 0

    def subset(self, items: Iterable[Gtid], percent: int) -> list[Gtid]:
        """Some of these."""
        return [it for it in items if self.chance.randrange(100) < percent]

    def tables(self) -> Schema:
        """Some tables."""
        names = self.chance.sample(TABLE_NAMES, self.chance.choice([0, 1, 1, 1, 2, 2, 3, 4]))
        return Schema({name: self.table(name) for name in names})

    def table(self, name: str) -> Table:
        """One table."""
        count = 64 if self.is_one_in(40) else self.chance.randint(1, 4)
        uniques = 8 if self.is_one_in(40) else self.few(3)
        keys = [self.chance.sample(range(count), self.chance.randint(1, min(2, count))) for _ in range(uniques + 1)]
        return Table(name, count, tuple(map(tuple, keys)))

    def image(self, table: Table, tag: int | None) -> Row:
        """An image; with a tag, the keys that it carries are of that tag alone."""
        keyed = {column for columns in table.keys for column in columns}
        row = [
            self.value() if tag is None or column not in keyed or self.is_one_in(8) else self.tagged(tag)
            for column in range(table.columns)
        ]
        if tag is not None:
            row = [None if column in keyed and not self.is_tagged(it, tag) else it for column, it in enumerate(row)]
        for column in table.keys[0]:
            if row[column] is None:
                row[column] = self.tagged(tag or 0)
        return tuple(row)

    def value(self) -> Value:
        """Any value."""
        return self.chance.choice(WILD_VALUES)

    def tagged(self, tag: int) -> Value:
        """A value of a tag."""
        return self.chance.choice([tag * 10, tag * 10 + 1, tag * 10 + 2, bytes([tag]), bytes([tag, 0])])

    def is_tagged(self, value: Value, tag: int) -> bool:
        """Whether a value is one of that tag."""
        return value in (tag * 10, tag * 10 + 1, tag * 10 + 2, bytes([tag]), bytes([tag, 0]))

    def wild_change(self, tables: list[Table]) -> Change:
        """Any change that the tables take."""
        table = self.chance.choice(tables)
        kind = self.chance.choice(["ins", "upd", "upd", "del"])
        before = None if kind == "ins" else self.image(table, None)
        return Change(table.name, before, None if kind == "del" else self.image(table, None))

    def tidy_change(self, rows: Rows, tag: int) -> Change:
        """A change that most likely applies, of keys of that tag."""
        mine = [(key, row) for key, row in rows.carriers.items() if key.index == 0 and self.is_tagged(key.values[0], tag)]
        if mine and not self.is_one_in(3):
            key, row = self.chance.choice(mine)
            after = None if self.is_one_in(3) else self.altered(rows.schema[key.table], row, tag)
            return Change(key.table, row, after)
        table = self.chance.choice(list(rows.schema.values()))
        return Change(table.name, None, self.image(table, tag))

    def altered(self, table: Table, row: Row, tag: int) -> Row:
        """The row with other values in some columns."""
        other = self.image(table, tag)
        return tuple(new if self.is_one_in(2) else old for old, new in zip(row, other))

    def tidy_transaction(self, rows: Rows, tag: int) -> Transaction:
        """A transaction that applies to the rows, and is applied."""
        if rows.schema:
            for _ in range(4):
                trial, changes = rows.copy(), list[Change]()
                try:
                    for _ in range(self.few(4)):
                        changes.append(self.tidy_change(trial, tag))
                        trial.apply((changes[-1],))
                except RowFault:
                    continue
                rows.apply(tuple(changes))
                return tuple(changes)
        return ()

    def wild_transaction(self, tables: list[Table]) -> Transaction:
        """Any transaction that the tables take."""
        return tuple(self.wild_change(tables) for _ in range(self.few(4))) if tables else ()

    def wild_number(self) -> int:
        """Any number of a transaction."""
        return GREATEST - self.few(3) if self.is_one_in(20) else self.chance.randint(1, 9)

    def wild_set(self) -> GtidSet:
        """Any small set."""
        spans = []
        for _ in range(self.few(4)):
            low = self.wild_number()
            spans.append(Span(self.chance.choice(SOURCES), low, min(low + self.few(3), GREATEST)))
        return GtidSet(spans)

    def wild_journal(self, tables: list[Table]) -> Journal:
        """A journal of any entries."""
        previous = self.wild_set() if self.is_one_in(3) else GtidSet()
        seen, entries = previous.copy(), list[Entry]()
        sources = self.chance.sample(SOURCES, self.chance.randint(1, 3))
        for _ in range(self.few(12)):
            gtid = Gtid(self.chance.choice(sources), self.wild_number())
            if gtid not in seen:
                seen.add(gtid)
                entries.append(Entry(gtid, self.wild_transaction(tables)))
        return Journal(previous, entries)

    def channels(self, journals: list[Journal]) -> list[Channel]:
        """A channel for each journal."""
        names = self.chance.sample(CHANNEL_NAMES, len(journals))
        return [Channel(name, self.is_one_in(3), journal) for name, journal in zip(names, journals)]

    def wild_bundle(self) -> Bundle:
        """A bundle of any entries."""
        bundle = Bundle("2", self.chance.choice(SOURCES), self.wild_set() if self.is_one_in(2) else GtidSet(), self.tables())
        tables = list(bundle.schema.values())
        for _ in range(self.few(8) if tables else 0):
            table = self.chance.choice(tables)
            self.try_put(bundle.rows, table, None)
        bundle.channels = self.channels([self.wild_journal(tables) for _ in range(self.few(4))])
        return bundle

    def try_put(self, rows: Rows, table: Table, tag: int | None) -> None:
        """Puts a row in where its keys are free."""
        try:
            rows.put(table.name, self.image(table, tag))
        except RowFault:
            pass

    def tidy_bundle(self, has_opening: bool) -> Bundle:
        """A bundle that is most likely sound; with an opening set that is not empty, most likely, where one is asked for."""
        bundle = Bundle("2", self.chance.choice(SOURCES), GtidSet(), self.tables())
        sources = self.chance.sample(SOURCES, self.chance.randint(1, 3))
        for table in bundle.schema.values():
            for _ in range(self.few(4)):
                self.try_put(bundle.rows, table, self.chance.randint(1, len(sources)))
        contents: dict[Gtid, Transaction] = {}
        for tag, source in enumerate(sources, 1):
            rows, base = bundle.rows.copy(), self.base() if has_opening else 0
            if base:
                bundle.opening = bundle.opening | GtidSet([Span(source, 1, base)])
            for number in range(base + 1, min(base + 1 + self.few(8), GREATEST + 1)):
                contents[Gtid(source, number)] = self.tidy_transaction(rows, tag)
        self.fill_tidy(bundle, contents, has_opening)
        return bundle

    def base(self) -> int:
        """How many numbers of a source are executed from the start, without a content."""
        return self.chance.choice([0, 0, 0, 1, 3, GREATEST - 4])

    def fill_tidy(self, bundle: Bundle, contents: dict[Gtid, Transaction], has_opening: bool) -> None:
        """Makes an opening set, its rows and the journals of some contents."""
        needs = needed(bundle, contents)
        opened = self.closed_part(contents, needs, set(), 40) if has_opening else []
        for gtid in sorted(opened):
            bundle.rows.apply(contents[gtid])
        based = bundle.opening
        bundle.opening = based | GtidSet.of(opened)
        journals = []
        for number in range(self.chance.choice([1, 1, 2, 2, 3])):
            purged = self.purged(based, opened)
            begin = set(opened) if self.is_one_in(2) else set()
            order = self.closed_part(contents, needs, begin | set(opened), 100 if number == 0 else 60)
            extra = [] if begin else [it for it in sorted(opened) if it not in purged and self.is_one_in(2)]
            entries = [Entry(gtid, contents[gtid]) for gtid in [*extra, *order]]
            journals.append(Journal(purged, entries))
        bundle.channels = self.channels(journals)

    def purged(self, based: GtidSet, opened: list[Gtid]) -> GtidSet:
        """A previous set within the opening set."""
        some = GtidSet.of(self.subset(opened, 50))
        return some | based if self.is_one_in(2) else some

    def closed_part(
        self, contents: dict[Gtid, Transaction], needs: dict[Gtid, set[Gtid]], begin: set[Gtid], percent: int
    ) -> list[Gtid]:
        """Some of the GTIDs in an order in which each comes after those that it needs, beyond those that are there."""
        there, order = set(begin), list[Gtid]()
        left = self.subset((it for it in contents if it not in there), percent)
        while left:
            ready = [it for it in left if needs[it] <= there]
            if not ready:
                break
            gtid = ready[0] if self.is_one_in(2) else self.chance.choice(ready)
            left.remove(gtid)
            there.add(gtid)
            order.append(gtid)
        return order

    def bundle(self, has_opening: bool) -> Bundle:
        """A bundle: wild, tidy, or tidy with a fault."""
        if self.is_one_in(3):
            made = self.wild_bundle()
            made.opening = made.opening if has_opening else GtidSet()
            return made
        made = self.tidy_bundle(has_opening)
        if self.is_one_in(2):
            self.spoil(made)
        return made

    def spoil(self, bundle: Bundle) -> None:
        """Makes one change to a bundle that may bring another verdict."""
        journals = [channel.journal for channel in bundle.channels if channel.journal.entries]
        if not journals:
            return
        journal = self.chance.choice(journals)
        at = self.chance.randrange(len(journal.entries))
        entry, tables = journal.entries[at], list(bundle.schema.values())
        match self.chance.randrange(10):
            case 0 | 1:
                del journal.entries[at]
            case 2:
                self.put_in_place(journal, at, replace(entry, changes=self.wild_transaction(tables)))
            case 3:
                self.put_in_place(journal, at, replace(entry, gtid=Gtid(entry.gtid.source, self.wild_number())))
            case 4:
                self.put_in_place(journal, at, replace(entry, gtid=Gtid(self.chance.choice(SOURCES), entry.gtid.number)))
            case 5 | 6:
                journal.entries.insert(self.chance.randrange(len(journal.entries)), journal.entries.pop(at))
            case 7:
                journal.previous = journal.previous | (self.wild_set() - journal.whole())
            case _:
                changes = self.chance.choice(self.chance.choice(journals).entries).changes or self.wild_transaction(tables)
                put_everywhere(journals, Entry(entry.gtid, changes))

    def spoil_sources(self, bundle: Bundle) -> None:
        """Gives a transaction of each source the changes of another one of it, which most likely do not apply there."""
        journals = [channel.journal for channel in bundle.channels]
        entries = [entry for journal in journals for entry in journal.entries]
        for source in sorted({entry.gtid.source for entry in entries}):
            own = [entry for entry in entries if entry.gtid.source == source]
            put_everywhere(journals, Entry(self.chance.choice(own).gtid, self.chance.choice(own).changes))

    def put_in_place(self, journal: Journal, at: int, entry: Entry) -> None:
        """Puts an entry in the place of another one, where its GTID is nowhere else."""
        others = Journal(journal.previous, [*journal.entries[:at], *journal.entries[at + 1 :]])
        if entry.gtid not in others.whole():
            journal.entries[at] = entry


def put_everywhere(journals: list[Journal], entry: Entry) -> None:
    """Puts an entry in the place of each one of its GTID."""
    for journal in journals:
        journal.entries = [entry if it.gtid == entry.gtid else it for it in journal.entries]


def needed(bundle: Bundle, contents: dict[Gtid, Transaction]) -> dict[Gtid, set[Gtid]]:
    """The smaller numbers of its source that each GTID shares a key with."""
    touchers: dict[tuple[str, Key], set[Gtid]] = {}
    found = {}
    for gtid in sorted(contents):
        keys = [(gtid.source, key) for key in keys_of(bundle.schema, contents[gtid])]
        found[gtid] = set[Gtid]().union(*(touchers.get(key, ()) for key in keys))
        for key in keys:
            touchers.setdefault(key, set()).add(gtid)
    return found
