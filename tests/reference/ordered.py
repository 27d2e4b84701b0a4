"""What an audit of journals in one order answers, and by all orders whether there is one. Written independently, from
docs/FORMATS.md.

`OrderedAudit` takes the definitions by pairs literally. `orders` knows none of them: of a few transactions it tries every order, and
`is_borne_out` holds a verdict against what comes of them. `Failovers` makes small bundles in which servers write the same keys, and usually
know of each other's transactions.
"""
from __future__ import annotations

from collections.abc import Iterable, Iterator
from itertools import permutations
from random import Random

from .audit import Answer, Audit, refusals_told
from .formats import VERSIONS, Bundle, Channel, Entry, Journal, read_bundle
from .gtids import Gtid, GtidSet, Span
from .rows import Change, Key, RowFault, Rows, Table, Transaction


class OrderedAudit(Audit):
    """The journals of a bundle as one world of one order: each journal in turn, what it has beyond the earlier ones."""

    def __init__(self, bundle: Bundle) -> None:
        super().__init__(bundle)
        self.order = list(self.contents)
        self.histories: list[list[Gtid]] = [[] for _ in bundle.channels]
        for number, entry in self.entries():
            self.histories[number].append(entry.gtid)

    def conflict(self) -> str | None:
        """The first entry, by journals, entries and keys, that is not the next of its key, with the pair that it is one of."""
        for history in self.histories:
            for place, gtid in enumerate(history):
                before = set(history[:place])
                for key in self.keys[gtid]:
                    following = next(it for it in self.order if key in self.keys[it] and it not in before)
                    if following != gtid:
                        return self.pair_line(history, following, gtid, key)
        return None

    def pair_line(self, history: list[Gtid], first: Gtid, second: Gtid, key: Key) -> str:
        """What is wrong with a pair: a history has the second without the first before it."""
        bringer = next(it for it in self.histories if first in it)
        if second in bringer:
            return f"reordered {first} {second} {key.text()}" if first in history else f"not-closed {second} {first}"
        return f"not-closed {first} {second}" if first in history else f"concurrent {first} {second} {key.text()}"

    def does_not_apply(self) -> str | None:
        """The first transaction that fails when the order is applied as a whole."""
        rows = self.bundle.rows.copy()
        for gtid in self.order:
            try:
                rows.apply(self.contents[gtid])
            except RowFault as fault:
                return f"does-not-apply {gtid} {fault.text()}"
        return None

    def rows_of_all(self) -> Rows:
        """The rows of all transactions, where the verdict is `sound`."""
        rows = self.bundle.rows.copy()
        for gtid in self.order:
            rows.apply(self.contents[gtid])
        return rows


@refusals_told
def audit_ordered(text: str) -> Answer:
    """What `audit --ordered` prints for an input, and its exit status."""
    return OrderedAudit(read_bundle(text, VERSIONS)).answer()


@refusals_told
def apply_ordered(text: str) -> Answer:
    """What `apply --ordered` prints for an input, and its exit status."""
    return OrderedAudit(read_bundle(text, VERSIONS)).applied()


# ---- by all orders


def conflicts(audit: OrderedAudit) -> list[tuple[Gtid, Gtid]]:
    """The pairs of transactions that share a key, each both ways."""
    pairs = ((one, other) for one in audit.gtids for other in audit.gtids if one != other)
    return [(one, other) for one, other in pairs if set(audit.keys[one]) & set(audit.keys[other])]


def orders(audit: OrderedAudit) -> Iterator[tuple[Gtid, ...]]:
    """Every order of the transactions that all histories extend: a history has, before each of its own, all that stands before it in the
    order and shares a key with it."""
    pairs = conflicts(audit)
    places = [{gtid: place for place, gtid in enumerate(history)} for history in audit.histories]
    allowed = {
        (first, second): all(second not in its or its.get(first, len(its)) < its[second] for its in places) for first, second in pairs
    }
    for order in permutations(audit.gtids):
        at = {gtid: place for place, gtid in enumerate(order)}
        if all(allowed[pair] for pair in pairs if at[pair[0]] < at[pair[1]]):
            yield order


def outcome(audit: OrderedAudit, order: Iterable[Gtid]) -> list[str] | None:
    """The rows that an order leaves; None where a transaction of it fails."""
    rows = audit.bundle.rows.copy()
    try:
        for gtid in order:
            rows.apply(audit.contents[gtid])
    except RowFault:
        return None
    return rows.lines()


def is_borne_out(audit: OrderedAudit, verdict: str) -> bool:
    """Whether all orders of few transactions bear a verdict out: `sound` and `does-not-apply` where there are orders, which agree on it and
    on the rows; a verdict on a pair where there is none, and two journals have the pair as the verdict reports it."""
    if len(audit.gtids) > MOST_IN_ALL_ORDERS:
        return True
    found = [outcome(audit, order) for order in orders(audit)]
    match verdict.split(" ")[0]:
        case "sound" if audit.bundle.rows_line:
            return bool(found)
        case "sound":
            rows = audit.rows_of_all().lines()
            return bool(found) and all(it == rows for it in found)
        case "does-not-apply":
            return bool(found) and all(it is None for it in found)
        case "reordered" | "not-closed" | "concurrent":
            return not found and stands(audit, verdict)
        case _:
            return True


def stands(audit: OrderedAudit, line: str) -> bool:
    """Whether two journals have a pair as a line reports it."""
    word, *names = line.split(" ")
    first, second = (next(it for it in audit.gtids if str(it) == name) for name in names[:2])
    if not set(audit.keys[first]) & set(audit.keys[second]):
        return False

    def comes_first(history: list[Gtid], one: Gtid, other: Gtid) -> bool:
        return one in history and other in history and history.index(one) < history.index(other)

    pairs = [(a, b) for a in audit.histories for b in audit.histories]
    if word == "reordered":
        return any(comes_first(a, first, second) and comes_first(b, second, first) for a, b in pairs)
    if word == "not-closed":
        return any(comes_first(a, second, first) and first in b and second not in b for a, b in pairs)
    alone = [a for a in audit.histories if first in a and second not in a], [b for b in audit.histories if second in b and first not in b]
    return bool(alone[0] and alone[1])


# ---- small bundles of several writers

FEW_SOURCES = ["aaaaaaaa-aaaa-aaaa-aaaa-aaaaaaaaaaaa", "bbbbbbbb-bbbb-bbbb-bbbb-bbbbbbbbbbbb", "cccccccc-cccc-cccc-cccc-cccccccccccc"]
FEW_TABLES = [Table("t", 2, keys) for keys in [((0,),), ((0,), (1,)), ((0,), (1,)), ((0,), (1, 0), (1,))]]
MOST_TRANSACTIONS = 6
MOST_IN_ALL_ORDERS = 5


class Failovers:
    """Makes small bundles of one source of chance: servers that write rows of one table, and copy from each other."""

    def __init__(self, chance: Random) -> None:
        self.chance = chance

    def changes(self, rows: Rows, table: Table) -> Transaction:
        """A transaction of one or two changes that applies to a server's rows, or one that may not."""
        trial, made = rows.copy(), list[Change]()
        for _ in range(self.chance.choice([1, 1, 2])):
            stored = [row for key, row in trial.carriers.items() if key.index == 0]
            after = (self.chance.randint(1, 3), self.chance.choice([None, 1, 2]))
            before = self.chance.choice(stored) if stored and self.chance.randrange(3) else None
            change = Change(table.name, before, None if before and not self.chance.randrange(4) else after)
            try:
                trial.apply((change,))
            except RowFault:
                if self.chance.randrange(8):
                    continue
            made.append(change)
        return tuple(made)

    def bundle(self) -> Bundle:
        """A bundle of two or three journals, as servers leave them that write in turn or apart."""
        bundle = Bundle("2", "dddddddd-dddd-dddd-dddd-dddddddddddd")
        table = self.chance.choice(FEW_TABLES)
        bundle.schema[table.name] = table
        count = self.chance.randint(2, 3)
        numbers = self.open(bundle, table, count)
        journals = [Journal(self.part(bundle.opening)) for _ in range(count)]
        rows = [bundle.rows.copy() for _ in range(count)]
        for _ in range(self.chance.randint(1, MOST_TRANSACTIONS)):
            writer = self.chance.randrange(count)
            for other in range(count):
                if other != writer and self.chance.randrange(3):
                    self.copy(journals[other], journals[writer], rows[writer])
            numbers[writer] += 1
            entry = Entry(Gtid(FEW_SOURCES[writer], numbers[writer]), self.changes(rows[writer], table))
            self.put(journals[writer], rows[writer], entry)
        if not self.chance.randrange(3):
            self.spoil(journals, rows[0], table)
        self.chance.shuffle(journals)
        bundle.channels = [Channel(name, not self.chance.randrange(3), journal) for name, journal in zip("xyz", journals)]
        return bundle

    def open(self, bundle: Bundle, table: Table, count: int) -> list[int]:
        """Opens a bundle with a row or two, and perhaps with executed transactions; the last number of each source."""
        for change in self.changes(bundle.rows, table) if self.chance.randrange(2) else ():
            try:
                bundle.rows.apply((change,))
            except RowFault:
                pass
        numbers = [0 if self.chance.randrange(4) else self.chance.randint(1, 3) for _ in range(count)]
        bundle.opening = GtidSet(Span(source, 1, last) for source, last in zip(FEW_SOURCES, numbers) if last)
        return numbers

    def part(self, gtids: GtidSet) -> GtidSet:
        """Some of a set's spans."""
        return GtidSet(span for span in gtids.spans() if self.chance.randrange(2))

    def put(self, journal: Journal, rows: Rows, entry: Entry) -> None:
        """An entry is added to a journal, and to the server's rows where it applies."""
        journal.entries.append(entry)
        try:
            rows.apply(entry.changes)
        except RowFault:
            pass

    def copy(self, source: Journal, target: Journal, rows: Rows) -> None:
        """A server copies what it lacks from another; now and then in another order, or not all."""
        lacking = [it for it in source.entries if it.gtid not in target.whole()]
        if not self.chance.randrange(6):
            self.chance.shuffle(lacking)
        if not self.chance.randrange(4):
            lacking = lacking[: self.chance.randint(0, len(lacking))]
        for entry in lacking:
            self.put(target, rows, entry)

    def spoil(self, journals: list[Journal], rows: Rows, table: Table) -> None:
        """Takes an entry out of a journal or moves one, or gives it other changes or another number; or purges a journal further."""
        journal = self.chance.choice(journals)
        if not journal.entries:
            return
        at = self.chance.randrange(len(journal.entries))
        entry = journal.entries.pop(at)
        match self.chance.randrange(8):
            case 0 | 1 | 2:
                journal.entries.insert(self.chance.randint(0, len(journal.entries)), entry)
            case 3:
                journal.entries.insert(at, Entry(entry.gtid, self.changes(rows, table)))
            case 4:
                journal.entries.insert(at, Entry(Gtid(entry.gtid.source, entry.gtid.number + 7), entry.changes))
            case 5:
                journal.previous = journal.previous | GtidSet.of([entry.gtid])
            case _:
                pass
