"""The readers and writers of journals and bundles. Written independently, from docs/FORMATS.md and compared with the proved
programs."""
from __future__ import annotations

from collections.abc import Callable, Iterator
from dataclasses import dataclass, field
from functools import partial

from .gtids import UUID_FORM, Gtid, GtidSet, SourcesFull, gtid_in, set_in
from .rows import Change, Key, RowFault, Rows, Schema, Transaction, keys_of
from .versions import ASSUMPTIONS, COUNT_FORM, FORMATS, VERSION_3, VERSIONS, Format
from .words import Cause, LineFault, ask, ask_limits, change_in, place_in, reference_in, table_in

MOST_CHANNELS = 256


class VersionFault(Exception):
    """A version that is not known."""


class Twice(Exception):
    """A GTID that occurred before."""

    def __init__(self, gtid: Gtid) -> None:
        super().__init__(gtid)
        self.gtid = gtid


class Refused(Exception):
    """The printed line of a refusal."""

    def __init__(self, line: str) -> None:
        super().__init__(line)
        self.line = line


@dataclass(frozen=True)
class Entry:
    """A transaction with its GTID, and what its `place` line says, if there is one."""

    gtid: Gtid
    changes: Transaction
    place: str = ""


@dataclass
class Journal:
    """A previous set, and entries."""

    previous: GtidSet
    entries: list[Entry] = field(default_factory=list)

    def whole(self) -> GtidSet:
        """All GTIDs that it has a record of."""
        return self.previous | GtidSet.of(entry.gtid for entry in self.entries)


@dataclass
class Channel:
    """A channel of a bundle, with the journal of its source."""

    name: str
    preserve: bool
    journal: Journal


@dataclass
class Bundle:
    """The value of a bundle's text; `rows_line` is the number of its line `assume rows`, or 0."""

    version: str = "2"
    replica: str = ""
    opening: GtidSet = field(default_factory=GtidSet)
    schema: Schema = field(default_factory=Schema)
    rows: Rows = field(init=False)
    references: list[str] = field(default_factory=list)
    channels: list[Channel] = field(default_factory=list)
    assumptions: list[str] = field(default_factory=list)
    rows_line: int = 0

    def __post_init__(self) -> None:
        self.rows = Rows(self.schema)

    def assumed(self) -> list[str]:
        """What its verdict rests on: its assumptions, and `references` where it has `fk` lines."""
        implied = {"references"} if self.references else set[str]()
        return sorted({*self.assumptions} | implied, key=assumption_order)


def assumption_order(assumption: str) -> tuple[int, str]:
    """The order of assumptions: by their words, and within one word by the bytes of what follows."""
    word, _, rest = assumption.partition(" ")
    return ASSUMPTIONS.index(word), rest


def put_row(body: str | None, rows: Rows, form: Format) -> None:
    """Puts the row of a `row` line in."""
    change = change_in("ins", body, form)
    image = change.after or ()
    ask_limits(image, form)
    ask(change.misfit(rows.schema) is None, Cause.SCHEMA)
    try:
        rows.put(change.table, image)
    except RowFault:
        raise LineFault(Cause.SCHEMA) from None


class LastTouch:
    """Which entry of a journal touched each key last: the last_committed of entries."""

    def __init__(self, schema: Schema) -> None:
        self.schema, self.last, self.number = schema, dict[Key, int](), 0

    def take(self, changes: Transaction) -> int:
        """The last_committed of the next entry."""
        keys = keys_of(self.schema, changes)
        found = max((self.last.get(key, 0) for key in keys), default=0)
        self.number += 1
        self.last.update(dict.fromkeys(keys, self.number))
        return found


class JournalDraft:
    """A journal whose lines come one by one; with a schema where it is in a bundle."""

    def __init__(self, versions: set[str], schema: Schema | None) -> None:
        self.versions, self.schema = versions, schema
        self.form = FORMATS["1"]
        self.journal = Journal(GtidSet())
        self.seen = GtidSet()
        self.touch = LastTouch(Schema() if schema is None else schema)
        self.gtid, self.committed, self.changes, self.place = Gtid("", 0), 0, list[Change](), ""
        self.is_closed, self.line = False, 0
        self.due: dict[str, Callable[[str | None], None]] = {"journal": self.take_journal}

    def take_journal(self, body: str | None) -> None:
        """Takes a `journal` line."""
        self.form = FORMATS[version_in(body, self.versions)]
        self.due = {"previous": self.take_previous}

    def take_previous(self, body: str | None) -> None:
        """Takes a `previous` line."""
        self.journal = Journal(given_set(body))
        self.seen = self.journal.previous.copy()
        self.due = self.lines_of_entries()

    def lines_of_entries(self) -> dict[str, Callable[[str | None], None]]:
        """The lines that may come where an entry or the end may."""
        places = {"place": self.take_place} if self.form.has_places else {}
        return {**places, "txn": self.take_txn, "close": self.take_close}

    def take_place(self, body: str | None) -> None:
        """Takes a `place` line."""
        self.place = place_in(body)
        self.due = {"txn": self.take_txn}

    def take_txn(self, body: str | None) -> None:
        """Takes a `txn` line."""
        words = (body or "").split(" ")
        gtid = gtid_in(words[0])
        ask(gtid and len(words) == (3 if self.form.has_stamps else 1) and all(map(COUNT_FORM.fullmatch, words[1:])))
        assert gtid is not None
        self.committed = 0
        if self.form.has_stamps:
            place = len(self.journal.entries) + 1
            self.committed = min(int(words[1][:20]), 2**64)
            ask(words[2] == str(place) and self.committed < place, Cause.STAMP)
        if gtid in self.seen:
            raise Twice(gtid)
        self.gtid, self.changes = gtid, []
        changes = {word: partial(self.take_change, word) for word in ("ins", "upd", "del")}
        self.due = {**changes, "end": self.take_end}

    def take_change(self, word: str, body: str | None) -> None:
        """Takes a change line."""
        change = change_in(word, body, self.form)
        ask(len(self.changes) < self.form.changes, Cause.LIMIT)
        for image in change.images():
            ask_limits(image, self.form)
        ask(self.schema is None or change.misfit(self.schema) is None, Cause.SCHEMA)
        self.changes.append(change)

    def take_end(self, body: str | None) -> None:
        """Takes an `end` line."""
        ask(body is None)
        entry = Entry(self.gtid, tuple(self.changes), self.place)
        if self.schema is not None:
            committed = self.touch.take(entry.changes)
            ask(not self.form.has_stamps or committed == self.committed, Cause.STAMP)
        self.seen.add(entry.gtid)
        if self.seen.is_full():
            raise SourcesFull
        self.journal.entries.append(entry)
        self.place, self.due = "", self.lines_of_entries()

    def take_close(self, body: str | None) -> None:
        """Takes a `close` line."""
        ask(body is None)
        self.is_closed, self.due = True, {}


def version_in(body: str | None, known: set[str]) -> str:
    """The version of a `journal` or `bundle` line."""
    ask(body is not None and COUNT_FORM.fullmatch(body))
    if body not in known:
        raise VersionFault
    return body


def given_set(body: str | None) -> GtidSet:
    """The set of a line."""
    found = set_in(body or "")
    ask(found is not None)
    assert found is not None
    return found


class BundleDraft:
    """A bundle whose lines come one by one."""

    def __init__(self, versions: set[str]) -> None:
        self.versions, self.form = versions, FORMATS["1"]
        self.bundle = Bundle()
        self.line = 0
        self.draft: JournalDraft | None = None
        self.channel = ("", False)
        self.is_closed = False
        self.own: dict[str, Callable[[str | None], None]] = {"bundle": self.take_bundle}

    @property
    def due(self) -> dict[str, Callable[[str | None], None]]:
        """What each word that is due takes."""
        return self.draft.due if self.draft else self.own

    def take_bundle(self, body: str | None) -> None:
        """Takes a `bundle` line."""
        self.form = FORMATS[version_in(body, self.versions)]
        self.bundle.version, self.bundle.schema.most_bytes = self.form.version, self.form.most_bytes
        self.own = {"replica": self.take_replica}

    def take_replica(self, body: str | None) -> None:
        """Takes a `replica` line."""
        ask(UUID_FORM.fullmatch(body or ""))
        self.bundle.replica = body or ""
        self.own = {"opening": self.take_opening} if self.form.has_opening else self.declarations()

    def take_opening(self, body: str | None) -> None:
        """Takes an `opening` line."""
        self.bundle.opening = given_set(body)
        self.own = self.declarations()

    def declarations(self) -> dict[str, Callable[[str | None], None]]:
        """The lines that may come first."""
        return {"table": self.take_table, **self.lines_after_tables()}

    def lines_after_tables(self) -> dict[str, Callable[[str | None], None]]:
        """The lines that may come after the tables."""
        references = {"fk": self.take_reference} if self.form.references else {}
        return {**references, **self.lines_after_references()}

    def lines_after_references(self) -> dict[str, Callable[[str | None], None]]:
        """The lines that may come after the references."""
        return {"row": self.take_row, **self.lines_after_rows()}

    def lines_after_rows(self) -> dict[str, Callable[[str | None], None]]:
        """The lines that may come after the rows."""
        return {"channel": self.take_channel, **self.lines_after_channels()}

    def lines_after_channels(self) -> dict[str, Callable[[str | None], None]]:
        """The lines that may come after the channels."""
        assumptions = {"assume": self.take_assumption} if self.form.assumptions else {}
        return {**assumptions, "done": self.take_done}

    def take_table(self, body: str | None) -> None:
        """Takes a `table` line."""
        table = table_in(body, self.bundle.schema, self.form)
        self.bundle.schema[table.name] = table

    def take_reference(self, body: str | None) -> None:
        """Takes an `fk` line."""
        self.bundle.references.append(reference_in(body, self.bundle.schema, len(self.bundle.references)))
        self.own = self.lines_after_tables()

    def take_row(self, body: str | None) -> None:
        """Takes a `row` line."""
        put_row(body, self.bundle.rows, self.form)
        self.own = self.lines_after_references()

    def take_channel(self, body: str | None) -> None:
        """Takes a `channel` line."""
        name, *more = (body or "").split(" ")
        ask(self.form.is_name(name) and more in ([], ["preserve"]))
        ask(len(self.bundle.channels) < MOST_CHANNELS, Cause.LIMIT)
        ask(all(name != channel.name for channel in self.bundle.channels), Cause.SCHEMA)
        self.channel = (name, bool(more))
        self.draft = JournalDraft({self.form.version}, self.bundle.schema)

    def take_assumption(self, body: str | None) -> None:
        """Takes an `assume` line."""
        word, *words = (body or "").split(" ")
        ask(word in self.form.assumed)
        ask(len(words) == {"opening": 2, "statements": 2, "references": 0, "rows": 0}.get(word, 1))
        ask(all(map(VERSION_3.is_name, words[:1])))
        gtids = given_set(words[1]) if words[1:] else GtidSet()
        ask(not words[1:] or bool(gtids))
        earlier = self.bundle.assumptions
        ask(not earlier or assumption_order(earlier[-1]) < assumption_order(body or ""))
        # (a channel has one line of each word)
        ask(not words[1:] or not any(it.startswith(f"{word} {words[0]} ") for it in earlier[-1:]))
        ask(len(earlier) < self.form.assumptions, Cause.LIMIT)
        self.ask_names(word, words, gtids)
        self.bundle.rows_line = self.line if word == "rows" else 0
        earlier.append(body or "")
        self.own = self.lines_after_channels()

    def ask_names(self, word: str, words: list[str], gtids: GtidSet) -> None:
        """What an assumption names is there, or isn't."""
        if word == "ignored":
            ask(words[0] not in self.bundle.schema, Cause.SCHEMA)
        elif words:
            journal = next((it.journal for it in self.bundle.channels if it.name == words[0]), None)
            ask(journal, Cause.SCHEMA)
            assert journal is not None
            ask(word != "statements" or not gtids - GtidSet.of(it.gtid for it in journal.entries), Cause.SCHEMA)
            ask(word != "opening" or not gtids - self.bundle.opening, Cause.SCHEMA)
        elif word == "rows":
            ask(not self.bundle.rows.carriers, Cause.SCHEMA)

    def take_done(self, body: str | None) -> None:
        """Takes a `done` line."""
        ask(body is None)
        self.is_closed, self.own = True, {}

    def after_line(self) -> None:
        """Puts a journal that is closed to its channel."""
        if self.draft and self.draft.is_closed:
            self.bundle.channels.append(Channel(*self.channel, self.draft.journal))
            self.draft, self.own = None, self.lines_after_rows()


def take_line(draft: JournalDraft | BundleDraft, line: str) -> None:
    """Judges one line and takes it."""
    word, blank, body = line.partition(" ")
    ask(word in draft.due, Cause.KEYWORD)
    draft.due[word](body if blank else None)
    if isinstance(draft, BundleDraft):
        draft.after_line()


def take_text(draft: JournalDraft | BundleDraft, text: str) -> None:
    """Takes all lines of a text; raises Refused with the line of the first refusal."""
    *lines, rest = text.split("\n")
    number = 0
    try:
        for number, line in enumerate(lines, 1):
            draft.line = number
            take_line(draft, line)
        number = len(lines) + 1
        ask(not (draft.is_closed and rest), Cause.KEYWORD)
    except LineFault as fault:
        raise Refused(f"refused E14 line {number} {fault.cause.value}") from None
    except VersionFault:
        raise Refused(f"refused E17 version at line {number}") from None
    except Twice as fault:
        raise Refused(f"refused E16 twice {fault.gtid}") from None
    except SourcesFull:
        raise Refused("refused E9 sources-full") from None
    if not draft.is_closed:
        raise Refused(f"refused E15 truncated at line {number}")


def read_bundle(text: str, versions: set[str]) -> Bundle:
    """The bundle of a text whose characters are bytes."""
    draft = BundleDraft(versions)
    take_text(draft, text)
    return draft.bundle


def read_journal(text: str) -> Journal:
    """The journal of a text that has no other."""
    draft = JournalDraft(VERSIONS, None)
    take_text(draft, text)
    return draft.journal


def journal_lines(journal: Journal, schema: Schema | None = None, version: str = "") -> Iterator[str]:
    """The lines of a journal: by version 1 where no schema is given, else by version 2 unless another one is."""
    form = FORMATS[version or ("1" if schema is None else "2")]
    touch = LastTouch(Schema() if schema is None else schema)
    yield f"journal {form.version}"
    yield f"previous {journal.previous.word()}"
    for number, entry in enumerate(journal.entries, 1):
        if form.has_places and entry.place:
            yield f"place {entry.place}"
        yield f"txn {entry.gtid}" + (f" {touch.take(entry.changes)} {number}" if form.has_stamps else "")
        yield from (change.line() for change in entry.changes)
        yield "end"
    yield "close"


def bundle_lines(bundle: Bundle, version: int) -> Iterator[str]:
    """The lines of a bundle by this version; its rows whole, in the order of `apply`."""
    form = FORMATS[str(version)]
    yield f"bundle {version}"
    yield f"replica {bundle.replica}"
    if form.has_opening:
        yield f"opening {bundle.opening.word()}"
    yield from (table.line() for table in bundle.schema.values())
    yield from (f"fk {it}" for it in bundle.references)
    yield from bundle.rows.lines(is_whole=True)
    for channel in bundle.channels:
        yield f"channel {channel.name}" + (" preserve" if channel.preserve else "")
        yield from journal_lines(channel.journal, bundle.schema if form.has_stamps else None, form.version)
    yield from (f"assume {it}" for it in bundle.assumptions)
    yield "done"
