"""A replica: one event, one reply, one new state. Written independently, from docs/SCRIPTS.md and compared with the proved programs.

An event that would make a set of too many sources raises SourcesFull, and has changed nothing then.
"""
from __future__ import annotations

from collections import deque
from collections.abc import Iterator
from dataclasses import dataclass, field

from .formats import MOST_CHANNELS, Entry, Journal, journal_lines
from .gtids import Gtid, GtidSet, SourcesFull
from .rows import Key, RowFault, Rows, Schema, Transaction, keys_of, misfit

MOST_SEATS = 64


@dataclass(frozen=True)
class Reply:
    """What an event is answered: its name, and what it names."""

    name: str
    what: object = None

    def __str__(self) -> str:
        return self.name if self.what is None else f"{self.name}({self.what})"


NO_CHANNEL = Reply("NoChannel")
NO_SEAT = Reply("NoSeat")
SEAT_IDLE = Reply("SeatIdle")
NOT_POSITIONED = Reply("NotPositioned")


@dataclass
class Channel:
    """A channel: what it has received, with places from 0, and which places touch each key, ascending."""

    name: str
    preserve: bool
    is_stopped: bool = False
    last_ask: GtidSet | None = None
    entries: list[Entry] = field(default_factory=list)
    keys: list[list[Key]] = field(default_factory=list)
    received: GtidSet = field(default_factory=GtidSet)
    touchers: dict[Key, deque[int]] = field(default_factory=dict)
    first_open: int = 0

    def receive(self, schema: Schema, entry: Entry) -> int:
        """Puts an entry at the next place."""
        place = len(self.entries)
        self.entries.append(entry)
        self.keys.append(keys_of(schema, entry.changes))
        self.received.add(entry.gtid)
        for key in self.keys[place]:
            self.touchers.setdefault(key, deque()).append(place)
        return place

    def blocker(self, place: int, executed: GtidSet) -> int | None:
        """The least earlier place that shares a key and whose GTID is not executed."""
        found = []
        for key in self.keys[place]:
            waiting = self.touchers[key]
            while waiting and self.entries[waiting[0]].gtid in executed:
                waiting.popleft()
            if waiting and waiting[0] < place:
                found.append(waiting[0])
        return min(found, default=None)

    def first_not_executed(self, executed: GtidSet) -> int:
        """The least place whose GTID is not executed, or the number of places."""
        while self.first_open < len(self.entries) and self.entries[self.first_open].gtid in executed:
            self.first_open += 1
        return self.first_open


@dataclass(frozen=True)
class Seat:
    """What a seat works on."""

    channel: int
    place: int


class Replica:
    """The state of a replica, its events and its queries."""

    def __init__(self, own: str, rows: Rows, opening: GtidSet) -> None:
        self.own, self.rows = own, rows.copy()
        self.executed = opening.copy()
        self.journal = Journal(opening.copy())
        self.channels: list[Channel] = []
        self.seats: dict[int, Seat] = {}

    def open_channel(self, name: str, preserve: bool) -> Reply:
        """Opens a channel."""
        if any(channel.name == name for channel in self.channels):
            return Reply("NameTaken")
        if len(self.channels) == MOST_CHANNELS:
            return Reply("ChannelsFull")
        self.channels.append(Channel(name, preserve))
        return Reply("Opened", len(self.channels) - 1)

    def position(self, c: int) -> Reply:
        """Takes the set with which a channel asks its source."""
        asked = self.ask(c)
        if asked is None:
            return NO_CHANNEL
        self.channels[c].last_ask = asked
        return Reply("Ask", asked.word())

    def receive(self, c: int, gtid: Gtid, changes: Transaction) -> Reply:
        """Receives an entry on a channel."""
        if not self.has_channel(c):
            return NO_CHANNEL
        channel = self.channels[c]
        if channel.last_ask is None:
            return NOT_POSITIONED
        refused = self.refused_by_schema(changes)
        if refused:
            return refused
        if not channel.received.has_room(gtid.source):
            raise SourcesFull
        return Reply("Received", channel.receive(self.rows.schema, Entry(gtid, changes)))

    def take(self, seat: int, c: int, place: int) -> Reply:
        """A seat takes a place."""
        if not is_seat(seat):
            return NO_SEAT
        if seat in self.seats:
            return Reply("SeatBusy", self.owned_by(seat))
        if not self.has_channel(c):
            return NO_CHANNEL
        channel = self.channels[c]
        if place >= len(channel.entries):
            return Reply("NoPlace")
        if channel.is_stopped:
            return Reply("Stopped")
        gtid = channel.entries[place].gtid
        if gtid in self.executed:
            return Reply("Done", gtid)
        owner = self.owned().get(gtid)
        if owner is not None:
            return Reply("OwnedBy", owner)
        blocker = channel.blocker(place, self.executed)
        if blocker is not None:
            return Reply("Blocked", blocker)
        self.seats[seat] = Seat(c, place)
        return Reply("Taken", gtid)

    def commit(self, seat: int) -> Reply:
        """A seat commits what it owns."""
        if not is_seat(seat):
            return NO_SEAT
        if seat not in self.seats:
            return SEAT_IDLE
        channel, place = self.channels[self.seats[seat].channel], self.seats[seat].place
        if channel.preserve and channel.first_not_executed(self.executed) < place:
            return Reply("Early", channel.first_not_executed(self.executed))
        entry = channel.entries[place]
        try:
            reply = self.committed(entry)
        except RowFault as fault:
            channel.is_stopped = True
            reply = Reply("RowRefused", f"{entry.gtid} {fault.text()}")
        del self.seats[seat]
        return reply

    def committed(self, entry: Entry) -> Reply:
        """The changes of an entry are made; it is executed, and is at the end of the own journal.

        Which comes first, a full set or the rows' refusal, docs/SCRIPTS.md leaves open: here it is the set.
        """
        if not self.executed.has_room(entry.gtid.source):
            raise SourcesFull
        self.rows.apply(entry.changes)
        self.executed.add(entry.gtid)
        self.journal.entries.append(entry)
        return Reply("Committed", entry.gtid)

    def rollback(self, seat: int) -> Reply:
        """A seat lets go of what it owns."""
        if not is_seat(seat):
            return NO_SEAT
        if seat not in self.seats:
            return SEAT_IDLE
        gtid = self.owned_by(seat)
        del self.seats[seat]
        return Reply("RolledBack", gtid)

    def restart(self, c: int) -> Reply:
        """A channel runs again."""
        if not self.has_channel(c):
            return NO_CHANNEL
        self.channels[c].is_stopped = False
        return Reply("Restarted")

    def local(self, changes: Transaction) -> Reply:
        """A transaction of the replica's own."""
        refused = self.refused_by_schema(changes)
        if refused:
            return refused
        owned = (gtid.number for gtid in self.owned() if gtid.source == self.own)
        number = self.executed.least_number_outside(self.own, owned)
        if number is None:
            return Reply("NumbersUsedUp")
        try:
            return self.committed(Entry(Gtid(self.own, number), changes))
        except RowFault as fault:
            return Reply("Refused", fault.text())

    def purge(self, k: int) -> Reply:
        """The first k entries of the own journal go into its previous set."""
        entries = self.journal.entries
        if k > len(entries):
            return Reply("TooMany", len(entries))
        previous = self.journal.previous | GtidSet.of(entry.gtid for entry in entries[:k])
        self.journal = Journal(previous, entries[k:])
        return Reply("Purged", previous.word())

    def look(self) -> Reply:
        """Shows the executed set."""
        return Reply("Shown", self.executed.word())

    def has_channel(self, c: int) -> bool:
        """Whether there is a channel of this number."""
        return c < len(self.channels)

    def refused_by_schema(self, changes: Transaction) -> Reply | None:
        """The reply where the schema does not take a transaction."""
        found = misfit(self.rows.schema, changes)
        return found and Reply("NotInSchema", f"{found[0]} {found[1].value}")

    def owned_by(self, seat: int) -> Gtid:
        """The GTID that a busy seat owns: that of its place."""
        it = self.seats[seat]
        return self.channels[it.channel].entries[it.place].gtid

    def owned(self) -> dict[Gtid, int]:
        """The seat of each GTID that is owned."""
        return {self.owned_by(seat): seat for seat in self.seats}

    def ask(self, c: int) -> GtidSet | None:
        """The set that Position would answer now."""
        if not self.has_channel(c):
            return None
        asked = self.executed | self.channels[c].received
        if asked.is_full():
            raise SourcesFull
        return asked

    def next_ready(self, c: int, start: int) -> int | None:
        """The least place from there that a seat may take."""
        if not self.has_channel(c):
            return None
        channel, owned = self.channels[c], self.owned()
        for place in range(max(start, channel.first_not_executed(self.executed)), len(channel.entries)):
            gtid = channel.entries[place].gtid
            if gtid not in self.executed and gtid not in owned and channel.blocker(place, self.executed) is None:
                return place
        return None

    def entry_line(self, c: int, place: int) -> str:
        """What is at a place."""
        if not self.has_channel(c) or place >= len(self.channels[c].entries):
            return "none"
        entry = self.channels[c].entries[place]
        return f"{entry.gtid} " + ("gone" if entry.gtid in self.executed else str(len(entry.changes)))

    def is_drained(self) -> bool:
        """Whether every received GTID is executed."""
        return all(channel.received <= self.executed for channel in self.channels)

    def journal_lines(self, version: str) -> Iterator[str]:
        """The lines of the own journal, by this version."""
        return journal_lines(self.journal, self.rows.schema, version)

    def status_lines(self) -> Iterator[str]:
        """The lines of a status."""
        owned = ",".join(f"{gtid}#{seat}" for gtid, seat in sorted(self.owned().items()))
        yield f"gtid_executed {self.executed.word()}"
        yield f"gtid_purged {self.journal.previous.word()}"
        yield f"gtid_owned {owned or '-'}"
        for channel in self.channels:
            state = "stopped" if channel.is_stopped else "running"
            yield f"channel {channel.name} {state} {channel.received.word()}"


def is_seat(seat: int) -> bool:
    """Whether there is a seat of this number."""
    return 1 <= seat <= MOST_SEATS
