"""Random scripts, of one replica and of networks, by version 1 and version 3 of the formats. Written independently, from docs/SCRIPTS.md:
the scripts that the programs are compared on.

A maker hands each line to the reference as it goes, and chooses the next one by the state that it finds there: most events mean something,
and some are nonsense. Tables, sources, channels and seats are few, so that transactions meet each other's keys, GTIDs come twice and
numbers run out.
"""
from __future__ import annotations

import re
from collections import Counter
from collections.abc import Callable, Iterable
from dataclasses import dataclass, field
from random import Random

from .formats import MOST_CHANNELS, Entry
from .gtids import GREATEST, MOST_SOURCES, Gtid, GtidSet, Span
from .network import Network
from .random_bundles import CHANNEL_NAMES, SOURCES, BundleMaker
from .random_texts import TextBreaker
from .random_version3 import NAMES, Widener
from .replica import Channel, Replica
from .rows import Change, RowFault, Rows, Schema, Table, Transaction
from .scripts import BadLine, Script
from .versions import FORMATS, Format

ODD_NUMBERS = [0, 1, 2, 7, 63, 64, 65, 255, 256, 257, 2**31, 2**32, 2**63, 2**64 - 1]
SEATS = [1, 2, 3, 64]
SHARED_TAG = 0
QUERIES = ["rows", "executed", "purged", "journal", "drained", "status", "ask", "next", "entry"]
STRAY_LINES = [
    *("at 0 look", "position 0 0 1", "receive 0 0", "network", "network ", f"network {SOURCES[0]}", f"network {SOURCES[0]} {SOURCES[0]}"),
    *("look", "looks", "local", "position 0", "position 00", f"position {2**64}", "receive 0", f"receive 0 {SOURCES[0]}:1", "end"),
    *("close", "table t 1 pk 0", "row t 1", f"core {SOURCES[0]}", f"core {SOURCES[0]} -", "at", "at 0", "at 0 at 0 look", "at 0 end"),
    *("at 0 ---", " look", "look ", "--- ", "----", "channel X", "channel x preserved", f"at {2**64} look", "at 0 looks", "at 9 looks"),
    *("at 0 local x", "at 9 local x", "at 00 look", "position 0 0", "position 0 0 00", "receive 0 0 0", "position 0 0 0 0"),
    *("version 3", "at 0 version 3", "fk t 0 t 0", "assume references", "place - 4 - 1", "channel x.", "channel %41"),
    *(f"receive 0 {SOURCES[0]}:1 0 1", "channel X.1", "at 0 channel %20"),
]
VERSION_LINES = ["version 1", "version 2", "version 3", "version 4", "version", "version ", "version 03", "version 3 3", "Version 3"]


class EndOfScript(Exception):
    """No further line is made."""


@dataclass
class Made:
    """A script, whether all of it is in the language, and how often each event and query was answered in each way."""

    lines: list[str] = field(default_factory=list)
    is_whole: bool = True
    replies: Counter[str] = field(default_factory=Counter)


def shape(answer: str) -> str:
    """The kind of an answer: its name, with the fault that it names; or what kind of value it is."""
    reply = re.fullmatch(r"([A-Z]\w+)(?:\((.*)\))?", answer)
    if not reply:
        return answer if answer in ("none", "true", "false", "-") else "gone" if answer.endswith(" gone") else "a value"
    name, what = reply.groups()
    if name == "NotInSchema":
        return f"{name}({what.split(' ')[1]})"
    code = re.search(r"\bE\d+", what or "")
    return f"{name}({code[0]})" if code else name


class Teller:
    """A script in the making, and the reference that takes its lines."""

    def __init__(self) -> None:
        self.made, self.script, self.asked = Made(), Script(), ""

    def say(self, line: str) -> None:
        """One more line."""
        before = len(self.script.answers)
        self.made.lines.append(line)
        if not self.script.is_open():
            self.asked = asked_by(line)
        self.script.take(line)
        answers = self.script.answers[before:]
        if answers:
            self.made.replies[f"{self.asked}: {shape(answers[0])}"] += 1

    def say_all(self, lines: Iterable[str]) -> None:
        """More lines."""
        for line in lines:
            self.say(line)


def asked_by(line: str) -> str:
    """The word of an event or a query."""
    words = line.split(" ")
    return " ".join(["at", *words[2:3]]) if words[0] == "at" else words[0]


def lines_of(word: str, changes: Transaction) -> list[str]:
    """The lines of an event that has a transaction."""
    return [word, *(change.line() for change in changes), "end"]


class EventMaker:
    """Makes the lines of events and queries of a replica, by this version. Its transactions touch keys of these tags, but for wild ones."""

    def __init__(self, bundles: BundleMaker, sources: list[str], tags: list[int], form: Format) -> None:
        self.bundles, self.chance, self.is_one_in = bundles, bundles.chance, bundles.is_one_in
        self.sources, self.tags, self.form = sources, tags, form

    def weights(self, replica: Replica) -> dict[Callable[[Replica], list[str]], int]:
        """How often each event comes, by what the replica is ready for."""
        channels, busy = replica.channels, len(replica.seats)
        return {
            self.channel: (6 if len(channels) < 3 else 1) if channels else 30,
            self.position: 3 + 12 * sum(it.last_ask is None for it in channels),
            self.receive: 25 if channels else 2,
            self.take: 25 if any(replica.next_ready(c, 0) is not None for c in range(len(channels))) else 3,
            self.commit: 2 + 10 * busy,
            self.rollback: 1 + busy,
            self.restart: 1 + 8 * sum(it.is_stopped for it in channels),
            self.local: 8,
            self.purge: 3,
            self.look: 1,
            self.query: 10,
        }

    def event(self, replica: Replica) -> list[str]:
        """An event or a query."""
        weights = self.weights(replica)
        return self.chance.choices([*weights], [*weights.values()])[0](replica)

    def act(self, replica: Replica) -> list[str]:
        """An event or a query of a node of a network: no Position and no Receive, and a Purge is rare."""
        weights = {**self.weights(replica), self.local: 16, self.purge: 1}
        del weights[self.position], weights[self.receive]
        return self.chance.choices([*weights], [*weights.values()])[0](replica)

    def odd_number(self, count: int) -> int:
        """A number, most often of something that isn't there."""
        return self.chance.choice([count, count + 1, self.chance.choice(ODD_NUMBERS)])

    def channel_number(self, replica: Replica, is_wanted: Callable[[Channel], object] = bool) -> int:
        """The number of a channel, most often of one that is as wanted."""
        wanted = [c for c, it in enumerate(replica.channels) if is_wanted(it)]
        if not wanted or self.is_one_in(12):
            return self.odd_number(len(replica.channels)) if self.is_one_in(2) else self.bundles.few(len(replica.channels))
        return self.chance.choice(wanted)

    def seat(self, replica: Replica, is_busy: bool) -> int:
        """The number of a seat, most often of one that is busy, or idle."""
        wanted = [*replica.seats] if is_busy else [it for it in SEATS if it not in replica.seats]
        if self.is_one_in(10) or not wanted:
            return self.chance.choice([*SEATS, *ODD_NUMBERS])
        return self.chance.choice(wanted)

    def channel(self, replica: Replica) -> list[str]:
        """OpenChannel."""
        word = self.chance.choice(["", "", " preserve"])
        names = CHANNEL_NAMES if self.form is FORMATS["1"] else [*CHANNEL_NAMES, *NAMES]
        return [f"channel {self.chance.choice(names[:5] if self.is_one_in(2) else names)}{word}"]

    def position(self, replica: Replica) -> list[str]:
        """Position."""
        wanted = (lambda it: it.last_ask is None) if self.is_one_in(2) else (lambda it: True)
        return [f"position {self.channel_number(replica, wanted)}"]

    def receive(self, replica: Replica) -> list[str]:
        """Receive."""
        c = self.channel_number(replica, lambda it: it.last_ask is not None)
        entry = self.entry(replica, c)
        return lines_of(f"receive {c} {entry.gtid}", entry.changes)

    def entry(self, replica: Replica, c: int) -> Entry:
        """An entry for a channel; it may have come before, on any channel."""
        there = [entry for channel in replica.channels for entry in channel.entries]
        if there and self.is_one_in(5):
            return self.chance.choice(there)
        rows = replica.rows.copy()
        if replica.has_channel(c) and not self.is_one_in(4):
            make_waiting(rows, replica, replica.channels[c])
        return Entry(self.gtid(replica), self.transaction(rows))

    def gtid(self, replica: Replica) -> Gtid:
        """A GTID, most often the next one of a source."""
        source = self.chance.choice([*self.sources, *self.sources, replica.own])
        known = replica.executed.copy()
        for channel in replica.channels:
            known = known | channel.received
        number = known.least_number_outside(source, ())
        if number is None or self.is_one_in(4):
            number = self.bundles.wild_number()
        return Gtid(source, number)

    def transaction(self, rows: Rows) -> Transaction:
        """A transaction that most likely applies to these rows."""
        tables = list(rows.schema.values())
        if self.is_one_in(10):
            return self.misfit(tables)
        if self.is_one_in(10):
            return self.bundles.wild_transaction(tables)
        if self.is_one_in(7):
            return self.clash(rows)
        return self.bundles.tidy_transaction(rows.copy(), self.chance.choice(self.tags))

    def clash(self, rows: Rows) -> Transaction:
        """A change whose images have some values of a row, and most likely doesn't apply."""
        there = [(rows.schema[key.table], row) for key, row in rows.carriers.items() if key.index == 0]
        if not there:
            return ()
        table, row = self.chance.choice(there)
        before, after = (self.bundles.altered(table, row, self.chance.choice(self.tags)) for _ in range(2))
        return (Change(table.name, *self.chance.choice([(None, after), (before, None), (before, after), (row, after)])),)

    def misfit(self, tables: list[Table]) -> Transaction:
        """A transaction that the tables don't take."""
        changes = list(self.bundles.wild_transaction(tables))
        changes.insert(self.bundles.few(len(changes)), self.misfit_change(tables))
        return tuple(changes)

    def misfit_change(self, tables: list[Table]) -> Change:
        """A change that the tables don't take."""
        if not tables or self.is_one_in(3):
            return Change("nowhere" if self.form is FORMATS["1"] or self.is_one_in(2) else "no.Where%20", None, (1, None))
        table = self.chance.choice(tables)
        image = self.bundles.image(table, None)
        if table.columns < self.form.columns and self.is_one_in(2):
            image = (*image, None)
        else:
            column = self.chance.choice(table.keys[0])
            image = (*image[:column], None, *image[column + 1 :])
        images = self.chance.choice([(None, image), (image, None), (image, self.bundles.image(table, None))])
        return Change(table.name, *images)

    def take(self, replica: Replica) -> list[str]:
        """Take."""
        c = self.channel_number(replica, lambda it: it.entries)
        return [f"take {self.seat(replica, self.is_one_in(12))} {c} {self.place(replica, c)}"]

    def place(self, replica: Replica, c: int) -> int:
        """A place of a channel, most often one that is ready."""
        ready = replica.next_ready(c, 0)
        if ready is not None and self.is_one_in(2):
            return ready
        entries = replica.channels[c].entries if replica.has_channel(c) else []
        if not entries or self.is_one_in(8):
            return self.odd_number(len(entries))
        waiting = [place for place, entry in enumerate(entries) if entry.gtid not in replica.executed]
        return self.chance.choice(range(len(entries)) if not waiting or self.is_one_in(4) else waiting)

    def commit(self, replica: Replica) -> list[str]:
        """Commit."""
        return [f"commit {self.seat(replica, True)}"]

    def rollback(self, replica: Replica) -> list[str]:
        """Rollback."""
        return [f"rollback {self.seat(replica, True)}"]

    def restart(self, replica: Replica) -> list[str]:
        """Restart."""
        return [f"restart {self.channel_number(replica, lambda it: it.is_stopped)}"]

    def local(self, replica: Replica) -> list[str]:
        """Local."""
        return lines_of("local", self.transaction(replica.rows))

    def purge(self, replica: Replica) -> list[str]:
        """Purge."""
        count = len(replica.journal.entries)
        return [f"purge {self.odd_number(count) if self.is_one_in(6) else self.chance.randint(0, count)}"]

    def look(self, replica: Replica) -> list[str]:
        """Look."""
        return ["look"]

    def query(self, replica: Replica) -> list[str]:
        """A query."""
        word = self.chance.choice(QUERIES)
        c = self.channel_number(replica, lambda it: it.entries)
        match word:
            case "ask":
                return [f"ask {c}"]
            case "next":
                return [f"next {c} {self.chance.choice([0, 0, self.place(replica, c)])}"]
            case "entry":
                return [f"entry {c} {self.place(replica, c)}"]
        return [word]


def make_waiting(rows: Rows, replica: Replica, channel: Channel) -> None:
    """Makes the changes that wait on a channel, as far as they can be made."""
    for entry in channel.entries:
        if entry.gtid not in replica.executed:
            try:
                rows.apply(entry.changes)
            except RowFault:
                pass


def last_queries(replica: Replica) -> list[str]:
    """Queries that show all of a state."""
    found = ["status", "rows", "journal", "drained"]
    for c, channel in enumerate(replica.channels[:8]):
        found += [f"ask {c}", f"next {c} 0", *(f"entry {c} {place}" for place in range(len(channel.entries)))]
    return found


class ScriptMaker:
    """Makes one script."""

    def __init__(self, chance: Random) -> None:
        self.chance, self.bundles, self.teller, self.breaker = chance, BundleMaker(chance), Teller(), TextBreaker(chance)
        self.widener = Widener(chance)
        self.is_one_in, self.say = self.bundles.is_one_in, self.teller.say

    def finished(self, make: Callable[[], None]) -> Made:
        """The script, once all its lines are made or one is bad."""
        made = self.teller.made
        try:
            make()
        except (BadLine, EndOfScript):
            made.is_whole = False
        return made

    def say_more(self, lines: list[str], between_faults: int = 1500) -> None:
        """Says these lines, with a remark or an empty line now and then, and one with a fault in so many."""
        for line in lines:
            if self.is_one_in(60):
                self.say(self.chance.choice(["", "# a remark", "#", "#---", "# end"]))
            if self.is_one_in(between_faults):
                line = self.breaker.wrong_line(line, self.teller.made.lines)
            self.say(line)

    def declare(self, last: str) -> None:
        """Says tables and opening rows, and the last declaration."""
        schema = Schema(t=Table("t", 2, ((0,), (1,)))) if self.is_one_in(2) else self.bundles.tables()
        before = list[str]()
        if self.is_one_in(2):
            before, schema = ["version 3"], self.widener.schema(schema)
        references = self.widener.references(schema) if before else []
        rows = Rows(schema)
        for table in schema.values():
            for _ in range(self.bundles.few(4)):
                self.bundles.try_put(rows, table, self.bundles.few(3))
        tables = [*(table.line() for table in schema.values()), *(f"fk {it}" for it in references)]
        lines = [*before, *tables, *rows.lines(is_whole=True), last]
        if self.is_one_in(100):
            lines.insert(self.chance.randrange(len(lines)), self.chance.choice([*VERSION_LINES, "version 3", *lines]))
        self.say_more(lines, between_faults=100)
        if not self.teller.script.replica and not self.teller.script.network:
            raise EndOfScript

    def events(self, sources: list[str], tags: list[int]) -> EventMaker:
        """What makes events of these sources and tags, by the version that is declared."""
        return EventMaker(self.bundles, sources, tags, self.teller.script.declared.form)

    def say_badly(self) -> None:
        """Says a line that is not in the language there, or one of before with a fault, or leaves a transaction open."""
        match self.chance.randrange(4):
            case 0:
                self.say("local" if self.teller.script.replica else "at 0 local")
                raise EndOfScript
            case 1:
                self.say(self.breaker.line(self.chance.choice(self.teller.made.lines)))
            case _:
                self.say(self.chance.choice(STRAY_LINES))

    def one_replica(self) -> Made:
        """A script of one replica."""
        if self.is_one_in(1000):
            return self.finished(self.make_full)
        if self.is_one_in(10_000):
            return self.finished(self.make_received_full)
        return self.finished(self.make_replica)

    def opening(self, own: str) -> GtidSet:
        """The executed set of a replica from the start."""
        match self.chance.randrange(6):
            case 0:
                return self.bundles.wild_set()
            case 1:
                return GtidSet([Span(own, 1, GREATEST - self.bundles.few(3))])
            case 2:
                low = self.chance.randint(1, 4)
                return GtidSet([Span(own, low, low + self.bundles.few(4))])
        return GtidSet()

    def make_replica(self) -> None:
        """Says a script of one replica."""
        sources = self.chance.sample(SOURCES, 3)
        opening = self.opening(sources[0])
        self.declare(f"core {sources[0]}" + (f" {opening.word()}" if opening or self.is_one_in(4) else ""))
        replica = self.teller.script.replica
        assert replica
        if self.is_one_in(60):
            self.teller.say_all(f"channel c{number}" for number in range(MOST_CHANNELS - self.bundles.few(1)))
            self.teller.say_all(["channel c1", "channel more", "channel more", "channel other", "channel c2 preserve"])
        maker = self.events(sources[1:], [SHARED_TAG, SHARED_TAG, 1, 2])
        for _ in range(self.chance.randint(20, 90)):
            self.say_more(maker.event(replica))
            if self.is_one_in(1500):
                self.say_badly()
        self.teller.say_all(last_queries(replica))

    def make_full(self) -> None:
        """Says a script of a replica whose sets have all the sources that they may have, or but for one or two."""
        others = [f"00000000-0000-0000-0000-{number:012x}" for number in range(1, MOST_SOURCES - self.bundles.few(2) + 1)]
        full = GtidSet(Span(source, 1, 1) for source in others)
        self.teller.say_all(["table t 1 pk 0", f"core {SOURCES[0]} {full.word()}", "channel x", "position 0"])
        replica = self.teller.script.replica
        assert replica
        maker = self.events([*SOURCES[1:4], others[0]], [SHARED_TAG])
        kinds = [maker.receive, maker.receive, maker.take, maker.take, maker.commit, maker.commit, maker.local, maker.rollback]
        for _ in range(30):
            self.say_more(self.chance.choice(kinds)(replica))
            if self.is_one_in(8):
                self.say(self.chance.choice(["position 0", "ask 0", "purge 0", "purge 1"]))

    def make_received_full(self) -> None:
        """Says a script of a channel that has received of all the sources that a set may have, but for one or two, and then of more."""
        self.teller.say_all([f"core {SOURCES[0]}", "channel x", "channel y", "position 0", "position 1"])
        first = MOST_SOURCES - self.bundles.few(2)
        for number in range(1, first + 4):
            self.teller.say_all(lines_of(f"receive 0 00000000-0000-0000-0000-{number:012x}:1", ()))
        last = f"00000000-0000-0000-0000-{first + 3:012x}"
        self.teller.say_all([*lines_of(f"receive 1 {last}:1", ()), f"receive 0 {last}:2", "end", "take 1 1 0", "commit 1", "position 0"])
        self.teller.say_all(["ask 0", "executed", "take 1 0 0", "commit 1", "entry 0 0", "ask 0"])

    def network(self) -> Made:
        """A script of a network, or of one replica beside those."""
        return self.finished(self.make_replica if self.is_one_in(12) else NetworkMaker(self).make)


class NetworkMaker:
    """Makes one script of a network."""

    def __init__(self, maker: ScriptMaker) -> None:
        self.maker, self.chance, self.bundles = maker, maker.chance, maker.bundles
        self.is_one_in, self.say = maker.is_one_in, maker.say

    def make(self) -> None:
        """Says the script."""
        sources = self.chance.sample(SOURCES, self.chance.choice([1, 2, 2, 3, 3, 4]))
        self.maker.declare(" ".join(["network", *sources]))
        network = self.maker.teller.script.network
        assert network
        is_apart = self.is_one_in(2)
        tags = [node + 1 if is_apart else SHARED_TAG for node in range(len(network.nodes))]
        self.makers = [self.maker.events(sources, [tag]) for tag in tags]
        self.join(network)
        for _ in range(self.chance.randint(20, 70)):
            self.say_some(network)
            if self.is_one_in(1500):
                self.maker.say_badly()
        if self.is_one_in(2):
            self.settle(network)
        for node, replica in enumerate(network.nodes):
            self.maker.teller.say_all(f"at {node} {query}" for query in last_queries(replica))

    def join(self, network: Network) -> None:
        """Opens channels: in a ring, between any two, or none."""
        count = len(network.nodes)
        ring = [(node, (node - 1) % count) for node in range(count)]
        every = [(node, source) for node in range(count) for source in range(count) if node != source or self.is_one_in(6)]
        for node, source in self.chance.choice([ring, every, []]):
            c = len(network.nodes[node].channels)
            preserve = " preserve" if self.is_one_in(3) else ""
            self.say(f"at {node} channel from_{source}{preserve}")
            if not self.is_one_in(3):
                self.say(f"position {node} {c} {source}")

    def say_some(self, network: Network) -> None:
        """Says an event or a query, or a few that belong together."""
        calls = {self.act: 40, self.receive: 20, self.position: 8, self.move: 10, self.lose: 1, self.stray: 5}
        self.chance.choices([*calls], [*calls.values()])[0](network)

    def has_received(self) -> bool:
        """Whether the last answer is Received."""
        return self.maker.teller.script.answers[-1].startswith("Received")

    def node(self, network: Network) -> int:
        """The number of a node."""
        return self.chance.randrange(len(network.nodes))

    def odd_node(self, network: Network) -> int:
        """The number of a node that is most likely not there."""
        return self.makers[0].odd_number(len(network.nodes))

    def act(self, network: Network) -> None:
        """A node's own event or query."""
        node = self.node(network)
        first, *more = self.makers[node].act(network.nodes[node])
        self.maker.say_more([f"at {node} {first}", *more])

    def reader(self, network: Network) -> tuple[int, int]:
        """A node and one of its channels, most often one whose source has more to send."""
        ready = [it for it in network.sources if has_more(network, *it)]
        if ready and not self.is_one_in(6):
            return self.chance.choice(ready)
        node = self.node(network)
        return node, self.makers[node].channel_number(network.nodes[node], lambda it: it.last_ask is not None)

    def receive(self, network: Network) -> None:
        """Receives on a channel once or a few times."""
        node, c = self.reader(network)
        self.say(f"receive {node} {c}")
        for _ in range(self.bundles.few(6) if self.has_received() else 0):
            self.say(f"receive {node} {c}")

    def position(self, network: Network) -> None:
        """Positions a channel on its source or on another node."""
        node = self.node(network)
        c = self.makers[node].channel_number(network.nodes[node])
        source = network.sources.get((node, c))
        if source is None or self.is_one_in(3):
            source = self.node(network)
        self.say(f"position {node} {c} {source}")

    def move(self, network: Network) -> None:
        """A channel receives what its source has, and the node executes some of it."""
        node, c = self.reader(network)
        for _ in range(1 + self.bundles.few(4)):
            self.say(f"receive {node} {c}")
            if self.has_received():
                self.execute(network.nodes[node], node, c)

    def execute(self, replica: Replica, node: int, c: int) -> None:
        """A seat that is idle takes and commits what is ready on a channel."""
        place = replica.next_ready(c, 0)
        idle = [it for it in SEATS if it not in replica.seats]
        if place is not None and idle:
            self.say(f"at {node} take {idle[0]} {c} {place}")
            self.say(f"at {node} commit {idle[0]}")

    def lose(self, network: Network) -> None:
        """A source commits and purges what its readers have not received; one of them asks for it."""
        reads = [it for it in network.sources.items() if it[1] != it[0][0]]
        if not reads:
            return
        (node, c), source = self.chance.choice(reads)
        first, *more = self.makers[source].local(network.nodes[source])
        self.maker.say_more([f"at {source} {first}", *more])
        self.say(f"at {source} purge {len(network.nodes[source].journal.entries)}")
        for line in self.chance.sample([f"receive {node} {c}", f"position {node} {c} {source}", f"at {node} executed"], 2):
            self.say(line)

    def stray(self, network: Network) -> None:
        """An event of a node that isn't there, or one that names no source."""
        node, gone, replica = self.node(network), self.odd_node(network), network.nodes[0]
        maker = self.makers[0]
        at = self.chance.choice([node, gone])
        match self.chance.randrange(6):
            case 0:
                first, *more = maker.event(replica)
                self.maker.say_more([f"at {at} {first}", *more])
            case 1:
                first, *more = self.chance.choice([maker.position, maker.receive])(replica)
                self.maker.say_more([f"at {at} {first}", *more])
            case 2:
                self.say(f"at {gone} {maker.query(replica)[0]}")
            case 3:
                self.say(f"position {gone} {maker.channel_number(replica)} {self.chance.choice([node, gone])}")
            case 4:
                self.say(f"position {node} {maker.channel_number(network.nodes[node])} {gone}")
            case 5:
                self.say(f"receive {gone} {maker.channel_number(replica)}")

    def settle(self, network: Network) -> None:
        """Lets all that was committed go round, as far as it can be received and executed."""
        for _ in range(len(network.nodes)):
            for node, replica in enumerate(network.nodes):
                self.maker.teller.say_all(f"at {node} rollback {seat}" for seat in [*replica.seats])
                for c in range(min(len(replica.channels), 4)):
                    if (node, c) not in network.sources or has_more(network, node, c) or self.is_one_in(4):
                        self.settle_channel(network, node, c)

    def settle_channel(self, network: Network, node: int, c: int) -> None:
        """A channel is positioned, receives all that its source has, and all of it that can be executed is."""
        replica = network.nodes[node]
        source = network.sources.get((node, c), (node - 1) % len(network.nodes))
        if replica.channels[c].is_stopped:
            self.say(f"at {node} restart {c}")
        if replica.channels[c].last_ask is None or self.is_one_in(3):
            self.say(f"position {node} {c} {source}")
        self.say(f"receive {node} {c}")
        while self.has_received():
            self.say(f"receive {node} {c}")
        while replica.next_ready(c, 0) is not None and not replica.channels[c].is_stopped:
            self.execute(replica, node, c)


def has_more(network: Network, node: int, c: int) -> bool:
    """Whether the source of a channel has entries that the channel has not received."""
    channel, source = network.nodes[node].channels[c], network.nodes[network.sources[node, c]]
    return channel.last_ask is not None and not source.journal.whole() <= channel.last_ask | channel.received


def one_replica(chance: Random) -> Made:
    """A random script of one replica."""
    return ScriptMaker(chance).one_replica()


def network(chance: Random) -> Made:
    """A random script of a network."""
    return ScriptMaker(chance).network()
