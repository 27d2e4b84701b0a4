"""The language of scripts. Written independently, from docs/SCRIPTS.md and compared with the proved programs."""
from __future__ import annotations

from collections.abc import Callable
from dataclasses import dataclass, field

from .formats import COUNT_FORM, FORMATS, VERSION_3, Format, JournalDraft, LineFault, put_row, reference_in, table_in, take_line
from .gtids import UUID_FORM, Gtid, GtidSet, SourcesFull, gtid_in, set_in
from .network import NO_NODE, Network
from .replica import Replica, Reply
from .rows import Rows, Schema, Transaction

NOBODY = Gtid("00000000-0000-0000-0000-000000000000", 1)

Events = Callable[[Transaction], Reply]


class BadLine(Exception):
    """A line that is not in the language at its place."""


@dataclass
class Declared:
    """The declarations of a section so far."""

    rows: Rows = field(default_factory=lambda: Rows(Schema()))
    form: Format = FORMATS["1"]
    words: list[str] = field(default_factory=list)


def number_in(word: str) -> int:
    """A count below 2^64."""
    if not COUNT_FORM.fullmatch(word) or len(word) > 20 or int(word) >= 2**64:
        raise BadLine
    return int(word)


def uuid_in(word: str) -> str:
    """A UUID."""
    if not UUID_FORM.fullmatch(word):
        raise BadLine
    return word


def opening_in(words: list[str]) -> GtidSet:
    """The executed set that a replica is opened with: that of the word, if any."""
    try:
        found = set_in(words[0]) if words else GtidSet()
    except SourcesFull:
        raise BadLine from None
    if found is None:
        raise BadLine
    return found


def none_or(value: object) -> str:
    """The word for a value, or `none`."""
    return "none" if value is None else str(value)


class Script:
    """A script whose lines come one by one, and the answers so far."""

    def __init__(self) -> None:
        self.answers: list[str] = []
        self.begin()

    def begin(self) -> None:
        """Begins afresh."""
        self.declared = Declared()
        self.replica: Replica | None = None
        self.network: Network | None = None
        self.draft: JournalDraft | None = None
        self.event: Events | None = None

    def is_open(self) -> bool:
        """Whether a transaction has begun and has not ended."""
        return self.draft is not None

    def take(self, line: str) -> None:
        """Takes a line; raises BadLine where it is bad."""
        try:
            self.take_word(line)
        except LineFault:
            raise BadLine from None
        except SourcesFull:
            self.answers.append("SourcesFull")

    def take_word(self, line: str) -> None:
        """Takes a line by what is due."""
        if not line or line.startswith("#"):
            return
        if self.draft is not None:
            self.take_change(line)
        elif line == "---":
            self.begin()
            self.answers.append("---")
        elif self.replica is not None:
            self.answers.extend(self.answered(self.replica, line.split(" ")))
        elif self.network is not None:
            self.take_of_network(self.network, line.split(" "))
        else:
            self.declare(line)

    def declare(self, line: str) -> None:
        """Takes a declaration."""
        word, blank, body = line.partition(" ")
        words, rows, form, declared = body.split(" "), self.declared.rows, self.declared.form, self.declared.words
        if not blank:
            raise BadLine
        if line == "version 3" and not declared and VERSION_3.references:
            self.declared.form = FORMATS["3"]
            rows.schema.most_bytes = self.declared.form.most_bytes
        elif word == "table" and declared[-1:] in ([], ["version"], ["table"]):
            table = table_in(body, rows.schema, form)
            rows.schema[table.name] = table
        elif word == "fk" and form.references and declared[-1:] != ["row"]:
            reference_in(body, rows.schema, declared.count("fk"))
        elif word == "row":
            put_row(body, rows, form)
        elif word == "core" and len(words) <= 2:
            self.replica = Replica(uuid_in(words[0]), rows, opening_in(words[1:]))
        elif word == "network" and len(set(words)) == len(words):
            self.network = Network([uuid_in(it) for it in words], rows)
        else:
            raise BadLine
        declared.append(word)

    def take_change(self, line: str) -> None:
        """Takes a line within a transaction, and makes the event at its end."""
        draft, event = self.draft, self.event
        assert draft is not None and event is not None
        if line.partition(" ")[0] not in ("ins", "upd", "del", "end"):
            raise BadLine
        take_line(draft, line)
        if line == "end":
            self.draft = self.event = None
            self.answers.append(str(event(draft.journal.entries[0].changes)))

    def open_transaction(self, gtid: Gtid, event: Events) -> list[str]:
        """A transaction begins, with which the event is made at its end."""
        version = self.declared.form.version
        self.draft, self.event = JournalDraft({version}, None), event
        for line in (f"journal {version}", "previous -", f"txn {gtid}" + (" 0 1" if self.declared.form.has_stamps else "")):
            take_line(self.draft, line)
        return []

    def answered(self, replica: Replica, words: list[str]) -> list[str]:
        """The answers to an event or a query."""
        match words:
            case ["local"]:
                return self.open_transaction(NOBODY, replica.local)
            case ["receive", c, word]:
                channel, gtid = number_in(c), gtid_in(word)
                if gtid is None:
                    raise BadLine
                return self.open_transaction(gtid, lambda changes: replica.receive(channel, gtid, changes))
            case ["rows"]:
                return replica.rows.lines()
            case ["journal"]:
                return list(replica.journal_lines(self.declared.form.version))
            case ["status"]:
                return list(replica.status_lines())
            case _:
                return [str(one_answer(replica, words, self.declared.form))]

    def take_of_network(self, network: Network, words: list[str]) -> None:
        """Takes an event or a query of a network."""
        match words:
            case ["position", node, c, source]:
                self.answers.append(str(network.position(number_in(node), number_in(c), number_in(source))))
            case ["receive", node, c]:
                self.answers.append(str(network.receive(number_in(node), number_in(c))))
            case ["at", number, *rest]:
                self.answers.extend(self.answered_at(network.node(number_in(number)), rest))
            case _:
                raise BadLine

    def answered_at(self, node: Replica | None, words: list[str]) -> list[str]:
        """The answers to an event or a query at a node, which may not be there."""
        if words[:1] in (["position"], ["receive"]):
            return self.not_here(node, words)
        if node is not None:
            return self.answered(node, words)
        answers = self.answered(Replica(NOBODY.source, Rows(Schema()), GtidSet()), words)
        if self.is_open():
            self.event = lambda changes: NO_NODE
            return answers
        return [str(NO_NODE)]

    def not_here(self, node: Replica | None, words: list[str]) -> list[str]:
        """A Position or a Receive that names no source."""
        reply = Reply("NotHere") if node is not None else NO_NODE
        match words:
            case ["position", c]:
                number_in(c)
                return [str(reply)]
            case ["receive", c, word] if gtid_in(word):
                number_in(c)
                return self.open_transaction(NOBODY, lambda changes: reply)
            case _:
                raise BadLine


def one_answer(replica: Replica, words: list[str], form: Format) -> object:
    """The answer to an event or a query that has one line."""
    match words:
        case ["channel", name] if form.is_name(name):
            return replica.open_channel(name, False)
        case ["channel", name, "preserve"] if form.is_name(name):
            return replica.open_channel(name, True)
        case ["position", c]:
            return replica.position(number_in(c))
        case ["take", seat, c, place]:
            return replica.take(number_in(seat), number_in(c), number_in(place))
        case ["commit", seat]:
            return replica.commit(number_in(seat))
        case ["rollback", seat]:
            return replica.rollback(number_in(seat))
        case ["restart", c]:
            return replica.restart(number_in(c))
        case ["purge", k]:
            return replica.purge(number_in(k))
        case ["look"]:
            return replica.look()
        case ["executed"]:
            return replica.executed.word()
        case ["purged"]:
            return replica.journal.previous.word()
        case ["drained"]:
            return "true" if replica.is_drained() else "false"
        case ["ask", c]:
            asked = replica.ask(number_in(c))
            return none_or(None if asked is None else asked.word())
        case ["next", c, start]:
            return none_or(replica.next_ready(number_in(c), number_in(start)))
        case ["entry", c, place]:
            return replica.entry_line(number_in(c), number_in(place))
    raise BadLine


def run(text: str) -> tuple[str, int, str]:
    """What `replica_script` prints for a script whose characters are bytes, its exit status, and its message on standard error."""
    lines = text.split("\n")
    if not lines[-1]:
        lines.pop()
    script, status, said = Script(), 0, ""
    for number, line in enumerate(lines, 1):
        try:
            script.take(line)
        except BadLine:
            shown = line.encode("latin-1").decode("utf-8", "replace")
            status, said = 2, f"replica_script: line {number} is not in the language: {shown}\n"
            break
    if not status and script.is_open():
        status, said = 2, "replica_script: the input ends inside a transaction\n"
    return "".join(f"{answer}\n" for answer in script.answers), status, said
