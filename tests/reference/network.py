"""A network of replicas that read one another's journals. Written independently, from docs/SCRIPTS.md and compared with the proved
programs."""
from __future__ import annotations

from .formats import Entry, Journal
from .gtids import GtidSet
from .replica import NO_CHANNEL, NOT_POSITIONED, Replica, Reply
from .rows import Rows

NO_NODE = Reply("NoNode")
NOTHING = Reply("Nothing")


def refusal(own: str, journal: Journal, asked: GtidSet) -> str | None:
    """Why a source of this UUID does not send its journal to a replica that asks with this set."""
    purged = journal.previous - asked
    if purged:
        return f"E19 purged {purged}"
    more = asked.only(own) - journal.whole()
    return f"E20 has-more {more}" if more else None


class Network:
    """Replicas, numbered from 0, and which of them each channel reads."""

    def __init__(self, ids: list[str], rows: Rows) -> None:
        self.nodes = [Replica(own, rows, GtidSet()) for own in ids]
        self.sources: dict[tuple[int, int], int] = {}

    def node(self, number: int) -> Replica | None:
        """The replica of this number."""
        return self.nodes[number] if number < len(self.nodes) else None

    def position(self, number: int, c: int, source: int) -> Reply:
        """A channel asks a source: where it refuses, nothing changes."""
        node, read = self.node(number), self.node(source)
        if node is None or read is None:
            return NO_NODE
        asked = node.ask(c)
        if asked is None:
            return NO_CHANNEL
        refused = refusal(read.own, read.journal, asked)
        if refused:
            return Reply("Refused", refused)
        self.sources[number, c] = source
        return node.position(c)

    def receive(self, number: int, c: int) -> Reply:
        """A channel receives the next entry of its source."""
        node = self.node(number)
        if node is None:
            return NO_NODE
        if not node.has_channel(c):
            return NO_CHANNEL
        source, asked = self.sources.get((number, c)), node.channels[c].last_ask
        if source is None or asked is None:
            return NOT_POSITIONED
        known, journal = asked | node.channels[c].received, self.nodes[source].journal
        if journal.previous - known:
            return NOT_POSITIONED
        entry: Entry | None = next((it for it in journal.entries if it.gtid not in known), None)
        return node.receive(c, entry.gtid, entry.changes) if entry else NOTHING
