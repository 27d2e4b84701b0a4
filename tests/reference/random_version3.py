"""Random bundles of version 3: bundles of version 2 with other names, hidden columns, references, places and assumptions. Written
independently, from the specification of version 3."""
from __future__ import annotations

from dataclasses import replace
from random import Random

from .formats import Bundle, Channel, Entry, Journal, assumption_order
from .gtids import GtidSet
from .rows import Change, Rows, Schema, Table
from .versions import VERSION_3

NAMES = [
    *("shop.product", "shop.orders", "Shop.product", "d%60b.T%c3%a4g", "-.$", "2024_log", "null", "pk", "hidden", "a.b.c", "A", "a", "_"),
    *("%00", "%25", "x%2ey.z", "x.y.z", "uk", "%20" * 512, "z" * 255 + "." + "%ff" * 256, "done"),
]
FILES = ["east-bin.000007", "-", "b.1", "bin%2f.000001"]
TIMES = ["-", "0", "1795780800000000", "253402300799999999"]


class Widener:
    """Makes bundles of version 3 of one source of chance."""

    def __init__(self, chance: Random) -> None:
        self.chance = chance

    def some(self, items: list[str]) -> list[str]:
        """None of these, most often, or some."""
        return [it for it in items if self.chance.randrange(3) == 0] if self.chance.randrange(3) == 0 else []

    def bundle(self, narrow: Bundle) -> Bundle:
        """The bundle by version 3."""
        names = dict(zip(narrow.schema, self.chance.sample(NAMES, len(narrow.schema))))
        wide = Bundle("3", narrow.replica, narrow.opening, Schema((names[it], self.table(table, names[it])) for it, table in narrow.schema.items()))
        wide.schema.most_bytes = 2**32 - 1
        is_unknown = self.chance.randrange(4) == 0
        for key, row in narrow.rows.carriers.items():
            if key.index == 0 and not is_unknown:
                wide.rows.put(names[key.table], row)
        wide.references = self.references(wide.schema)
        channels = self.chance.sample(NAMES, len(narrow.channels))
        wide.channels = [self.channel(it, name, names) for it, name in zip(narrow.channels, channels)]
        wide.assumptions = self.assumptions(wide, is_unknown)
        return wide

    def schema(self, narrow: Schema) -> Schema:
        """The tables by version 3, now and then beyond the limits of the earlier versions."""
        names = self.chance.sample(NAMES, len(narrow))
        wide = Schema((name, self.larger(self.table(it, name))) for name, it in zip(names, narrow.values()))
        if self.chance.randrange(200) == 0:
            wide.update((f"Many.{number}", Table(f"Many.{number}", 1, ((0,),))) for number in range(257))
        wide.most_bytes = VERSION_3.most_bytes
        return wide

    def larger(self, table: Table) -> Table:
        """A table, now and then with more columns or unique keys than the earlier versions have."""
        match self.chance.randrange(60):
            case 0:
                return replace(table, columns=self.chance.choice([65, 65, 100, 4_096]))
            case 1:
                return replace(table, keys=table.keys + table.keys[:1] * (self.chance.choice([9, 65]) - len(table.keys)))
        return table

    def table(self, table: Table, name: str) -> Table:
        """A table of another name, with hidden columns or without."""
        return replace(table, name=name, hidden=self.chance.choice([0, 0, self.chance.randrange(table.columns)]))

    def channel(self, channel: Channel, name: str, names: dict[str, str]) -> Channel:
        """A channel of another name, whose journal has these tables and some places."""
        entries = [Entry(it.gtid, tuple(self.change(change, names) for change in it.changes), self.place()) for it in channel.journal.entries]
        return Channel(name, channel.preserve, Journal(channel.journal.previous, entries))

    def change(self, change: Change, names: dict[str, str]) -> Change:
        """A change of the table's other name."""
        return replace(change, table=names[change.table])

    def place(self) -> str:
        """What a `place` line says, or nothing."""
        if not VERSION_3.has_places or self.chance.randrange(3):
            return ""
        return f"{self.chance.choice(FILES)} {self.chance.choice([4, 195, 2**63 - 1])} {self.chance.choice(TIMES)} {self.chance.choice([0, 1, 2**63 - 1])}"

    def references(self, schema: Schema) -> list[str]:
        """Some foreign keys."""
        tables, made = list(schema.values()), list[str]()
        for _ in range(self.chance.choice([0, 0, 1, 3]) if tables else 0):
            child, parent = self.chance.choice(tables), self.chance.choice(tables)
            key = self.chance.randrange(len(parent.keys))
            if len(parent.keys[key]) <= child.columns:
                columns = ",".join(map(str, self.chance.sample(range(child.columns), len(parent.keys[key]))))
                made.append(f"{child.name} {columns} {parent.name} {key}" + self.chance.choice(["", " cascade"]))
        return made

    def assumptions(self, bundle: Bundle, is_unknown: bool) -> list[str]:
        """Some assumptions that the bundle may have, of the words that are read; and `rows`, where the opening rows aren't known."""
        found = [*self.some(["references"]), *(["rows"] if is_unknown else [])]
        found += [f"ignored {it}" for it in self.some([it for it in NAMES if it not in bundle.schema])]
        for channel in bundle.channels:
            found += [f"{word} {channel.name}" for word in self.some(["executed", "checksums"])]
            gtids = GtidSet.of(it.gtid for it in channel.journal.entries if self.chance.randrange(3) == 0)
            if gtids and self.chance.randrange(3) == 0:
                found.append(f"statements {channel.name} {gtids.word()}")
            if bundle.opening and self.chance.randrange(3) == 0:
                found.append(f"opening {channel.name} {bundle.opening.word()}")
        return sorted((it for it in found if it.split(" ")[0] in VERSION_3.assumed), key=assumption_order)
