"""Random bundles of logs, in the words of mysqlbinlog of MySQL 9.7, damaged in the ways in which logs are lost. Written independently, from
docs/FORMATS.md and the kept logs of real servers."""
from __future__ import annotations

from collections.abc import Callable, Iterable
from random import Random

from .formats import bundle_lines
from .gtids import Gtid, GtidSet
from .logs import LAST
from .random_bundles import BundleMaker
from .random_version3 import Widener
from .rows import Change, Table, Value

FIRST = [
    "# The proper term is pseudo_replica_mode, but we use this compatibility alias",
    "# to make the statement usable on server versions 8.0.24 and older.",
    "/*!50530 SET @@SESSION.PSEUDO_SLAVE_MODE=1*/;",
    "/*!50003 SET @OLD_COMPLETION_TYPE=@@COMPLETION_TYPE,COMPLETION_TYPE=0*/;",
    "DELIMITER /*!*/;",
]
# the tables by their databases and names, and what the head calls them: two databases have a table of one name
TABLES = {
    ("d", "orders"): Table("d.orders", 3, ((0,), (1,))),
    ("d", "t"): Table("d.t", 2, ((0,),)),
    ("My shop.", "t"): Table("My%20shop%2e.t", 2, ((0,),)),
}
NAMES = {table.name: names for names, table in TABLES.items()}
TYPES = ["BIGINT NOT NULL", "VARBINARY(40)", "BIGINT"]
SHORT = {8: "\\b", 9: "\\t", 10: "\\n", 12: "\\f", 13: "\\r", 39: "\\'", 92: "\\\\"}
WORDS = {"ins": ("Write", "INSERT INTO"), "upd": ("Update", "UPDATE"), "del": ("Delete", "DELETE FROM")}


def shown(value: Value) -> str:
    """A value as mysqlbinlog prints it."""
    if value is None:
        return "NULL"
    if isinstance(value, bytes):
        return "'" + "".join(SHORT.get(it) or (chr(it) if it >= 32 else f"\\x{it:02x}") for it in value) + "'"
    return str(value) if value >= 0 else f"{value} ({value + 2**64})"


class LogMaker:
    """Makes bundles of logs by turns of chance."""

    def __init__(self, chance: Random) -> None:
        self.chance = chance
        self.place = 4

    def is_one_in(self, number: int) -> bool:
        """Whether this turn comes."""
        return self.chance.randrange(number) == 0

    def event(self, text: str) -> list[str]:
        """The first lines of an event."""
        before, self.place = self.place, self.place + self.chance.randrange(20, 900)
        return [f"# at {before}", f"#261128  4:05:06 server id 1  end_log_pos {self.place} CRC32 0x{self.chance.randrange(16**8):08x} \t{text}"]

    def value(self, column: int) -> Value:
        """A value of a column."""
        if column and self.is_one_in(4):
            return None
        if column == 1:
            return bytes(self.chance.randrange(256) for _ in range(self.chance.randrange(6)))
        return self.chance.choice([self.chance.randrange(9), -1, 2**63 - 1, -(2**63)])

    def change(self) -> Change:
        """A change of any table."""
        table = self.chance.choice([*TABLES.values()])
        before, after = (tuple(self.value(it) for it in range(table.columns)) for _ in range(2))
        kind = self.chance.choice(["ins", "upd", "del"])
        return Change(table.name, None if kind == "ins" else before, None if kind == "del" else after)

    def statement(self) -> list[str]:
        """Rows events of some changes: their tables first, and all rows behind the last."""
        changes = [self.change() for _ in range(self.chance.randrange(1, 4))]
        lines: list[str] = []
        for name in dict.fromkeys(it.table for it in changes):
            database, own = NAMES[name]
            lines += self.event(f"Table_map: `{database}`.`{own}` mapped to number {self.chance.randrange(90, 99)}")
            lines.append("# has_generated_invisible_primary_key=0")
            columns = TABLES[database, own].columns
            for at in range(columns):
                front, end = "#         " if at else "# Columns(", "," if at < columns - 1 else ")"
                lines.append(f"{front}`c{at}` {TYPES[at]}{end}")
            lines.append("# Primary Key(c0)")
        for number, change in enumerate(changes, 1):
            flags = "STMT_END_F USE_SQL_FOREIGN_KEY_F" if number == len(changes) else "USE_SQL_FOREIGN_KEY_F"
            lines += self.event(f"{WORDS[change.line()[:3]][0]}_rows: table id 97 flags: {flags}")
        for change in changes:
            lines += self.row(change)
        return lines

    def row(self, change: Change) -> list[str]:
        """The lines of a row."""
        lines = ["### Extra row info for partitioning: partition: 2"] if self.is_one_in(6) else []
        database, own = NAMES[change.table]
        lines.append(f"### {WORDS[change.line()[:3]][1]} `{database}`.`{own}`")
        for mark, image in (("### WHERE", change.before), ("### SET", change.after)):
            if image is not None:
                lines += [mark, *(f"###   @{at}={shown(value)}" for at, value in enumerate(image, 1))]
        return lines

    def transaction(self, gtid: Gtid) -> list[str]:
        """The lines of a transaction."""
        lines = self.event("GTID\tlast_committed=0\tsequence_number=1\trbr_only=yes")
        lines += ["/*!50718 SET TRANSACTION ISOLATION LEVEL READ COMMITTED*//*!*/;", f"SET @@SESSION.GTID_NEXT= '{gtid}'/*!*/;"]
        lines += [*self.event("Query\tthread_id=9\texec_time=0\terror_code=0"), "SET TIMESTAMP=1795836132/*!*/;"]
        if self.is_one_in(8):
            return [*lines, "CREATE USER u" if self.is_one_in(9) else self.chance.choice(["FLUSH RELAY LOGS", "flush status"]), "/*!*/;"]
        lines += ["BEGIN", "/*!*/;"]
        for _ in range(self.chance.randrange(3)):
            lines += self.statement()
        return [*lines, *self.event("Xid = 12"), "COMMIT/*!*/;"]

    def file(self, before: GtidSet, gtids: Iterable[Gtid], number: int) -> list[str]:
        """The lines of a file."""
        self.place = 4
        lines = [*self.event("Start: binlog v 4, server v 9.7.4-2 created 261128  4:05:06"), *(["ROLLBACK/*!*/;"] if number == 1 else [])]
        lines += self.event("Previous-GTIDs")
        sources = str(before).split(",") if before else []
        lines += [f"# {it}," for it in sources[:-1]] + [f"# {it}" for it in sources[-1:]] if sources else ["# [empty]"]
        for gtid in gtids:
            lines += self.transaction(gtid)
        return [*lines, *self.event(f"Rotate to bin.{number + 1:06}  pos: 4")]


def uuid(letter: str) -> str:
    """A UUID of one letter."""
    return "-".join(letter * it for it in (8, 4, 4, 4, 12))


class BundleOfLogs:
    """The parts of a bundle of logs, which damage may change before they are joined."""

    def __init__(self, chance: Random) -> None:
        self.chance, self.maker = chance, LogMaker(chance)
        self.options: list[str] = []
        self.version = "3"
        self.opening = GtidSet.of(Gtid(uuid("e"), it) for it in range(1, chance.randrange(1, 4)))
        self.head = ["table d.orders 3 pk 0 uk 1", "table d.t 2 pk 0", "table My%20shop%2e.t 2 pk 0"]
        self.files: dict[str, list[list[str]]] = {}
        self.executed: dict[str, GtidSet | None] = {}
        for name, letter in (("east", "a"), ("west", "b"))[: chance.randrange(1, 3)]:
            self.add_channel(name, letter)

    def add_channel(self, name: str, letter: str) -> None:
        """A channel with one file or more, whose sets are right."""
        others = [Gtid(uuid("c"), it) for it in range(1, self.chance.randrange(1, 4))]
        gtids = [*others, *(Gtid(uuid(letter), it) for it in range(1, self.chance.randrange(1, 7)))]
        cuts = sorted(self.chance.randrange(len(gtids) + 1) for _ in range(self.chance.randrange(3)))
        before, files = self.chance.choice([GtidSet(), self.opening]), []
        for number, (low, high) in enumerate(zip([0, *cuts], [*cuts, len(gtids)]), 1):
            files.append(self.maker.file(before, gtids[low:high], number))
            before = before | GtidSet.of(gtids[low:high])
        self.files[name] = files
        self.executed[name] = self.opening | GtidSet.of(gtids)

    def text(self) -> str:
        """The whole text."""
        lines = [f"bundle {self.version}", f"replica {uuid('d')}", f"opening {self.opening.word()}", *self.head]
        for name, files in self.files.items():
            executed = self.executed[name]
            lines.append(f"channel {name}" + ("" if executed is None else f" executed {executed.word()}"))
            lines += [*FIRST, *(line for file in files for line in file)]
            lines += ["SET @@SESSION.GTID_NEXT= 'AUTOMATIC' /* added by mysqlbinlog */ /*!*/;", *LAST]
        return "".join(f"{it}\n" for it in [*lines, "done"])

    def some(self) -> str:
        """The name of a channel."""
        return self.chance.choice([*self.files])

    # ---- damage

    def without_rows(self) -> None:
        """mysqlbinlog was called without -v."""
        name = self.some()
        self.files[name] = [[line for line in file if not line.startswith("### ")] for file in self.files[name]]

    def rows_lost(self) -> None:
        """The lines of one row were lost, with all behind them in its event."""
        file = self.chance.choice(self.files[self.some()])
        places = [at for at, line in enumerate(file) if "STMT_END_F" in line]
        if places:
            at = self.chance.choice(places) + 1
            while at < len(file) and file[at].startswith("### "):
                del file[at]

    def file_lost(self) -> None:
        """A file was left out."""
        files = self.files[self.some()]
        if len(files) > 1:
            del files[self.chance.randrange(len(files))]

    def end_lost(self) -> None:
        """The last transactions were lost, as where mysqlbinlog fails."""
        file = self.files[self.some()][-1]
        places = [at - 1 for at, line in enumerate(file) if "\tGTID\t" in line]
        if places:
            del file[self.chance.choice(places) :]

    def more_executed(self) -> None:
        """The server had executed something that is nowhere."""
        name = self.some()
        self.executed[name] = (self.executed[name] or GtidSet()) | GtidSet.of([Gtid(uuid(self.chance.choice("abce")), self.chance.randrange(1, 12))])

    def nobody_asked(self) -> None:
        """Nobody said what a server had executed."""
        self.executed[self.some()] = None

    def not_opened(self) -> None:
        """A server hadn't executed all of the opening set."""
        name = self.some()
        executed = self.executed[name]
        if executed is not None:
            self.executed[name] = executed - GtidSet.of([Gtid(uuid("e"), self.chance.randrange(1, 4))])

    def unsupported(self) -> None:
        """The head names what it can't hold."""
        what = self.chance.choice(["foreign-key", "foreign-key", "foreign-key", "prefix-key", "no-primary-key"])
        self.head.insert(self.chance.randrange(len(self.head) + 1), f"unsupported {what} d.t.{self.chance.choice('abc')}")

    def other_server(self) -> None:
        """A line of MariaDB's."""
        file = self.chance.choice(self.files[self.some()])
        file.insert(0, "/*!40019 SET @@session.max_delayed_threads=0*/;")

    def statement_open(self) -> None:
        """The event that ends a statement lacks its flag, and so its rows."""
        file = self.chance.choice(self.files[self.some()])
        places = [at for at, line in enumerate(file) if "STMT_END_F" in line]
        if places:
            at = self.chance.choice(places)
            file[at] = file[at].replace("STMT_END_F ", "")
            while file[at + 1].startswith("### "):
                del file[at + 1]

    def older(self) -> None:
        """The head is of a version that isn't taken."""
        self.version = self.chance.choice("124")

    def hidden(self) -> None:
        """The head has a hidden column, and a reference to a key."""
        self.head = [it.replace("table d.orders 3 pk 0 uk 1", "table d.orders 3 pk 0 uk 1 hidden 1") for it in self.head]
        places = [at for at, it in enumerate(self.head, 1) if it.startswith("table ")]
        self.head.insert(places[-1], self.chance.choice(["fk d.t 1 d.orders 0", "fk d.orders 2 d.orders 1 cascade"]))

    def nothing(self) -> None:
        """No damage."""


DAMAGE: list[Callable[[BundleOfLogs], None]] = [
    BundleOfLogs.nothing, BundleOfLogs.without_rows, BundleOfLogs.rows_lost, BundleOfLogs.file_lost, BundleOfLogs.end_lost, BundleOfLogs.more_executed,
    BundleOfLogs.nobody_asked, BundleOfLogs.not_opened, BundleOfLogs.unsupported, BundleOfLogs.other_server, BundleOfLogs.statement_open,
    BundleOfLogs.older, BundleOfLogs.hidden,
]


def head_text(chance: Random) -> str:
    """A head of version 3 without channels. Now and then it has rows and says that they aren't known, or a line that a bundle can't hold."""
    narrow = BundleMaker(chance).tidy_bundle(True)
    narrow.channels = []
    wide = Widener(chance).bundle(narrow)
    lines = [*bundle_lines(wide, 3)]
    if "rows" not in wide.assumptions and chance.randrange(4) == 0:
        lines.insert(-1, "assume rows")
    if chance.randrange(4) == 0:
        lines.insert(chance.randrange(len(lines)), f"unsupported foreign-key d.t.{chance.choice('abc')}")
    return "".join(f"{it}\n" for it in lines)


def logs_text(chance: Random) -> str:
    """The text of a bundle of logs, perhaps damaged; now and then a head alone."""
    if chance.randrange(10) == 0:
        return head_text(chance)
    made = BundleOfLogs(chance)
    for _ in range(chance.randrange(3)):
        chance.choice(DAMAGE)(made)
    return made.text()


def options(chance: Random) -> list[str]:
    """Some of the options."""
    granted = [it for it in ("--without-foreign-keys", "--executed-unknown") if chance.randrange(2)]
    return granted + ["--no-rows"] * (chance.randrange(4) == 0)
