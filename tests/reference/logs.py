"""The reader of bundles of logs: what `import` prints. Written independently, from docs/FORMATS.md (section 8), for the lines that
random_logs.py writes, and compared with the proved program."""
from __future__ import annotations

import re
from collections.abc import Iterator
from dataclasses import dataclass, field

from .formats import Bundle, Channel, Entry, Journal, Refused, assumption_order, bundle_lines, read_bundle
from .gtids import Gtid, GtidSet, gtid_in, set_in
from .rows import Change, Row, Value

HEAD = re.compile(r"#\d[^\t]*\t(.*)")
ROWS = re.compile(r"(?:Write|Update|Delete)_rows: table id \d+ ?(flags: STMT_END_F)?")
MAPPED = re.compile(r"Table_map: `([^`]*)`\.`([^`]*)` mapped to number \d+")
COLUMN = re.compile(r"# (?:Columns\(|        )`\w+` (.*)[,)]")
NAMED = re.compile(r"SET @@SESSION\.GTID_NEXT= '(.*)'/\*!\*/;")
ROW = re.compile(r"### (INSERT INTO|UPDATE|DELETE FROM) `([^`]*)`\.`([^`]*)`")
VALUE = re.compile(r"###   @(\d+)=(.*)")
ESCAPES = {"b": 8, "t": 9, "n": 10, "f": 12, "r": 13, "'": 39, "\\": 92}
LAST = ["DELIMITER ;", "# End of log file", "/*!50003 SET COMPLETION_TYPE=@OLD_COMPLETION_TYPE*/;", "/*!50530 SET @@SESSION.PSEUDO_SLAVE_MODE=0*/;"]


def refuse(line: int, word: str) -> None:
    """Raises the refusal of a line."""
    raise Refused(f"refused import line {line} {word}")


def name_in(database: str, table: str) -> str:
    """The name of a table of a database: each byte but letters, digits and three signs of ASCII is an escape."""
    parts = (re.sub(rb"[^A-Za-z0-9_$-]", lambda it: b"%%%02x" % ord(it[0]), it.encode("latin-1")) for it in (database, table))
    return b".".join(parts).decode()


def value_in(text: str) -> Value:
    """The value of a BIGINT or of a VARBINARY."""
    if text == "NULL":
        return None
    if not text.startswith("'"):
        return int(text.split(" ")[0])
    found, at = bytearray(), 1
    while text[at] != "'":
        if text[at] != "\\":
            found.append(ord(text[at]))
            at += 1
        elif text[at + 1] == "x":
            found.append(int(text[at + 2 : at + 4], 16))
            at += 4
        else:
            found.append(ESCAPES[text[at + 1]])
            at += 2
    return bytes(found)


@dataclass
class Log:
    """A log as far as it has been read."""

    opening: GtidSet
    previous: GtidSet = field(default_factory=GtidSet)
    entries: list[Entry] = field(default_factory=list)
    files: int = 0
    event: str = ""
    gtid: Gtid | None = None
    is_begun: bool = False
    is_open: bool = False
    changes: list[Change] = field(default_factory=list)
    images: list[list[Value]] = field(default_factory=list)
    row: tuple[str, str] | None = None

    def came(self) -> GtidSet:
        """What came before this place."""
        return self.opening | self.previous | GtidSet.of(it.gtid for it in self.entries)

    def end_row(self) -> None:
        """The row that is open is one of the changes."""
        if self.row:
            kind, table = self.row
            images: list[Row] = [tuple(it) for it in self.images]
            before = None if kind == "INSERT INTO" else images[0]
            after = None if kind == "DELETE FROM" else images[-1]
            self.changes.append(Change(table, before, after))
        self.row, self.images = None, []

    def commit(self, line: int) -> None:
        """The transaction ends."""
        if not self.is_begun or self.is_open or self.gtid is None:
            refuse(line, "transaction")
            return
        self.entries.append(Entry(self.gtid, tuple(self.changes)))
        self.gtid, self.is_begun, self.changes = None, False, []

    def take_sources(self, line: int, text: str) -> None:
        """A line of a previous set."""
        found = set_in(text.rstrip(","))
        if found is None:
            refuse(line, "gtid")
            return
        if self.files > 1 and not found <= self.came():
            refuse(line, "gap")
        if not self.entries and self.gtid is None:
            self.previous = self.previous | found

    def take_statement(self, line: int, text: str) -> None:
        """The text of a statement."""
        if text == "BEGIN":
            self.is_begun = True
        elif text == "COMMIT":
            self.commit(line)
        elif re.fullmatch(r"(FLUSH|flush) [A-Za-z_ ]*", text) or re.fullmatch(r"(?i:analyze|optimize) [A-Za-z0-9_$.,` -]*", text):
            self.is_begun = True
            self.commit(line)
        elif not re.fullmatch(r"SAVEPOINT `\w+`", text):
            refuse(line, "statement")

    def take_row(self, text: str) -> None:
        """A line of a row."""
        found = ROW.fullmatch(text)
        if found:
            self.end_row()
            self.row = found[1], name_in(found[2], found[3])
        elif text in ("### WHERE", "### SET"):
            self.images.append([])
        elif not text.startswith("### Extra row info for partitioning: "):
            value = VALUE.fullmatch(text)
            assert value, text
            self.images[-1].append(value_in(value[2]))

    def take_line(self, line: int, text: str) -> None:
        """Any line but those round the events of a file."""
        head = HEAD.fullmatch(text)
        if self.event == "due" and not text.startswith("### "):
            refuse(line - 1, "rows")
        if text.startswith("### "):
            self.event = "rows"
            self.take_row(text)
        elif text.startswith("# at ") or text.endswith("'AUTOMATIC' /* added by mysqlbinlog */ /*!*/;"):
            self.end_row()
            self.event = ""
        elif text.startswith(("/*!100", "/*M!", "/*!40019 SET @@session.max_delayed_threads=")):
            refuse(line, "mariadb")
        elif head:
            self.take_head(line, head[1])
        elif NAMED.fullmatch(text):
            self.take_gtid(line, text)
        elif self.event == "previous" and text != "# [empty]":
            self.take_sources(line, text[2:])
        elif self.event == "query" and not text.startswith(("SET ", "/*!", "use `")):
            self.take_statement(line, text)
        elif text == "COMMIT/*!*/;":
            self.commit(line)

    def take_gtid(self, line: int, text: str) -> None:
        """The GTID of the transaction that follows."""
        found = NAMED.fullmatch(text)
        assert found
        self.gtid = gtid_in(found[1])
        if self.gtid is None:
            refuse(line, "gtid")

    def take_head(self, line: int, text: str) -> None:
        """The head of an event."""
        rows, mapped = ROWS.match(text), MAPPED.fullmatch(text)
        if rows:
            if not self.is_begun:
                refuse(line, "transaction")
            self.is_open = not rows[1]
            self.event = "due" if rows[1] else ""
        elif text.startswith("Previous-GTIDs"):
            self.files += 1
            self.event = "previous"
        elif text.startswith("Query\t"):
            self.event = "query"
        elif mapped or text.startswith(("GTID\t", "Xid = ", "Start: ", "Rotate to ", "Stop")):
            self.event = "other"
        elif text.startswith(("GTID ", "Gtid list ")):
            refuse(line, "mariadb")
        else:
            refuse(line, "format")

    def journal(self) -> Journal:
        """The journal that it describes, where no GTID stands twice."""
        seen = self.previous.copy()
        for entry in self.entries:
            if entry.gtid in seen:
                raise Refused(f"refused E16 twice {entry.gtid}")
            seen.add(entry.gtid)
        return Journal(self.previous, self.entries)


def read_log(opening: GtidSet, first: int, lines: list[str]) -> Journal:
    """The journal of a log whose first line has this number."""
    log = Log(opening)
    for number, text in enumerate(lines, first):
        if text not in LAST:
            log.take_line(number, text)
    if LAST[1] not in lines:
        refuse(first + len(lines), "unfinished")
    return log.journal()


@dataclass
class Imported:
    """A bundle of logs as it is read, with what is granted."""

    lines: list[str]
    granted: set[str]
    assumed: list[str] = field(default_factory=list)

    def head(self) -> Bundle:
        """The bundle that the lines before the first channel begin; a refusal has the number of its line among all lines."""
        end = next(self.own(0))
        places = [at for at in range(end) if not self.lines[at].startswith("unsupported ")]
        for text in self.lines[:end]:
            if text.startswith("unsupported "):
                self.pass_over(text)
        try:
            return read_bundle("".join(f"{it}\n" for it in [*(self.lines[at] for at in places), "done"]), {"3"})
        except Refused as refused:
            line = re.sub(r"(?<=line )\d+", lambda it: str([*places, end][int(it[0]) - 1] + 1), refused.line)
            raise Refused(line) from None

    def pass_over(self, text: str) -> None:
        """Passes over what the bundle can't hold, where that is granted."""
        what = text.split(" ")[1]
        if what != "foreign-key" or "--without-foreign-keys" not in self.granted:
            raise Refused(f"refused import {text}")
        self.assumed = ["references"]

    def own(self, first: int) -> Iterator[int]:
        """The places of the bundle's own lines, from this one on."""
        return (at for at in range(first, len(self.lines)) if self.lines[at] == "done" or self.lines[at].startswith("channel "))

    def bundle(self) -> Bundle:
        """The bundle, where nothing is refused."""
        bundle = self.head()
        places = list(self.own(0))
        said: list[tuple[Channel, GtidSet]] = []
        for at, behind in zip(places, places[1:]):
            if bundle.assumptions:
                raise Refused(f"refused E14 line {at + 1} keyword")
            name, *words = self.lines[at].removeprefix("channel ").split(" ")
            preserve = words[:1] == ["preserve"]
            words = words[preserve:]
            executed = set_in(words[1]) if words else None
            if not words and "--executed-unknown" not in self.granted:
                refuse(at + 1, "executed")
            channel = Channel(name, preserve, read_log(bundle.opening, at + 2, self.lines[at + 1 : behind]))
            bundle.channels.append(channel)
            if executed is None:
                self.assumed.append(f"executed {name}")
                continue
            said.append((channel, executed))
            lacks = bundle.opening - executed
            if lacks:
                self.assumed.append(f"opening {name} {lacks}")
        self.assume(bundle, places)
        for channel, executed in said:
            lost = executed - bundle.opening - channel.journal.whole()
            if lost:
                raise Refused(f"refused import executed {channel.name} {lost}")
        return bundle


    def assume(self, bundle: Bundle, places: list[int]) -> None:
        """What is assumed, before the last line, which has to come, and behind what the head itself has assumed."""
        if not places or self.lines[places[-1]] != "done":
            return
        last, found = bundle.assumptions[-1:], sorted(self.assumed + ["rows"] * ("--no-rows" in self.granted), key=assumption_order)
        bundle.assumptions += found
        if last and found and not assumption_order(last[0]) < assumption_order(found[0]):
            raise Refused(f"refused E14 line {places[-1] + 1} body")
        if found[-1:] == ["rows"] and bundle.rows.carriers:
            raise Refused(f"refused E14 line {places[-1] + 1} schema")


def imported(text: str, options: list[str]) -> tuple[str, int, str]:
    """What is printed, the status, and what is told on standard error."""
    found = Imported(text.split("\n")[:-1], set(options))
    try:
        bundle = found.bundle()
    except Refused as refusal:
        return "", 1, f"{refusal.line}\n"
    return "".join(f"{it}\n" for it in bundle_lines(bundle, 3)), 0, ""
