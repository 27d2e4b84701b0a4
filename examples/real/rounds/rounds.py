"""A round: a random schema, random transactions of two servers, what gtidrep says of their logs, and what the servers do."""
import random
import re
from dataclasses import dataclass, field, replace

import changes
import schema as schemas
from judge import SIDES, Said
from servers import errors

# what two servers' transactions may meet in: nothing, values of unique keys, or rows
MEETINGS = {"apart": {"meet": 0, "same": 0}, "meet": {"meet": 0.16, "same": 0}, "same": {"meet": 0.1, "same": 0.35}}
SESSION = {"sql_mode": ["DEFAULT", "''", "'ANSI,PIPES_AS_CONCAT'", "'STRICT_ALL_TABLES,NO_BACKSLASH_ESCAPES'", "'NO_AUTO_VALUE_ON_ZERO,TIME_TRUNCATE_FRACTIONAL'"],
           "time_zone": ["'+00:00'", "'+05:30'", "'-11:00'"], "unique_checks": ["1", "1", "0"], "foreign_key_checks": ["1", "1", "1", "0"],
           "transaction_isolation": ["'REPEATABLE-READ'", "'READ-COMMITTED'", "'SERIALIZABLE'"], "collation_connection": ["utf8mb4_0900_ai_ci", "utf8mb4_bin", "latin1_swedish_ci"],
           "binlog_rows_query_log_events": ["0", "0", "1"], "div_precision_increment": ["4", "4", "10"], "lc_time_names": ["'en_US'", "'en_US'", "'de_DE'"]}


@dataclass
class Round:
    name: str
    schema: schemas.Schema
    opening: list
    # (before the servers part, each follows the other)
    before: dict
    apart: dict
    settings: dict
    session: dict

    def transactions(self):
        return [it for part in (self.before, self.apart) for side in part.values() for it in side]

    def statements(self):
        return [it for each in self.transactions() for it in each.statements] + self.opening


@dataclass
class Outcome:
    said: Said
    ended: dict = field(default_factory=dict)
    rows: dict = field(default_factory=dict)
    executed: str = ""
    # (of the logs that have what each got of the other)
    again: Said = None
    wrong: str = ""

    def went(self):
        """What the servers did."""
        if any(it is None for it in self.ended.values()):
            return "hang"
        if any(self.ended.values()):
            return "stop"
        return "agree" if all(it == self.rows[1] for it in self.rows.values()) else "differ"

    def numbers(self):
        return sorted({number for it in self.ended.values() for number in it or []})


# ---- making a round of a seed

def chances_of(dice):
    """What this round may have: most have keys and no more, so that the verdict assumes nothing."""
    turn = dice.random()
    made = {"keyless": 0, "references": 0, "refused": 0, "triggers": 0.1, "maintenance": 0.03, "statements": 0, "odd": 0.15}
    if turn < 0.08:
        made["keyless"] = 0.5
    elif turn < 0.22:
        made["references"] = 1
    elif turn < 0.26:
        made["refused"] = 0.5
    elif turn < 0.31:
        made["statements"] = 0.08
    return {**made, **MEETINGS[dice.choices(["apart", "meet", "same"], [26, 52, 22])[0]]}


def settings_of(dice, chances):
    before = dice.choices(["none", "apart", "handed"], [70, 18, 12])[0]
    return {"before": before, "logged": dice.random() < 0.12, "accept": chances["statements"] > 0 and dice.random() < 0.7, "third first": dice.random() < 0.5,
            "again": dice.random() < 0.4,
            "metadata": dice.choice(["FULL", "FULL", "MINIMAL"]), "checksum": "NONE" if dice.random() < 0.03 else "CRC32", "increment": dice.choice([1, 2, 2]),
            "workers": {it: dice.choice([0, 1, 4, 4, 8]) for it in (1, 2, 3)}, "preserve": {it: dice.random() < 0.6 for it in (1, 2, 3)}}


def session_of(dice):
    return {name: dice.choice(ways) if dice.random() < 0.3 else ways[0] for name, ways in SESSION.items()}


def sides_of(dice, chances, schema, opened):
    """Both servers as writers: the opening's rows belong to one of them each, by their numbers."""
    numbers = {table: [] for table in opened}
    return {it: changes.Side(it % 2, dice, chances, {table: [replace(row) for row in rows] for table, rows in opened.items()}, numbers) for it in SIDES}


def random_round(seed, number):
    dice = random.Random(f"{seed} {number}")
    chances = chances_of(dice)
    schema = schemas.random_schema(dice, chances)
    opened = {it.place(): changes.opening_rows(it, dice, dice.choice([0, 2, 4, 8])) for it in changes.targets(schema)}
    opening = [changes.Statement("INSERT IGNORE INTO", table, [row]) for table in changes.targets(schema) for row in opened[table.place()]]
    sides, settings = sides_of(dice, chances, schema, opened), settings_of(dice, chances)
    before = {it: [] for it in SIDES}
    if settings["before"] != "none":
        same = {"handed": 0.5}.get(settings["before"], 0)
        before = {it: with_chance(side, {"same": same, "meet": 0}, lambda side=side: changes.transactions(side, schema, dice.randint(1, 4))) for it, side in sides.items()}
    apart = {it: changes.transactions(side, schema, dice.randint(1, 10)) for it, side in sides.items()}
    return Round(f"{seed}/{number}", schema, opening, before, apart, settings, {it: session_of(dice) for it in SIDES})


def with_chance(side, chances, make):
    """What is made by other chances. (A server that goes on with the other's rows may change all of them.)"""
    kept, side.chances = side.chances, {**side.chances, **chances}
    made = make()
    side.chances = kept
    return made


# ---- playing it on the servers

class Play:
    def __init__(self, servers, writers, program):
        self.servers, self.writers, self.program = servers, writers, program
        self.drop = servers.drops()

    def play(self, it, replicates=True):
        """The outcome of a round; of what the servers do, if `replicates`."""
        self.servers.anew(self.drop)
        self.drop = it.schema.drop()
        self.set_servers(it.settings)
        opening = self.open(it)
        rows = self.servers.rows([1, 2, 3])
        if rows[1] != rows[2] or rows[1] != rows[3] or any(not line.startswith("row ") for line in rows[1]):
            return Outcome(Said(), wrong="the servers don't begin with the same rows")
        if not self.write_before(it):
            return Outcome(Said(), wrong="the servers don't follow one another before they part")
        self.write(it, it.apart)
        said = self.judge(it, opening, rows[1])
        if not replicates:
            return Outcome(said, rows={1: rows[1]})
        outcome = Outcome(said, self.replicate(it))
        if not any(outcome.ended.values()):
            outcome.rows = self.servers.rows([1, 2, 3])
            if it.settings["again"]:
                outcome.again = self.judge(it, opening, rows[1])
        outcome.executed = self.servers.value(3, "@@GLOBAL.gtid_executed")
        return outcome

    def set_servers(self, settings):
        for server in self.servers.numbers:
            workers, preserve = settings["workers"][server], settings["preserve"][server]
            self.servers.ask(server, f"SET GLOBAL binlog_row_metadata = {settings['metadata']}, GLOBAL binlog_checksum = {settings['checksum']}, "
                             f"GLOBAL replica_parallel_workers = {max(workers, 1)}, GLOBAL replica_preserve_commit_order = {'ON' if preserve else 'OFF'}; "
                             "RESET BINARY LOGS AND GTIDS;")

    def open(self, it):
        """The tables and rows that all begin with: in no log, or as transactions of the opening set. The opening set."""
        rows = "\n".join(["SET SESSION sql_mode = '', foreign_key_checks = 0, time_zone = '+00:00';", *(each.printed() for each in it.opening),
                          "SET SESSION sql_mode = DEFAULT, foreign_key_checks = 1;"])
        script = f"{it.schema.create()}\n{rows}\n{it.schema.create_triggers()}\n"
        if it.settings["logged"]:
            self.servers.ask(1, f"SET SESSION sql_log_bin = 1;\n{script}")
            return self.follow_opening()
        self.servers.ask_each(f"SET SESSION sql_log_bin = 0;\n{script}SET SESSION sql_log_bin = 1;")
        return ""

    def follow_opening(self):
        opening = self.servers.value(1, "@@GLOBAL.gtid_executed")
        self.servers.start([(2, 1), (3, 1)])
        self.servers.wait(opening, [2, 3])
        self.servers.ask_each("STOP REPLICA; RESET REPLICA ALL;", [2, 3])
        return opening

    def write(self, it, part):
        for server, transactions in part.items():
            increment = it.settings["increment"]
            session = ", ".join(f"{name} = {value}" for name, value in it.session[server].items())
            lines = [f"SET SESSION {session}, auto_increment_increment = {increment}, auto_increment_offset = {1 if increment == 1 else server};",
                     *(each.printed() for each in transactions), "ROLLBACK;"]
            self.writers[server].send("\n".join(lines))
        return {server: self.writers[server].answer() for server in part}

    def write_before(self, it):
        """While each follows the other, one writes, and then the other one, which has all of it."""
        if not any(it.before.values()):
            return True
        self.servers.start([(1, 2), (2, 1)])
        for server in SIDES:
            self.write(it, {server: it.before[server]})
            ended = self.servers.wait(self.servers.union([1, 2]), [1, 2])
            if any(each != [] for each in ended.values()):
                return False
        self.servers.ask_each("STOP REPLICA; RESET REPLICA ALL;", [1, 2])
        return True

    # ---- gtidrep

    def judge(self, it, opening, rows):
        head = ["bundle 3", "replica cccccccc-cccc-cccc-cccc-cccccccccccc", f"opening {opening or '-'}"]
        lines = self.servers.tables(1, 0)
        keyless = any(line.startswith("unsupported no-primary-key") for line in lines)
        if keyless:
            lines = self.servers.tables(1, 1)
        head += lines + ([] if keyless else rows)
        executed = {server: self.servers.value(server, "@@GLOBAL.gtid_executed") for server in SIDES}
        head += [f"channel {side} executed {executed[server] or '-'}" for server, side in SIDES.items()] + ["done", ""]
        options = ["--no-rows"] * keyless
        if it.settings["accept"]:
            options += ["--accept", self.servers.union([1, 2])]
        files = {side: self.files(server) for server, side in SIDES.items()}
        return self.program.judge("\n".join(head), files, options)

    def files(self, server):
        folder = self.servers.value(server, "@@datadir")
        return [folder + line.split("\t")[0] for line in self.servers.ask(server, "SHOW BINARY LOGS;")[1:]]

    # ---- what the servers do

    def replicate(self, it):
        """Each follows the other, and the third both: before the two have the other's transactions in their logs, or at once."""
        wanted = self.servers.union([1, 2])
        common = it.settings["before"] != "none" or not it.settings["third first"]
        if common:
            # (a server that preserves the order of two channels may hang where both bring the same transactions: examples/mysql/third)
            self.servers.ask(3, "SET GLOBAL replica_preserve_commit_order = OFF;")
        self.servers.start([(3, 1), (3, 2)] + ([] if it.settings["third first"] else [(1, 2), (2, 1)]))
        ended = self.servers.wait(wanted, [3] if it.settings["third first"] else [1, 2, 3])
        if it.settings["third first"]:
            self.servers.start([(1, 2), (2, 1)])
            ended.update(self.servers.wait(wanted, [1, 2]))
        return ended


# ---- what is right

def reasons(it):
    """The words by which an import may refuse this round."""
    found = set()
    keys = [key for table in it.schema.here() for key in table.keys_here() if key.unique()]
    if any(part.expression for key in keys for part in key.parts):
        found.add("expression-key")
    if any(key.name == "refused" for key in keys) or other_collations(it):
        found |= {"prefix-key", "key"}
    if any(by_session(table, line) for table in it.schema.here() for line in [column.made_as for column in table.present().values()] + [each.words for each in table.lines]):
        found |= {"session-column", "session-check"}
    if any(is_statement(it, each.words) for each in it.statements()):
        found.add("statement")
    return found


def by_session(table, expression):
    """Whether the value of an expression goes by a session's variables."""
    stamps = [schemas.quoted(it.name) for it in table.present().values() if it.kind.kind == "timestamp"]
    return " / " in expression or "%M" in expression or any(it in expression for it in stamps)


def is_statement(it, words):
    """Whether the log has a statement that isn't taken: one that isn't of maintenance, or has a name that is not plain (a FLUSH: any name that is quoted);
    or a savepoint of a session with ANSI_QUOTES, which the log has in double quotes."""
    if words.startswith("SAVEPOINT"):
        return any("ANSI" in side["sql_mode"] for side in it.session.values())
    return re.match(r"CREATE|ALTER|TRUNCATE|FLUSH TABLES `|((?i:ANALYZE|OPTIMIZE).*[^A-Za-z0-9_$.,` ;-])", words) is not None


def other_collations(it):
    return any(part.column and table.present()[part.column].kind.collation in schemas.values.OTHER
               for table in it.schema.here() for key in table.keys_here() if key.unique() for part in key.parts)


def foretold(outcome, way):
    """Whether the servers hold what is foretold."""
    lines = outcome.said.foretold.get(way, [])
    rows = sorted(line for line in lines if line.startswith("row "))
    executed = [line.split(" ", 1)[1] for line in lines if line.startswith("executed ")]
    return rows == outcome.rows[3] and executed == [outcome.executed or "-"]


def assumed(verdict):
    return {it.split(" ")[0] for it in verdict[len("sound if "):].split(", ")} if verdict.startswith("sound if ") else set()


def promise(verdict, way, outcome):
    """What is wrong where the verdict promises that servers go on, and hold what is foretold; an empty text where nothing is."""
    excused = assumed(verdict) & {"statements", "opening"} or ("references" in assumed(verdict) and outcome.went() in ("stop", "differ"))
    if not verdict.startswith("sound") or excused:
        return ""
    name = "sound" if not way else "ordered sound"
    if outcome.went() != "agree":
        return f"{name}, {outcome.went()}"
    return "" if "rows" in assumed(verdict) or foretold(outcome, way) else f"{name}, not the foretold rows"


def find(it, outcome):
    """What in the outcome of a round is not as it has to be: a text that begins with its kind, or an empty one."""
    if outcome.wrong:
        return outcome.wrong
    if outcome.went() == "hang":
        return "hang"
    said = outcome.said
    if said.refused:
        return "" if any(f" {word}" in said.refused for word in reasons(it)) else f"refused: {' '.join(said.refused.split()[:3])}"
    odd = [each for each in (said.verdict, said.ordered) if each and each.split(" ")[0] not in ("sound", "shared", "concurrent", "reordered")]
    if odd:
        return f"odd: {odd[0].split(' ')[0]}"
    if not outcome.ended:
        return ""
    return promise(said.verdict, (), outcome) or promise(said.ordered, ("--ordered",), outcome) or find_again(outcome)


def find_again(outcome):
    """The logs that have all transactions have the verdict that those had before: where servers agreed, unless each changed what the other had changed; and where
    they differ it isn't `sound`. (Of a table without a key, for which rows are assumed, a replica logs the rows of a statement in an order of its own.)"""
    before, again = outcome.said.verdict, outcome.again
    if not again:
        return ""
    told = again.refused or again.verdict
    if told.startswith("unequal") and "rows" in assumed(before):
        return ""
    if before.startswith("sound") and outcome.went() == "agree":
        return "" if assumed(told) == assumed(before) and told.startswith("sound") else f"again: {' '.join(told.split()[:1])} after sound"
    return "again: sound where servers differ" if told.startswith("sound") and outcome.went() == "differ" and not assumed(told) & {"references", "statements"} else ""
