"""The three servers of a round, asked by clients that stay connected: what they are given, what they replicate, and what they hold."""
import queue
import re
import subprocess
import threading
import time

MARK = "-- all of it was answered --"


class Client:
    """The mysql client of a server, as a process that stays. Its words are those of the command that starts it."""

    def __init__(self, words):
        self.process = subprocess.Popen([*words, "--batch", "--raw", "--force", "--unbuffered", "--commands", "--default-character-set=utf8mb4"], stdin=subprocess.PIPE,
                                        stdout=subprocess.PIPE, stderr=subprocess.STDOUT)
        self.lines = queue.Queue()
        threading.Thread(target=self.read, daemon=True).start()

    def read(self):
        for line in self.process.stdout:
            self.lines.put(line.rstrip(b"\n").decode("utf-8", "surrogateescape"))
        self.lines.put(None)

    def send(self, statements):
        self.process.stdin.write(f"{statements}\nSELECT '{MARK}' AS `{MARK}`;\n".encode("utf-8", "surrogateescape"))
        self.process.stdin.flush()

    def answer(self, seconds=120):
        """The lines of what was sent, those of its errors too."""
        made, marks = [], 0
        # (the mark is the name of its column too)
        while marks < 2:
            line = self.lines.get(timeout=seconds)
            if line is None:
                raise ConnectionError("a client has ended")
            marks += line == MARK
            made.append(line)
        return made[:-2]

    def ask(self, statements):
        self.send(statements)
        return self.answer()


def errors(lines):
    return [it for it in lines if re.match(r"ERROR \d+ ", it)]


class Servers:
    def __init__(self, words, ports, folder):
        self.numbers = [1, 2, 3]
        self.clients = {it: Client([word.replace("{}", str(it)) for word in words]) for it in self.numbers}
        self.ports, self.folder, self.sql = ports, folder, {}

    def ask(self, server, statements):
        return self.clients[server].ask(statements)

    def value(self, server, expression):
        """The value of an expression, on one line."""
        lines = self.ask(server, f"SELECT REPLACE({expression}, '\\n', '') AS it;")
        return lines[1] if len(lines) == 2 else ""

    def ask_each(self, statements, servers=None):
        """Asks some servers the same at once; the answers by server."""
        for it in servers or self.numbers:
            self.clients[it].send(statements)
        return {it: self.clients[it].answer() for it in servers or self.numbers}

    def drops(self):
        """Statements that drop all databases but the servers' own."""
        lines = self.ask_each("SELECT CONCAT('DROP DATABASE IF EXISTS `', REPLACE(SCHEMA_NAME, '`', '``'), '`;') FROM information_schema.SCHEMATA "
                              "WHERE SCHEMA_NAME NOT IN ('mysql', 'sys', 'information_schema', 'performance_schema');")
        return "\n".join({line for it in lines.values() for line in it[1:]})

    # ---- replication

    def anew(self, drop):
        """All servers without databases, logs and channels."""
        self.ask_each("STOP REPLICA; RESET REPLICA ALL;")
        self.ask_each(f"SET SESSION sql_log_bin = 0, foreign_key_checks = 0; {drop} SET SESSION foreign_key_checks = 1; RESET BINARY LOGS AND GTIDS;")

    def follow(self, server, source):
        return (f"CHANGE REPLICATION SOURCE TO SOURCE_HOST='127.0.0.1', SOURCE_PORT={self.ports}{source}, SOURCE_USER='copy', SOURCE_PASSWORD='copy', "
                f"SOURCE_AUTO_POSITION=1, GET_SOURCE_PUBLIC_KEY=1 FOR CHANNEL 'c{source}';")

    def start(self, pairs):
        """Starts each channel of (server, source)."""
        for server in {it for it, _ in pairs}:
            lines = self.ask(server, "".join(self.follow(server, source) for it, source in pairs if it == server) + "START REPLICA;")
            if errors(lines):
                raise RuntimeError(f"server {server} doesn't replicate: {errors(lines)}")

    def stopped(self, server):
        """The numbers of the errors at which a server's channels stopped (2xxx: a channel that connects once more)."""
        matches = (re.match(r" *Last_(?:IO|SQL)_Errno: (?!2\d{3}$)([1-9]\d*)$", it) for it in self.ask(server, "SHOW REPLICA STATUS\\G"))
        return [int(it[1]) for it in matches if it]

    def union(self, servers):
        sets = [self.value(it, "@@GLOBAL.gtid_executed") for it in servers]
        return self.value(1, f"GTID_SUBTRACT('{','.join(it for it in sets if it)}', '')")

    def wait(self, wanted, servers, seconds=20):
        """By server: [] where it has executed all of a set, the errors where it stopped, and None where neither came in time."""
        ended, end = {}, time.monotonic() + seconds
        while len(ended) < len(servers) and time.monotonic() < end:
            time.sleep(0.02)
            for it in servers:
                if it not in ended and self.value(it, f"GTID_SUBSET('{wanted}', @@GLOBAL.gtid_executed)") == "1":
                    ended[it] = []
                elif it not in ended and self.stopped(it):
                    time.sleep(0.05)
                    ended[it] = self.stopped(it)
        return {it: ended.get(it) for it in servers}

    # ---- what they hold

    def query(self, server, name, no_rows=0):
        """What a query of examples/mysql prints, with the name of its column before it."""
        if name not in self.sql:
            with open(f"{self.folder}/{name}.sql", encoding="utf-8") as it:
                self.sql[name] = it.read()
        return self.ask(server, f"SET time_zone = '+00:00', @dbs = NULL, @no_rows = {no_rows};\n{self.sql[name]}")

    def tables(self, server, no_rows):
        return self.query(server, "tables", no_rows)[1:]

    def rows(self, servers):
        """The `row` lines of some servers, sorted. What isn't one is an error."""
        made = {}
        for it in servers:
            selects = "\n".join(line for line in self.query(it, "rows") if line.startswith("SELECT "))
            lines = self.ask(it, selects) if selects else []
            made[it] = sorted(line for line in lines if not line.startswith("CONCAT_WS('"))
        return made
