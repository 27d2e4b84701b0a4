#!/usr/bin/env python3
"""Plays rounds on three servers that run, and tells counts and finds. (`random` starts the servers and calls it.)

usage: play.py SEED ROUNDS FOLDER PORTS SQL GTIDREP CLIENT..
    FOLDER gets a folder for each find; PORTS is what server N's port has before N; SQL is the folder of tables.sql and rows.sql; CLIENT is the command of a
    server's client, in which {} stands for the server's number. SEED may be SEED/ROUND: that round alone.
"""
import collections
import os
import shutil
import signal
import sys
import time

import rounds
from judge import Program
from servers import Client, Servers
from smaller import smaller


class Counts:
    def __init__(self):
        self.by = collections.Counter()
        self.kinds = collections.Counter()

    def add(self, it, outcome):
        said = outcome.said
        numbers = f" {','.join(map(str, outcome.numbers()))}" if outcome.numbers() else ""
        self.by[word_of(said.refused or said.verdict or outcome.wrong), word_of(said.ordered), outcome.went() if not outcome.wrong else "-", numbers.strip()] += 1
        self.kinds["bare sound" if said.verdict == "sound" else "no bare sound"] += 1
        self.kinds[f"servers that {outcome.went()}" if not outcome.wrong else "not begun"] += 1

    def tell(self):
        print("| gtidrep: audit | audit --ordered | The servers | Errors | Rounds |\n|---|---|---|---|---|")
        for (verdict, ordered, went, numbers), count in sorted(self.by.items()):
            print(f"| {verdict} | {ordered or '-'} | {went} | {numbers or '-'} | {count} |")
        print("; ".join(f"{name}: {count}" for name, count in sorted(self.kinds.items())))


def word_of(told):
    """A verdict without what it names: `shared`, `sound if references`, `refused import unsupported expression-key`."""
    words = told.split()
    if words[:2] == ["sound", "if"]:
        return "sound if " + ", ".join(sorted(rounds.assumed(told)))
    if words[:1] == ["refused"]:
        return "refused " + next((it for it in reversed(words) if it.isalpha() or "-key" in it and "." not in it), "")
    return words[0] if words else ""


def script_of(it):
    """All of a round as statements."""
    lines = [f"-- round {it.name}: {it.settings}", "-- the tables and rows of the opening", it.schema.create(), *(each.printed() for each in it.opening),
             it.schema.create_triggers()]
    for name, part in (("before they part", it.before), ("apart", it.apart)):
        for server, transactions in part.items():
            lines += [f"-- server {server}, {name}: {it.session[server]}", *(each.printed() for each in transactions)]
    return "\n".join(line for line in lines if line) + "\n"


def report(outcome):
    said = outcome.said
    again = f"audit, of the logs after that: {outcome.again.refused or outcome.again.verdict}" if outcome.again else ""
    lines = [f"audit: {said.refused or said.verdict}", f"audit --ordered: {said.ordered}", again, f"servers: {outcome.went()} {outcome.ended} {outcome.wrong}"]
    for name, rows in [*outcome.rows.items(), *((" ".join(("apply", *way)), lines) for way, lines in said.foretold.items())]:
        lines += [f"-- {name}", *rows]
    return "\n".join(lines) + "\n"


class Game:
    def __init__(self, folder, player):
        self.folder, self.player, self.counts, self.finds = folder, player, Counts(), []

    def whole(self, seed, numbers):
        """Plays all rounds, and tells the counts of those that were played, also where a server ends; the status."""
        signal.signal(signal.SIGTERM, signal.default_int_handler)
        wrong = []
        try:
            self.rounds(seed, numbers)
        except (KeyboardInterrupt, ConnectionError) as it:
            wrong = [f"ended before all rounds were played: {type(it).__name__} {it}"]
        wrong = [f"found: {it}" for it in self.finds] + wrong
        self.counts.tell()
        print("\n".join(wrong or ["all as it has to be"]))
        return 1 if wrong else 0

    def rounds(self, seed, numbers):
        begun = time.monotonic()
        for number in numbers:
            self.round(rounds.random_round(seed, number))
            if number % 50 == 0:
                print(f"{number} rounds in {time.monotonic() - begun:.0f} s, {len(self.finds)} finds", file=sys.stderr, flush=True)

    def round(self, it):
        outcome = self.player.play(it)
        self.counts.add(it, outcome)
        what = rounds.find(it, outcome) or self.without_references(it, outcome)
        if what:
            self.found(it, what)

    def without_references(self, it, outcome):
        """Where foreign keys may be why servers stop or differ: what the same round shows without them."""
        if outcome.went() == "agree" or "references" not in rounds.assumed(outcome.said.verdict):
            return ""
        for reference in it.schema.references:
            reference.gone = True
        return rounds.find(it, self.player.play(it))

    def found(self, it, what):
        """Makes a find smaller, and keeps it as it was seen last (what goes by time isn't seen in each play)."""
        self.finds.append(f"{it.name}: {what}")
        print(f"FOUND in round {it.name}: {what}", flush=True)
        folder = os.path.join(self.folder, it.name.replace("/", "-"))
        shutil.rmtree(folder, ignore_errors=True)
        os.makedirs(folder)

        def shows():
            outcome = self.player.play(it, not what.startswith(("refused", "odd")))
            seen = rounds.find(it, outcome) == what
            if seen:
                self.keep(it, folder, f"{what}\n{report(outcome)}")
            return seen

        shows()
        smaller(it, shows)
        print(f"  made smaller: {folder}", flush=True)

    def keep(self, it, folder, told):
        for name, text in (("statements.sql", script_of(it)), ("outcome", told)):
            with open(os.path.join(folder, name), "w", encoding="utf-8", errors="surrogateescape") as file:
                file.write(text)
        for name in ("head", "bundle"):
            if os.path.exists(self.player.program.place(name)):
                shutil.copy(self.player.program.place(name), folder)


def main():
    seed, count, folder, ports, sql, gtidrep, *client = sys.argv[1:]
    servers = Servers(client, ports, sql)
    writers = {it: Client([word.replace("{}", str(it)) for word in client]) for it in (1, 2)}
    game = Game(folder, rounds.Play(servers, writers, Program(gtidrep, folder)))
    seed, _, chosen = seed.partition("/")
    sys.exit(game.whole(seed, [int(chosen)] if chosen else range(1, int(count) + 1)))


if __name__ == "__main__":
    main()
