"""What the history of `apply --by replica --history` must be: a script of the replica that the bundle opens and serves, and of the events of
the history, is answered with the replies of the history, and leaves the state that was printed. Written independently, from docs/FORMATS.md
and docs/SCRIPTS.md."""
from __future__ import annotations

import re
from collections.abc import Callable, Iterator

from .formats import Bundle

HISTORY_LINE = re.compile(r"([0-9]+) ([0-9]+) (take|commit|rollback) ([0-9]+)((?: [0-9]+ [0-9]+)?) -> (.*)")


def opening_lines(bundle: Bundle) -> Iterator[str]:
    """The script of the replica, before a seat has done anything, and after it was served all journals."""
    yield from ["version 3"] if bundle.version == "3" else []
    yield from (table.line() for table in bundle.schema.values())
    yield from (f"fk {it}" for it in bundle.references)
    yield from bundle.rows.lines(is_whole=True)
    yield f"core {bundle.replica} {bundle.opening.word()}"
    for number, channel in enumerate(bundle.channels):
        yield f"channel {channel.name}{' preserve' if channel.preserve else ''}"
        yield f"position {number}"
        for entry in channel.journal.entries:
            if entry.gtid not in bundle.opening:
                yield from [f"receive {number} {entry.gtid}", *(it.line() for it in entry.changes), "end"]


def objection(bundle: Bundle, output: str, told: str, workers: int, play: Callable[[str], str]) -> str | None:
    """What is wrong with a history, or None. `play` answers a script."""
    lines = told.split("\n")[:-1]
    found = [HISTORY_LINE.fullmatch(line) for line in lines]
    events, replies = [], []
    for place, (line, it) in enumerate(zip(lines, found)):
        if not it or int(it[1]) != place or it[2] != it[4] or not 1 <= int(it[2]) <= workers:
            return f"line {place + 1} of the history is {line!r}"
        events.append(f"{it[3]} {it[4]}{it[5]}")
        replies.append(it[6])
    script = [*opening_lines(bundle), "look", *events, "executed", "rows"]
    answers = play("".join(f"{line}\n" for line in script)).split("\n")[:-1]
    before = next(at for at, line in enumerate(answers) if line.startswith("Shown(")) + 1
    played, after = answers[before : before + len(events)], answers[before + len(events) :]
    for place, (has, due) in enumerate(zip(replies, played)):
        if has != due:
            return f"line {place + 1} of the history replies {has!r}, a replica {due!r}"
    state = output.split("\n")[:-1]
    if state and state[0].startswith("executed ") and [f"executed {after[0]}", *after[1:]] != state:
        return f"the history leaves {after[:3]!r}"
    return None

