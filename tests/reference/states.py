"""What several servers have executed, beside one another: the command `states`. Written from docs/FORMATS.md and compared with the proved
program."""
from __future__ import annotations

from collections.abc import Iterator
from functools import reduce

from .gtids import GtidSet, Span
from .set_text import TextFault, read_set, read_source


def lines_of(text: str) -> Iterator[str]:
    """The lines of a text, each without its line feed and the carriage return before that."""
    *whole, rest = text.split("\n")
    yield from (line.removesuffix("\r") for line in whole)
    if rest:
        yield rest


def server_of(line: str) -> tuple[str, GtidSet]:
    """The server that a line names, and what it has executed."""
    name, source, executed = line.split(" ", 2)
    if not name:
        raise ValueError
    read_source(source)
    return name, GtidSet() if executed == "-" else read_set(executed)


def gaps_of(executed: GtidSet) -> GtidSet:
    """What is missing below the greatest number of each source."""
    greatest = {span.source: span.high for span in executed.spans()}
    return GtidSet(Span(source, 1, high) for source, high in greatest.items()) - executed


def alone(sets: list[GtidSet], at: int) -> GtidSet:
    """What no other of the sets has."""
    return sets[at] - reduce(lambda a, b: a | b, sets[:at] + sets[at + 1 :], GtidSet())


def states(text: str) -> tuple[str, int]:
    """What is printed, without the last line feed, and the exit status."""
    text = text.encode("latin-1").decode("utf-8", "replace").encode("utf-8").decode("latin-1")
    servers = []
    for number, line in enumerate(lines_of(text), 1):
        try:
            servers.append(server_of(line))
        except (ValueError, TextFault):
            return f"refused E14 line {number} body", 1
    sets = [executed for _, executed in servers]
    union = reduce(lambda a, b: a | b, sets, GtidSet())
    out = [f"union {union or '-'}"]
    for at, (name, executed) in enumerate(servers):
        out.append(f"{name} lacks {union - executed or '-'}")
        out.append(f"{name} gaps {gaps_of(executed) or '-'}")
        out.append(f"{name} alone {alone(sets, at) or '-'}")
    return "\n".join(out), 0
