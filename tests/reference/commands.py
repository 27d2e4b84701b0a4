"""What the program gtidrep prints for its words and its input, but for clap's messages on a bad command line. Written independently, from
docs/ and compared with the proved program."""
from __future__ import annotations

from collections.abc import Callable, Sequence

from .audit import apply, audit, audit_all, position, upgrade
from .ordered import apply_ordered, audit_ordered
from .set_text import set_function
from .states import states

BAD_COMMAND_LINE = "", 2


def answer(words: Sequence[str], text: Callable[[], str]) -> tuple[str, int]:
    """What is printed for these words, whose characters are bytes, and the exit status; `text` reads the input."""
    match words:
        case ["set", name, *sets] if 1 <= len(sets) <= 2:
            # a word - is all of the input
            line, status = set_function(name, [text() if it == "-" else it for it in sets])
        case ["position", "--own", own, "--ask", asked]:
            line, status = position(text(), own, asked)
        case ["audit"]:
            line, status = audit(text())
        case ["audit", "--all"]:
            line, status = audit_all(text())
        case ["audit", "--ordered"]:
            line, status = audit_ordered(text())
        case ["apply", *options]:
            # (neither the way nor the number of workers makes a difference)
            pairs = {"--by", "--workers"}
            plain = [it for at, it in enumerate(options) if it not in pairs and (at == 0 or options[at - 1] not in pairs)]
            if plain not in ([], ["--ordered"]):
                return BAD_COMMAND_LINE
            line, status = apply_ordered(text()) if plain else apply(text())
        case ["upgrade"] | ["upgrade", "--to", "2"]:
            line, status = upgrade(text())
        case ["upgrade", "--to", "3"]:
            line, status = upgrade(text(), "3")
        case ["states"]:
            line, status = states(text())
        case _:
            return BAD_COMMAND_LINE
    return f"{line}\n", status
