"""What each version of journals and bundles asks of a text: its names, its limits, and its lines. Written independently, from docs/FORMATS.md
and, for version 3, from its specification."""
from __future__ import annotations

import re
from collections.abc import Callable
from dataclasses import dataclass

from .rows import MOST_BYTES

NAME_FORM = re.compile(r"[a-z_][a-z0-9_]{0,63}")
PLAIN = re.compile(r"[A-Za-z0-9_$-]")
NAME_PART = re.compile(r"(?:[A-Za-z0-9_$-]|%[0-9a-f]{2})+")
ESCAPE = re.compile(r"%[0-9a-f]{2}")
COUNT_FORM = re.compile(r"0|[1-9][0-9]*")

# The words of assumptions, in the order of their lines.
ASSUMPTIONS = ("executed", "checksums", "opening", "statements", "ignored", "references", "rows")


def is_short_name(word: str) -> bool:
    """Whether a word is a name of versions 1 and 2."""
    return NAME_FORM.fullmatch(word) is not None


def is_name(word: str) -> bool:
    """Whether a word is a name of version 3."""
    escapes = ESCAPE.findall(word)
    if not all(NAME_PART.fullmatch(part) for part in word.split(".")) or len(word) - 2 * len(escapes) > 512:
        return False
    return not any(PLAIN.fullmatch(chr(int(it[1:], 16))) for it in escapes)


@dataclass(frozen=True)
class Format:
    """What a version asks of a text: its limits, its names, and whether it has the lines and numbers that an earlier one hasn't."""

    version: str
    is_name: Callable[[str], bool] = is_short_name
    tables: int = 256
    columns: int = 64
    unique_keys: int = 8
    changes: int = 65_536
    most_bytes: int = MOST_BYTES
    references: int = 0
    assumptions: int = 0
    assumed: tuple[str, ...] = ()
    has_opening: bool = True
    has_stamps: bool = True
    has_places: bool = False
    has_hidden: bool = False


VERSION_3 = Format(
    "3",
    is_name,
    tables=65_536,
    columns=4_096,
    unique_keys=64,
    changes=2**32 - 2,
    most_bytes=2**32 - 1,
    references=65_536,
    assumptions=65_536,
    assumed=ASSUMPTIONS,
    has_places=True,
    has_hidden=True,
)
FORMATS = {it.version: it for it in (Format("1", has_opening=False, has_stamps=False), Format("2"), VERSION_3)}
VERSIONS = set(FORMATS)
