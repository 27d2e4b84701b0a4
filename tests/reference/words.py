"""The words of lines: values, images, changes, tables, references and places. Written independently, from docs/FORMATS.md and, for version 3,
from its specification."""
from __future__ import annotations

import re
from enum import Enum

from .rows import Change, Row, Schema, Table, Value
from .versions import COUNT_FORM, VERSION_3, Format

GREATEST_NUMBER = 2**63 - 1
# the first microsecond of the year 10000
YEAR_10000 = 253_402_300_800_000_000

INT_FORM = re.compile(r"0|-?[1-9][0-9]*")
BYTES_FORM = re.compile(r"x([0-9a-f]{2})*")


class Cause(Enum):
    """What is wrong with a line, in the order in which that is tested."""

    KEYWORD = "keyword"
    BODY = "body"
    LIMIT = "limit"
    SCHEMA = "schema"
    STAMP = "stamp"


class LineFault(Exception):
    """A faulty line."""

    def __init__(self, cause: Cause) -> None:
        super().__init__(cause)
        self.cause = cause


def ask(holds: object, cause: Cause = Cause.BODY) -> None:
    """Raises a fault of this cause where something doesn't hold."""
    if not holds:
        raise LineFault(cause)


def value_in(word: str) -> Value:
    """The value that a word spells."""
    if word == "null":
        return None
    if BYTES_FORM.fullmatch(word):
        return bytes.fromhex(word[1:])
    ask(INT_FORM.fullmatch(word) and len(word) <= 20 and -(2**63) <= int(word) < 2**63)
    return int(word)


def image_in(words: list[str]) -> Row:
    """The image that these words spell."""
    ask(words)
    return tuple(map(value_in, words))


def ask_limits(image: Row, form: Format) -> None:
    """An image has no more than so many values, and a value no more than so many bytes."""
    ask(len(image) <= form.columns, Cause.LIMIT)
    ask(all(not isinstance(it, bytes) or len(it) <= form.most_bytes for it in image), Cause.LIMIT)


def change_in(word: str, body: str | None, form: Format) -> Change:
    """The change of a change line, by its first word and the rest of the line. Limits of images are not tested."""
    ask(body is not None)
    table, *words = (body or "").split(" ")
    ask(form.is_name(table))
    if word != "upd":
        image = image_in(words)
        return Change(table, None, image) if word == "ins" else Change(table, image, None)
    ask(words.count("|") == 1)
    bar = words.index("|")
    return Change(table, image_in(words[:bar]), image_in(words[bar + 1 :]))


def count_in(word: str, most: int) -> int:
    """The number that a count spells, or the one after the greatest that is told apart."""
    ask(COUNT_FORM.fullmatch(word))
    return min(int(word[:30]), most + 1)


def columns_in(word: str, form: Format) -> tuple[int, ...]:
    """The column numbers of a key."""
    words = word.split(",")
    ask(all(COUNT_FORM.fullmatch(it) for it in words) and len(set(words)) == len(words))
    return tuple(count_in(it, form.columns) for it in words)


def table_in(body: str | None, schema: Schema, form: Format) -> Table:
    """The table of a `table` line, beside those that have come."""
    ask(body is not None)
    words, hidden = (body or "").split(" "), None
    if form.has_hidden and len(words) > 4 and words[-2] == "hidden":
        hidden = count_in(words[-1], form.columns)
        words = words[:-2]
    ask(len(words) >= 4 and len(words) % 2 == 0 and form.is_name(words[0]) and COUNT_FORM.fullmatch(words[1]))
    ask(words[2::2] == ["pk"] + ["uk"] * (len(words) // 2 - 2))
    keys = tuple(columns_in(it, form) for it in words[3::2])
    count = count_in(words[1], form.columns)
    ask(1 <= count <= form.columns and len(keys) - 1 <= form.unique_keys and len(schema) < form.tables, Cause.LIMIT)
    ask(hidden is None or 1 <= hidden < count, Cause.LIMIT)
    ask(words[0] not in schema and all(column < count for key in keys for column in key), Cause.SCHEMA)
    return Table(words[0], count, keys, hidden or 0)


def reference_in(body: str | None, schema: Schema, count: int) -> str:
    """What an `fk` line says, beside so many that have come."""
    ask(body is not None)
    words = (body or "").split(" ")
    ask(len(words) == 4 or words[4:] == ["cascade"])
    child, columns, parent, key = words[:4]
    ask(VERSION_3.is_name(child) and VERSION_3.is_name(parent))
    numbers, number = columns_in(columns, VERSION_3), count_in(key, VERSION_3.unique_keys)
    ask(count < VERSION_3.references, Cause.LIMIT)
    ask(child in schema and parent in schema, Cause.SCHEMA)
    ask(all(it < schema[child].columns for it in numbers) and number < len(schema[parent].keys), Cause.SCHEMA)
    ask(len(numbers) == len(schema[parent].keys[number]), Cause.SCHEMA)
    return body or ""


def place_in(body: str | None) -> str:
    """What a `place` line says."""
    words = (body or "").split(" ")
    ask(len(words) == 4 and VERSION_3.is_name(words[0]) and all(COUNT_FORM.fullmatch(it) for it in words[1::2]))
    ask(words[2] == "-" or COUNT_FORM.fullmatch(words[2]))
    ask(all(count_in(it, GREATEST_NUMBER) <= GREATEST_NUMBER for it in words[1::2]), Cause.LIMIT)
    ask(words[2] == "-" or count_in(words[2], YEAR_10000) < YEAR_10000, Cause.LIMIT)
    return body or ""
