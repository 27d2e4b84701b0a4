"""Tables, rows and transactions. Written independently, from docs/ and compared with the proved programs."""
from __future__ import annotations

from collections.abc import Iterable, Iterator, Sequence
from dataclasses import dataclass, field
from enum import Enum
from typing import NamedTuple

Value = None | int | bytes
Row = tuple[Value, ...]

MOST_BYTES = 65_535


def value_order(value: Value) -> tuple[int, int | bytes]:
    """The order of values: null, then numbers, then byte strings."""
    if value is None:
        return 0, 0
    return (1, value) if isinstance(value, int) else (2, value)


def value_word(value: Value) -> str:
    """The word for a value."""
    if value is None:
        return "null"
    return str(value) if isinstance(value, int) else "x" + value.hex()


def values_text(values: Iterable[Value]) -> str:
    """The words for some values."""
    return " ".join(map(value_word, values))


class Key(NamedTuple):
    """A key that a row carries: its table, its number (0 is the primary key) and its values."""

    table: str
    index: int
    values: Row

    def text(self) -> str:
        """Its words in a verdict."""
        return f"{self.table} {self.index} {values_text(self.values)}"


@dataclass(frozen=True)
class Table:
    """A table: its number of columns, the columns of its keys, the primary key first, and how many of its last columns are hidden."""

    name: str
    columns: int
    keys: tuple[tuple[int, ...], ...]
    hidden: int = 0

    def primary_key(self, row: Row) -> Key:
        """The primary key that a row carries."""
        return Key(self.name, 0, tuple(row[column] for column in self.keys[0]))

    def carried(self, row: Row) -> Iterator[Key]:
        """All keys that a row carries, by number. A unique key with a null is none."""
        for index, columns in enumerate(self.keys):
            values = tuple(row[column] for column in columns)
            if None not in values:
                yield Key(self.name, index, values)

    def line(self) -> str:
        """Its line in a bundle."""
        primary, *uniques = (",".join(map(str, columns)) for columns in self.keys)
        hidden = f" hidden {self.hidden}" if self.hidden else ""
        return f"table {self.name} {self.columns} pk {primary}" + "".join(f" uk {columns}" for columns in uniques) + hidden


class Schema(dict[str, Table]):
    """Tables by their names, and how many bytes a value of them has at most."""

    most_bytes: int = MOST_BYTES


class Cause(Enum):
    """Why a schema does not take a change, in the order in which that is tested."""

    NO_TABLE = "NoTable"
    COLUMNS = "Columns"
    NULL_IN_PRIMARY = "NullInPrimary"
    TOO_LONG = "TooLong"


@dataclass(frozen=True)
class Change:
    """An insert has an after image, a delete a before image, and an update both."""

    table: str
    before: Row | None
    after: Row | None

    def images(self) -> list[Row]:
        """The before image, then the after image, where they are there."""
        return [image for image in (self.before, self.after) if image is not None]

    def misfit(self, schema: Schema) -> Cause | None:
        """Why the schema does not take it."""
        table = schema.get(self.table)
        if table is None:
            return Cause.NO_TABLE
        if any(len(image) != table.columns for image in self.images()):
            return Cause.COLUMNS
        if any(None in table.primary_key(image).values for image in self.images()):
            return Cause.NULL_IN_PRIMARY
        if any(isinstance(it, bytes) and len(it) > schema.most_bytes for image in self.images() for it in image):
            return Cause.TOO_LONG
        return None

    def line(self) -> str:
        """Its line in a journal."""
        word = "ins" if self.before is None else "del" if self.after is None else "upd"
        return f"{word} {self.table} " + " | ".join(map(values_text, self.images()))


Transaction = tuple[Change, ...]


def misfit(schema: Schema, changes: Transaction) -> tuple[int, Cause] | None:
    """The first change that the schema does not take, and why."""
    for number, change in enumerate(changes):
        cause = change.misfit(schema)
        if cause is not None:
            return number, cause
    return None


def keys_of(schema: Schema, changes: Transaction) -> list[Key]:
    """The keys that a transaction touches, each once, in the order of first touch."""
    touched: dict[Key, None] = {}
    for change in changes:
        for image in change.images():
            touched.update(dict.fromkeys(schema[change.table].carried(image)))
    return list(touched)


@dataclass(frozen=True)
class RowFault(Exception):
    """A change that fails: E10 (no row), E11 (another row) or E12 (a key that is taken)."""

    code: int
    change: int
    key: int

    def text(self) -> str:
        """Its words in an answer."""
        return f"E{self.code} change {self.change} key {self.key}"


@dataclass
class Rows:
    """The rows of a schema's tables: under each key the row that carries it."""

    schema: Schema
    carriers: dict[Key, Row] = field(default_factory=dict)

    def apply(self, changes: Transaction) -> None:
        """Makes all changes of a transaction that fits, or none and raises RowFault."""
        changed: dict[Key, Row | None] = {}

        def carrier(key: Key) -> Row | None:
            return changed[key] if key in changed else self.carriers.get(key)

        for number, change in enumerate(changes):
            table = self.schema[change.table]
            if change.before is not None:
                stored = carrier(table.primary_key(change.before))
                if stored is None:
                    raise RowFault(10, number, 0)
                if stored != change.before:
                    raise RowFault(11, number, 0)
                changed.update(dict.fromkeys(table.carried(change.before)))
            if change.after is not None:
                keys = list(table.carried(change.after))
                taken = [key.index for key in keys if carrier(key) is not None]
                if taken:
                    raise RowFault(12, number, taken[0])
                changed.update(dict.fromkeys(keys, change.after))
        self._settle(changed)

    def _settle(self, changed: dict[Key, Row | None]) -> None:
        for key, row in changed.items():
            if row is None:
                self.carriers.pop(key, None)
            else:
                self.carriers[key] = row

    def put(self, table: str, row: Row) -> None:
        """Puts an opening row in."""
        self.apply((Change(table, None, row),))

    def copy(self) -> Rows:
        """The same rows."""
        return Rows(self.schema, dict(self.carriers))

    def lines(self, is_whole: bool = False) -> list[str]:
        """A `row` line for each row, by table name and then by the values of the primary key; hidden columns are there where rows are
        to be whole."""

        def order(item: tuple[Key, Row]) -> tuple[str, Sequence[object]]:
            key, _ = item
            return key.table, [value_order(value) for value in key.values]

        primary = sorted((item for item in self.carriers.items() if item[0].index == 0), key=order)
        return [f"row {key.table} {values_text(row if is_whole else self.shown(key.table, row))}" for key, row in primary]

    def shown(self, table: str, row: Row) -> Row:
        """A row without its hidden columns."""
        return row[: self.schema[table].columns - self.schema[table].hidden]
