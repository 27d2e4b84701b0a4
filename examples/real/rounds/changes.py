"""Random transactions over a schema, of two servers: each changes rows of its own, but for what a round lets meet. What is `gone` isn't printed."""
from dataclasses import dataclass, field, replace

import values
from schema import quoted


@dataclass
class Row:
    """A row as a statement writes it, by its columns, and the numbers of its keys."""
    number: int
    values: dict
    gone: bool = False


@dataclass
class Statement:
    """`words` is how it begins (INSERT INTO, UPDATE, DELETE FROM), or all of it where there is no table."""
    words: str
    table: object = None
    rows: list = field(default_factory=list)
    changed: dict = field(default_factory=dict)
    where: list = field(default_factory=list)
    end: str = ""
    gone: bool = False

    def printed(self):
        if self.gone or (self.table and self.table.gone):
            return ""
        if not self.table:
            return self.words
        if self.words.startswith(("INSERT", "REPLACE")):
            return self.insert()
        return self.update() if self.words.startswith("UPDATE") else f"{self.words} {self.table.place()}{self.condition()}{self.end};"

    def insert(self):
        here = self.table.present()
        rows = [it for it in self.rows if not it.gone]
        names = [it for it in (rows[0].values if rows else {}) if it in here]
        made = ", ".join(f"({', '.join(row.values[it] for it in names)})" for row in rows)
        changed = self.changes(self.changed)
        end = f" ON DUPLICATE KEY UPDATE {changed}" if changed else ""
        return f"{self.words} {self.table.place()} ({', '.join(map(quoted, names))}) VALUES {made}{end};" if rows else ""

    def update(self):
        changed = self.changes(self.changed)
        return f"{self.words} {self.table.place()} SET {changed}{self.condition()}{self.end};" if changed else ""

    def changes(self, changed, before=""):
        here = self.table.present()
        return ", ".join(f"{before}{quoted(it)} = {value}" for it, value in changed.items() if it in here)

    def condition(self, before=""):
        here = self.table.present()
        rows = [" AND ".join(f"{before}{quoted(it)} <=> {value}" for it, value in row.items() if it in here) for row in self.where]
        return f" WHERE {' OR '.join(f'({it})' for it in rows if it)}" if any(rows) else ""


@dataclass
class Pair:
    """An UPDATE of two tables at once, or a DELETE."""
    first: Statement
    second: Statement
    words: str
    rows: list = field(default_factory=list)
    gone: bool = False

    def printed(self):
        parts = (self.first, self.second)
        if self.gone or not all(it.printed() for it in parts):
            return ""
        tables, wheres = ", ".join(it.table.place() for it in parts), " AND ".join(it.condition(f"{it.table.place()}.").removeprefix(" WHERE ") or "TRUE" for it in parts)
        changed = ", ".join(it.changes(it.changed, f"{it.table.place()}.") for it in parts)
        return f"UPDATE {tables} SET {changed} WHERE {wheres};" if self.words == "UPDATE" else f"DELETE {tables} FROM {tables} WHERE {wheres};"


@dataclass
class Transaction:
    statements: list
    begins: bool = True
    end: str = "COMMIT;"
    gone: bool = False

    def printed(self):
        lines = [it for it in (each.printed() for each in self.statements) if it] if not self.gone else []
        return "\n".join(["BEGIN;", *lines, self.end] if self.begins and lines else lines)


@dataclass
class Side:
    """A server that writes: its rows, as far as they aren't known to be deleted, and the numbers that it gave."""
    parity: int
    dice: object
    chances: dict
    live: dict
    # (the numbers of the rows that both have inserted, by tables: pairs of parity and number)
    numbers: dict
    given: int = 0
    recycled: list = field(default_factory=list)

    def fresh(self):
        self.given += 1
        return 20 + 2 * self.given + self.parity

    def met(self, table):
        """A number of the other server's, if it has one in this table."""
        if self.dice.random() < 0.15:
            # (whose values are zeros)
            return 0
        others = [number for parity, number in self.numbers[table.place()] if parity != self.parity]
        return self.dice.choice(others) if others else self.dice.randrange(24 + 2 * self.given)


def targets(schema):
    return [it for it in schema.tables if any(column.kind.room for column in it.columns)]


# ---- rows

def value_of(table, column, number, dice, wild):
    if column.null and dice.random() < 0.15:
        return "NULL"
    if column.name in table.in_keys() and column.kind.room:
        return values.key_value(column.kind, number, dice, wild)
    return values.any_value(column.kind, dice)


def row_of(table, number, dice, wild=False):
    """A row with a number: a column with a counter or a default is now and then left to the server."""
    made = {}
    for it in table.columns:
        if not it.made_as and not (it.default and dice.random() < 0.7):
            made[it.name] = value_of(table, it, number, dice, wild)
    return Row(number, made)


def meet(table, row, other, dice):
    """Gives a row, in one of its unique keys, values that belong to another number."""
    keys = [it for it in table.keys if it.unique() and any(name in row.values for name in it.columns())]
    if keys:
        for name in dice.choice(keys).columns():
            column = next((it for it in table.columns if it.name == name), None)
            if column and name in row.values and column.kind.room:
                row.values[name] = values.key_value(column.kind, other, dice, True)
    return row


def opening_rows(table, dice, count):
    return [Row(number, {it.name: value_of(table, it, number, dice, False) for it in table.columns if not it.made_as}) for number in range(count)]


def found_by(table, row):
    return {it: row.values[it] for it in table.primary() if it in row.values}


# ---- statements

def new_row(side, table):
    """A row of this server's own; or one that has what a row of either had, by another form of it."""
    if side.recycled and side.dice.random() < 0.6:
        table_of, number = side.recycled.pop()
        if table_of is table:
            return row_of(table, number, side.dice, True)
    row = row_of(table, side.fresh(), side.dice, side.dice.random() < 0.3)
    if side.dice.random() < side.chances["meet"]:
        return meet(table, row, side.met(table), side.dice)
    return row


def insert(side, table):
    rows = [new_row(side, table) for _ in range(side.dice.choice([1, 1, 2, 3]))]
    # (in one statement all rows have the same columns)
    names = set.intersection(*(set(it.values) for it in rows))
    for it in rows:
        it.values = {name: value for name, value in it.values.items() if name in names}
    side.live[table.place()] += [replace(it) for it in rows]
    side.numbers[table.place()] += [(side.parity, it.number) for it in rows]
    words = side.dice.choice(["INSERT INTO"] * 6 + ["INSERT IGNORE INTO", "REPLACE INTO"])
    changed = free_changes(side, table) if words == "INSERT INTO" and side.dice.random() < 0.15 else {}
    return Statement(words, table, rows, changed)


def free_changes(side, table):
    """New values of columns that are in no unique key."""
    free = [it for it in table.columns if not it.made_as and it.name not in table.in_keys()]
    chosen = side.dice.sample(free, min(len(free), side.dice.choice([1, 2])))
    return {it.name: values.any_value(it.kind, side.dice) if it.kind.room or not it.null else "NULL" for it in chosen}


def key_changes(side, table, row):
    """New values of a unique key: of this row in another form, of a new number, or of somebody's."""
    keys = [it for it in table.keys if it.unique()]
    if not keys:
        return {}
    turn = side.dice.random()
    number = side.met(table) if turn < side.chances["meet"] else row.number if turn < 0.5 else side.fresh()
    names = [it for it in side.dice.choice(keys).columns() if it in row.values]
    here = {it.name: it for it in table.columns}
    return {it: values.key_value(here[it].kind, number, side.dice, side.dice.random() < 0.5) for it in names if here[it].kind.room and not here[it].made_as}


def some_row(side, table):
    """A row to be changed: one of this server's, or, by chance, any."""
    rows = side.live[table.place()]
    own = [it for it in rows if it.number % 2 == side.parity]
    return side.dice.choice(rows if side.dice.random() < side.chances["same"] and rows else own) if own else None


def update(side, table):
    row = some_row(side, table)
    if not row:
        return insert(side, table)
    changed = key_changes(side, table, row) if side.dice.random() < 0.35 else free_changes(side, table)
    made = Statement(side.dice.choice(["UPDATE", "UPDATE", "UPDATE", "UPDATE IGNORE"]), table, [], changed, [found_by(table, row)])
    row.values = {**row.values, **changed}
    return made


def update_many(side, table):
    """Some of this server's rows at once: each key value that is a number goes up by one."""
    rows = [it for it in side.live[table.place()] if it.number % 2 == side.parity][:3]
    if not rows:
        return insert(side, table)
    numbers = [it for it in table.columns if it.kind.kind == "whole" and not it.made_as]
    changed = {side.dice.choice(numbers).name: ""} if numbers and side.dice.random() < 0.3 else free_changes(side, table)
    changed = {it: value or f"{quoted(it)} + 1" for it, value in changed.items()}
    return Statement("UPDATE", table, [], changed, [found_by(table, it) for it in rows])


def both(side, table, other):
    """A row of each of two tables in one statement."""
    rows = [some_row(side, it) for it in (table, other)]
    if table is other or not all(rows):
        return insert(side, table)
    parts = [Statement("UPDATE", it, [], free_changes(side, it), [found_by(it, row)]) for it, row in zip((table, other), rows)]
    return Pair(*parts, side.dice.choice(["UPDATE", "UPDATE", "DELETE"]))


def delete(side, table):
    row = some_row(side, table)
    if not row:
        return insert(side, table)
    side.live[table.place()].remove(row)
    side.recycled.append((table, row.number))
    end = " LIMIT 1" if side.dice.random() < 0.1 else ""
    return Statement(side.dice.choice(["DELETE FROM", "DELETE FROM", "DELETE IGNORE FROM"]), table, [], {}, [found_by(table, row)], end)


def statement(side, schema):
    table, other = side.dice.choice(targets(schema)), side.dice.choice(targets(schema))
    return side.dice.choices([insert, update, update_many, delete, lambda *it: both(*it, other)], [50, 30, 7, 15, 6])[0](side, table)


def points(side, statements):
    """A savepoint, and back to it at times."""
    at = side.dice.randrange(len(statements))
    back = [Statement("ROLLBACK TO before_it;")] if side.dice.random() < 0.5 else []
    return statements[:at] + [Statement("SAVEPOINT before_it;")] + statements[at:] + back


def session_change(side):
    """What changes within a transaction how the session computes."""
    words = ["time_zone = '+03:00'", "sql_mode = ''", "sql_mode = DEFAULT",
             "lc_time_names = 'fr_FR'", "div_precision_increment = 9", "default_week_format = 1", "collation_connection = latin1_bin"]
    return Statement(f"SET SESSION {side.dice.choice(words)};")


def transaction(side, schema):
    statements = [statement(side, schema) for _ in range(side.dice.choice([1, 1, 2, 3, 5]))]
    if len(statements) == 1 and side.dice.random() < 0.6:
        return Transaction(statements, False)
    if side.dice.random() < 0.1:
        statements = points(side, statements)
    if side.dice.random() < 0.05:
        statements.insert(side.dice.randrange(len(statements)), session_change(side))
    return Transaction(statements, True, "ROLLBACK;" if side.dice.random() < 0.03 else "COMMIT;")


# ---- statements of maintenance, and others

def maintenance(side, schema):
    table = side.dice.choice(targets(schema))
    column = quoted(side.dice.choice(table.columns).name)
    words = ["ANALYZE TABLE {0};", "OPTIMIZE TABLE {0};", "FLUSH TABLES;", "FLUSH PRIVILEGES;", "FLUSH STATUS;", "FLUSH RELAY LOGS;", "FLUSH BINARY LOGS;", "FLUSH TABLES {0};",
             "FLUSH OPTIMIZER_COSTS;", "ANALYZE TABLE {0} UPDATE HISTOGRAM ON {1} WITH 4 BUCKETS;", "ANALYZE TABLE {0} DROP HISTOGRAM ON {1};", "ANALYZE TABLE nowhere.at_all;",
             "optimize local table {0};", "ANALYZE NO_WRITE_TO_BINLOG TABLE {0};"]
    return Transaction([Statement(side.dice.choice(words).format(table.place(), column))], False)


def other_statement(side, schema):
    name = quoted(side.dice.choice(schema.tables).database)
    words = [f"CREATE TABLE {name}.made_{side.parity} (id INT PRIMARY KEY);", f"CREATE VIEW {name}.seen_{side.parity} AS SELECT 1 AS one;",
             f"CREATE TABLE {name}.made (id INT PRIMARY KEY);", f"ALTER TABLE {side.dice.choice(targets(schema)).place()} COMMENT 'changed';",
             f"TRUNCATE TABLE {side.dice.choice(targets(schema)).place()};"]
    return Transaction([Statement(side.dice.choices(words, [4, 4, 2, 1, 1])[0])], False)


def any_transaction(side, schema):
    turn = side.dice.random()
    if turn < side.chances["maintenance"]:
        return maintenance(side, schema)
    if turn < side.chances["maintenance"] + side.chances["statements"]:
        return other_statement(side, schema)
    return transaction(side, schema)


def transactions(side, schema, count):
    return [any_transaction(side, schema) for _ in range(count)]
