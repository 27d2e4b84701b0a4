#!/usr/bin/env python3
"""Rows of databases that nobody here wrote, as SQL on standard output; the same for the same words.

usage: rows.py changes SIDE COUNT SEED < DESCRIPTION    COUNT rows of each table, some of which are changed and deleted then; SIDE is 0 or 1: the rows of
                                                        the two have other keys
       rows.py conflict SIDE < DESCRIPTION              a row of one table, with one primary key on both sides
       rows.py php FILE                                 the CREATE TABLE statements in the strings of a PHP file of WordPress

DESCRIPTION is what describe.sql prints: the columns and the unique keys of the tables that are to be written.
"""
import json
import random
import re
import sys
from dataclasses import dataclass, field

INTEGERS = {"tinyint": 8, "smallint": 16, "mediumint": 24, "int": 32, "bigint": 64}
TEXTS = {"char", "varchar", "tinytext", "text", "mediumtext", "longtext"}
BYTES = {"binary", "varbinary", "tinyblob", "blob", "mediumblob", "longblob"}
# types of which a key can't have as many values as there are rows
FEW = {"enum", "set", "bit", "json"}
# what the character sets of the databases have beside ASCII
BEYOND = {"utf8mb4": "é€😀\u0301Ωß", "utf8mb3": "é€\u0301Ωß", "latin1": "éßÿ", "ascii": ""}
LETTERS = ["aAáa", "oOóo"]
DIGITS = "0123456789abcdefghijklmnopqrstuvwxyz"


@dataclass
class Table:
    name: str
    columns: dict = field(default_factory=dict)
    keys: dict = field(default_factory=dict)

    def primary_key(self):
        """The columns of the primary key, or of another key without NULLs; none where there is none."""
        whole = [it for name, it in sorted(self.keys.items(), key=lambda it: it[0] != "PRIMARY") if not it["null"]]
        return whole[0]["columns"] if whole else []

    def all_keys(self):
        """The columns of each unique key; of a table without keys, one column by which the rows of the two sides differ."""
        with_room = [it for it in self.columns if self.columns[it]["type"] not in FEW]
        return [it["columns"] for it in self.keys.values()] or [with_room[:1]]

    def in_keys(self):
        return {column for key in self.all_keys() for column in key}

    def has_room(self):
        """Whether each unique key has a column with many values."""
        return all(any(self.columns[it]["type"] not in FEW for it in key) for key in self.all_keys())


def described(lines):
    tables = {}
    for line in lines:
        it = json.loads(line)
        table = tables.setdefault(it["table"], Table(it["table"]))
        if "key" in it:
            table.keys[it["key"]] = it
        elif not it["generated"]:
            table.columns[it["column"]] = it
    # (a key of a generated column alone is left to the server)
    for table in tables.values():
        table.keys = {name: key for name, key in table.keys.items() if all(it in table.columns for it in key["columns"])}
    return [tables[it] for it in sorted(tables)]


def quoted(name):
    return "`" + name.replace("`", "``") + "`"


def literal(data):
    return f"x'{data.hex()}'"


def text_literal(text):
    return f"_utf8mb4 x'{text.encode().hex()}'"


def limits(column):
    bits = INTEGERS[column["type"]]
    return (0, 2 ** bits - 1) if "unsigned" in column["whole"] else (-2 ** (bits - 1), 2 ** (bits - 1) - 1)


def largest(column):
    """The largest DECIMAL of a column, as text."""
    precision, scale = column["precision"], column["scale"]
    return "9" * (precision - scale) + ("." + "9" * scale if scale else "")


# ---- values of key columns: the row's number says which

def key_number(column, number):
    low, high = limits(column)
    if "auto_increment" in column["extra"] or number % 3 == 0:
        return (1000 if high > 30000 else 40) + number
    return high - number if number % 3 == 1 else low + number + (1000 if low == 0 and high > 30000 else 0)


def key_text(column, number):
    side, turn = number % 2, number // 2
    if column["length"] < 6:
        return (DIGITS[number // 36 % 36] if column["length"] > 1 else "") + DIGITS[number % 36]
    # texts that differ in letter case, in an accent or in a blank at the end: the server says which are one key
    letter, blank = LETTERS[side][turn % 4], " " if turn % 4 == 3 else ""
    if column["charset"] == "ascii" and not letter.isascii():
        letter = LETTERS[side][0]
    made = f"{letter}{turn // 4}"
    return made + ("x" * min(column["length"] - 4, 250) if turn == 5 else "") + blank


def key_bytes(column, number):
    made = bytes([number + 1]) if column["length"] < 3 else bytes([number % 2 + 1, number // 2])
    return made + (b"\0\xff" if column["length"] > 5 and number % 4 < 2 else b"")


def key_value(column, number):
    kind = column["type"]
    if kind in INTEGERS:
        return str(key_number(column, number))
    if kind in TEXTS:
        return text_literal(key_text(column, number))
    if kind in BYTES:
        return literal(key_bytes(column, number))
    if kind == "decimal":
        return str(number)
    if kind in ("float", "double"):
        return f"{number}.5"
    if kind == "year":
        return str(1901 + number)
    if kind == "time":
        return f"'00:{number // 60:02}:{number % 60:02}'"
    if kind in ("date", "datetime", "timestamp"):
        return f"'20{10 + number // 300:02}-{1 + number // 28 % 12:02}-{1 + number % 28:02}'"
    return value(column, random.Random(number))


# ---- values of other columns, often at a limit

def some_text(column, dice):
    most = min(column["length"], 300)
    letters = "aAbB \t'\"\\%_" + BEYOND.get(column["charset"], "")
    near = ["hat", "Hat", "hat ", "h\u00e1t" if column["charset"] != "ascii" else "hat", ""]
    made = dice.choice([dice.choice(near), "".join(dice.choice(letters) for _ in range(dice.choice([most, 5, 20])))])
    return made[:most]


def some_document(dice):
    made = dice.choice([{}, [], {"b": 1, "a": [True, None, "é\"\\"]}, [2 ** 63, -2 ** 63, 2 ** 64 - 1, 0.5], "text", {"k" * 40: {"": -1}}])
    return text_literal(json.dumps(made, ensure_ascii=False))


def fraction(column, dice):
    digits = column["digits"]
    return "." + "".join(dice.choice("0189") for _ in range(digits)) if digits else ""


def value(column, dice):
    """A value of a column."""
    kind = column["type"]
    if column["null"] and dice.random() < 0.2:
        return "NULL"
    if kind in INTEGERS:
        low, high = limits(column)
        return str(dice.choice([low, high, 0, 1, high - 1, high // 2, high // 2 + 1, dice.randint(low, high)]))
    if kind in TEXTS:
        return text_literal(some_text(column, dice))
    if kind in BYTES:
        most = min(column["length"], 300)
        return literal(dice.choice([b"", b"\0" * most, dice.randbytes(most), dice.randbytes(dice.randint(0, most)), b"\x01\0"[:most]]))
    if kind == "decimal":
        return dice.choice(["", "-"]) + dice.choice(["0", largest(column), "1"])
    if kind == "float":
        return dice.choice(["0", "-0e0", "0.1", "3.4e38", "-3.4e38", "1.4e-45", "16777217"])
    if kind == "double":
        return dice.choice(["0", "-0e0", "0.1", "1.7976931348623157e308", "-1.7976931348623157e308", "5e-324", "9007199254740993"])
    if kind == "year":
        return dice.choice(["0", "1901", "2155"])
    if kind == "date":
        return dice.choice(["'0000-00-00'", "'1000-01-01'", "'9999-12-31'", "'2024-02-29'"])
    if kind == "time":
        return dice.choice(["'-838:59:59'", "'838:59:59'", f"'00:00:00{fraction(column, dice)}'", f"'-12:34:56{fraction(column, dice)}'"])
    if kind == "datetime":
        return dice.choice(["'0000-00-00 00:00:00'", "'9999-12-31 23:59:59'", f"'2024-02-29 23:59:58{fraction(column, dice)}'"])
    if kind == "timestamp":
        return dice.choice(["'0000-00-00 00:00:00'", "'1970-01-01 00:00:01'", "'2038-01-19 03:14:07'", f"'2024-02-29 23:59:58{fraction(column, dice)}'"])
    if kind == "enum":
        return str(dice.randint(1, column["whole"].count("','") + 1))
    if kind == "set":
        return str(dice.randrange(2 ** (column["whole"].count("','") + 1)))
    if kind == "bit":
        return str(dice.choice([0, 2 ** column["precision"] - 1]))
    if kind == "json":
        return some_document(dice)
    return "DEFAULT" if not column["null"] else "NULL"


# ---- statements

def row(table, number, dice):
    """A row, by its columns."""
    keys = table.in_keys()
    return {name: key_value(it, number) if name in keys else value(it, dice) for name, it in table.columns.items()}


def insert(table, made):
    names = ", ".join(map(quoted, made))
    return f"INSERT IGNORE INTO {quoted(table.name)} ({names}) VALUES ({', '.join(made.values())});"


def where(table, made):
    return " AND ".join(f"{quoted(it)} = {made[it]}" for it in table.primary_key())


def update(table, made, dice):
    free = [it for it in table.columns if it not in table.in_keys()]
    if not free or not table.primary_key():
        return []
    changed = dice.sample(free, min(4, len(free)))
    return [f"UPDATE IGNORE {quoted(table.name)} SET {', '.join(f'{quoted(it)} = {value(table.columns[it], dice)}' for it in changed)} WHERE {where(table, made)};"]


def delete(table, made):
    return [f"DELETE IGNORE FROM {quoted(table.name)} WHERE {where(table, made)};"] if table.primary_key() else []


def of_table(table, side, count, dice):
    """The statements of a table: with few values in a key, one side alone writes it."""
    if side == 1 and not table.has_room():
        return []
    made = [row(table, 2 * it + side, dice) for it in range(count)]
    return [*(insert(table, it) for it in made), *update(table, made[0], dice), *(it for each in made[3:4] for it in update(table, each, dice)),
            *(it for each in made[1:2] for it in delete(table, each))]


def changes(tables, side, count, seed):
    dice = random.Random(f"{seed} {side}")
    print("SET SESSION sql_mode = '', foreign_key_checks = 0, time_zone = '+00:00';")
    for table in tables:
        lines = of_table(table, side, count, dice)
        if dice.random() < 0.3:
            lines = ["BEGIN;", *lines, "COMMIT;"]
        print("\n".join(lines))


def conflict(tables, side):
    """Both sides insert one primary key, by letters of another case where the server calls them equal."""
    whole = [it for it in tables if it.primary_key() and it.has_room()]
    texts = [it for it in whole if any(it.columns[name]["type"] in TEXTS and it.columns[name]["length"] > 5 and it.columns[name]["collation"].endswith("_ci")
                                       for name in it.primary_key())]
    table = (texts or whole)[0]
    made = row(table, 300 + side, random.Random(side))
    # (60: the number of both)
    for name in table.primary_key():
        column = table.columns[name]
        folds = column["type"] in TEXTS and column["length"] > 5 and column["collation"].endswith("_ci")
        made[name] = text_literal(["same", "SAME"][side]) if folds else key_value(column, 60)
    print(f"SET SESSION sql_mode = '', foreign_key_checks = 0, time_zone = '+00:00';\n{insert(table, made)}")


def php(file):
    with open(file, encoding="utf-8") as it:
        found = re.findall(r"CREATE TABLE \$wpdb->(\w+) \((.*?)\n\) \$charset_collate;", it.read(), re.S)
    # (the tables of users are there twice, for one site and for many)
    for name, body in dict(found).items():
        print(f"CREATE TABLE wp_{name} ({body.replace('$max_index_length', '191')}\n) DEFAULT CHARACTER SET utf8mb4 COLLATE utf8mb4_unicode_520_ci;")


what, *words = sys.argv[1:] or ["--help"]
if what == "changes":
    changes(described(sys.stdin), int(words[0]), int(words[1]), words[2])
elif what == "conflict":
    conflict(described(sys.stdin), int(words[0]))
elif what == "php":
    php(words[0])
else:
    sys.exit(__doc__)
