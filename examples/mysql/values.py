#!/usr/bin/env python3
"""Random changes of rows over all types of columns that an import takes, as SQL on standard output; the same for the same words.

usage: values.py COUNT SEED WHAT        (WHAT: `tables`, or `changes` for COUNT statements that change their rows)
"""
import random
import sys

COUNT, SEED, WHAT = int(sys.argv[1]), int(sys.argv[2]), sys.argv[3]
DICE = random.Random(SEED)
EXACT = "CHARACTER SET utf8mb4 COLLATE utf8mb4_0900_bin"
# how many columns a table has, but for its key
WIDTH = 15


def number(low, high):
    """A number, often at a limit."""
    return lambda: str(DICE.choice([low, low + 1, 0, 1, high - 1, high, DICE.randint(low, high), DICE.randint(low, high)]))


def decimal(precision, scale):
    def made():
        top = 10 ** precision
        value = DICE.choice([0, 1, top - 1, DICE.randrange(top), DICE.randrange(10 ** DICE.randint(1, precision)), 10 ** DICE.randrange(precision)])
        text = str(value).rjust(scale + 1, "0")
        cut = len(text) - scale
        return DICE.choice(["", "-"]) + (text[:cut] + "." + text[cut:] if scale else text)
    return made


def fraction(digits):
    return "." + "".join(DICE.choice("0189") for _ in range(digits)) if digits else ""


def clock(hours):
    return f"{hours:02}:{DICE.randint(0, 59):02}:{DICE.randint(0, 59):02}"


def date():
    return f"{DICE.choice([0, 1, 1000, 9999, DICE.randint(0, 9999)]):04}-{DICE.randint(0, 12):02}-{DICE.randint(0, 28):02}"


def time(digits):
    return lambda: f"'{DICE.choice(['', '-'])}{clock(DICE.choice([0, 1, 99, 100, 837, DICE.randint(0, 837)]))}{fraction(digits)}'"


def datetime(digits):
    return lambda: f"'{date()} {clock(DICE.randint(0, 23))}{fraction(digits)}'"


def timestamp(digits):
    def made():
        day = f"{DICE.randint(1971, 2037)}-{DICE.randint(1, 12):02}-{DICE.randint(1, 28):02}"
        return DICE.choice(["'0000-00-00'", f"'{day} {clock(DICE.randint(0, 23))}{fraction(digits)}'"])
    return made


def length(most):
    return DICE.choice([0, 1, most, DICE.randint(0, most)])


def text(most):
    return lambda: "'" + "".join(DICE.choice(["a", "b", " ", "\\'", "é", "\\\\", "\t", "\n", "€", "😀", "%"]) for _ in range(length(most))) + "'"


def binary(most):
    return lambda: f"x'{DICE.randbytes(length(most)).hex()}'"


def bits(count):
    return number(0, 2 ** count - 1)


def names(count):
    return ", ".join(f"'n{it}'" for it in range(count))


def columns():
    """The type of each column, and what makes a value of it."""
    for it, width in (("TINYINT", 8), ("SMALLINT", 16), ("MEDIUMINT", 24), ("INT", 32), ("BIGINT", 64)):
        yield it, number(-2 ** (width - 1), 2 ** (width - 1) - 1)
        yield f"{it} UNSIGNED", number(0, 2 ** width - 1)
        yield "YEAR", lambda: str(DICE.choice([0, 1901, 2155, DICE.randint(1901, 2155)]))
    for precision, scale in ((1, 0), (2, 1), (5, 2), (9, 0), (9, 9), (10, 0), (18, 9), (19, 10), (27, 0), (30, 30), (38, 5), (65, 0), (65, 30)):
        yield f"DECIMAL({precision}, {scale})", decimal(precision, scale)
    yield "DATE", lambda: f"'{date()}'"
    for digits in range(7):
        yield f"TIME({digits})", time(digits)
        yield f"DATETIME({digits})", datetime(digits)
        yield f"TIMESTAMP({digits}) NULL", timestamp(digits)
    for it, mosts, made, words in (("CHAR", (1, 10, 60), text, EXACT), ("BINARY", (3, 200), binary, ""), ("VARCHAR", (5, 63, 64, 200), text, EXACT),
                                   ("VARBINARY", (5, 255, 256), binary, "")):
        for most in mosts:
            yield f"{it}({most}) {words}", made(most)
    for it, most in (("TINY", 60), ("", 300), ("MEDIUM", 90), ("LONG", 9)):
        yield f"{it}TEXT {EXACT}", text(most)
        yield f"{it}BLOB", binary(most)
    for count in (3, 300):
        yield f"ENUM({names(count)})", number(1, count)
    for count in (1, 8, 9, 20, 40, 64):
        yield f"SET({names(count)})", bits(count)
    for count in (1, 7, 8, 9, 20, 33, 63, 64):
        yield f"BIT({count})", bits(count)


COLUMNS = list(columns())
TABLES = [COLUMNS[at:at + WIDTH] for at in range(0, len(COLUMNS), WIDTH)]


def value(column):
    return "NULL" if DICE.random() < 0.1 else column[1]()


def row(key, table):
    return f"({', '.join([str(key)] + [value(it) for it in table])})"


def change(at, key, keys):
    """A statement on the table `at`, whose rows have these keys."""
    table, dice = TABLES[at], DICE.random()
    if keys and dice < 0.15:
        return f"DELETE FROM t{at} WHERE id = {keys.pop(DICE.randrange(len(keys)))};"
    if keys and dice < 0.45:
        some = DICE.sample(range(len(table)), min(5, len(table)))
        return f"UPDATE t{at} SET {', '.join(f'c{it} = {value(table[it])}' for it in some)} WHERE id = {DICE.choice(keys)};"
    made = range(key, key + 3)
    keys.extend(made)
    return f"INSERT INTO t{at} VALUES {', '.join(row(it, table) for it in made)};"


if WHAT == "tables":
    print("CREATE DATABASE v; USE v;")
    for at, table in enumerate(TABLES):
        print(f"CREATE TABLE t{at} (id INT PRIMARY KEY, {', '.join(f'c{it} {column[0]}' for it, column in enumerate(table))});")
else:
    print("USE v; SET SESSION sql_mode = ''; SET time_zone = '+00:00';")
    kept = [[] for _ in TABLES]
    for step in range(COUNT):
        at = DICE.randrange(len(TABLES))
        print(change(at, step * 10, kept[at]))
