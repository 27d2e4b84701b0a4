#!/usr/bin/env python3
"""Random transactions over the tables of schema.sql, as SQL on standard output; the same for the same words.

usage: transactions.py SERVER COUNT SEED        (SERVER 0 or 1: servers change rows of their own, with keys of their own)
"""
import random
import sys

SERVER, COUNT, SEED = (int(it) for it in sys.argv[1:4])
DICE = random.Random(SEED * 2 + SERVER)


def number(low, high):
    """Mostly a small number, now and then one at a limit."""
    return str(DICE.choice([low, high, DICE.randint(low, high), DICE.randint(max(low, -9), min(high, 9))]))


def literal(data, charset="_binary"):
    return f"{charset} X'{data.hex()}'"


def some_bytes(most):
    return bytes(DICE.randrange(256) for _ in range(DICE.randrange(most + 1)))


def binary(most):
    return literal(some_bytes(most))


def text(most, last=0x2FF):
    """Letters, controls, quotes and backslashes."""
    letters = [DICE.choice([chr(DICE.randrange(1, last)), DICE.choice("'\"\\\n\r\t\b%_ #@")]) for _ in range(DICE.randrange(most + 1))]
    return literal("".join(letters).encode(), "_utf8mb4")


def latin(most):
    return literal(some_bytes(most), "_latin1")


def decimal(whole, places):
    digits = f"{DICE.randrange(10 ** DICE.randrange(1, whole + 1))}.{DICE.randrange(10 ** places):0{places}d}"
    return DICE.choice(["", "-"]) + digits


def day(first=1000):
    return f"{DICE.randrange(first, 10000):04d}-{DICE.randrange(1, 13):02d}-{DICE.randrange(1, 29):02d}"


def clock(places=0):
    part = f".{DICE.randrange(10 ** places):0{places}d}" if places else ""
    return f"{DICE.randrange(24):02d}:{DICE.randrange(60):02d}:{DICE.randrange(60):02d}{part}"


def span(places=0):
    return f"'{DICE.choice(['', '-'])}{DICE.randrange(838):02d}{clock(places)[2:]}'"


def stamp(places=0):
    return f"'{DICE.randrange(1971, 2037)}{day()[4:]} {clock(places)}'"


def or_null(value):
    return "NULL" if DICE.random() < 0.1 else value


KINDS = {
    "tiny": lambda: number(-(2**7), 2**7 - 1),
    "utiny": lambda: number(0, 2**8 - 1),
    "small": lambda: number(-(2**15), 2**15 - 1),
    "usmall": lambda: number(0, 2**16 - 1),
    "medium": lambda: number(-(2**23), 2**23 - 1),
    "umedium": lambda: number(0, 2**24 - 1),
    "whole": lambda: number(-(2**31), 2**31 - 1),
    "uwhole": lambda: number(0, 2**32 - 1),
    "big": lambda: number(-(2**63), 2**63 - 1),
    "ubig": lambda: number(0, 2**64 - 1),
    "flag": lambda: number(0, 1),
    "bits": lambda: number(0, 2**13 - 1),
    "made": lambda: DICE.choice(["0", str(DICE.randrange(1901, 2156))]),
    "colour": lambda: number(1, 3),
    "marks": lambda: number(0, 2**9 - 1),
    "letters": lambda: text(10),
    "words": lambda: text(200),
    "story": lambda: text(400),
    "tale": lambda: latin(400),
    "fixed": lambda: binary(8),
    "raw": lambda: binary(300),
    "blob_of_bytes": lambda: binary(400),
    "more_bytes": lambda: binary(400),
    "amount": lambda: decimal(15, 5),
    "day": lambda: f"'{day()}'",
    "at_second": lambda: f"'{day()} {clock()}'",
    "at_milli": lambda: f"'{day()} {clock(3)}'",
    "span": span,
    "span_micro": lambda: span(6),
    "stamp": stamp,
    "stamp_milli": lambda: stamp(3),
}

LIVE = {"items": [], "pairs": [], "kinds": []}
FRESH = iter(range(10 + SERVER, 10**9, 2))


def code(key):
    return literal(f"{'east' if SERVER == 0 else 'west'} {key}".encode(), "_utf8mb4")


def item(key):
    return {"id": str(key), "code": code(key), "quantity": or_null(number(0, 2**32 - 1)), "price": or_null(decimal(8, 2))}


def pair(key):
    bound = DICE.random() < 0.5
    return {
        "a": str(key if DICE.random() < 0.5 else -key),
        "b": literal(key.to_bytes(5, "big") + some_bytes(8)),
        "c": str(SERVER) if bound else "NULL",
        "d": literal(key.to_bytes(4, "big")) if bound else or_null(binary(4)),
        "note": or_null(text(50)),
    }


def kind(key):
    return {"id": str(key)} | {name: or_null(value()) for name, value in KINDS.items()}


ROWS = {"items": item, "pairs": pair, "kinds": kind}


def where(table, row):
    names = ["a", "b"] if table == "pairs" else ["id"]
    return " AND ".join(f"{it} = {row[it]}" for it in names)


def insert(table):
    rows = [ROWS[table](next(FRESH)) for _ in range(DICE.choice([1, 1, 2, 5]))]
    LIVE[table] += rows
    return f"INSERT INTO shop.{table} VALUES {', '.join('(' + ', '.join(it.values()) + ')' for it in rows)};"


def update(table, row):
    fresh = ROWS[table](next(FRESH))
    keys = {"a", "b"} if table == "pairs" else {"id"}
    if DICE.random() < 0.2:
        # (a new primary key)
        keys = set()
    if table == "pairs" and "a" in keys:
        fresh |= {"c": row["c"], "d": row["d"]}
    changed = [it for it in fresh if it not in keys and (it not in ROWS or DICE.random() < 0.7)] or ["note"]
    line = f"UPDATE shop.{table} SET {', '.join(f'{it} = {fresh[it]}' for it in changed)} WHERE {where(table, row)};"
    row |= {it: fresh[it] for it in changed}
    return line


def statement():
    table = DICE.choice(["items", "pairs", "kinds"])
    live = LIVE[table]
    turn = DICE.random()
    if turn < 0.5 or not live:
        return insert(table)
    at = DICE.randrange(len(live))
    if turn < 0.85:
        return update(table, live[at])
    row = live.pop(at)
    return f"DELETE FROM shop.{table} WHERE {where(table, row)};"


for _ in range(COUNT):
    lines = [statement() for _ in range(DICE.choice([1, 1, 2, 3, 8]))]
    if len(lines) == 1 and DICE.random() < 0.5:
        print(lines[0])
    else:
        print("\n".join(["BEGIN;", *lines, "COMMIT;"]))
