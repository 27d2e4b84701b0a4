#!/usr/bin/env python3
"""Random changes of JSON documents, as SQL on standard output; the same for the same words.

usage: documents.py COUNT SEED [with-text]

The table v.j has a key, a counter that each change raises, so that each change is logged, and a document. After each change the row is asked
for, with the document's text in hexadecimal digits: so what the client prints is what the log has, line by line. There are documents with all
types, in the small form and in the large one (from 64 KB on), and updates in place and with room left over. Documents that have no text here
(with values of SQL types, and with doubles that have an exponent) come last and are asked for as a question mark; `with-text` leaves them out.
"""
import json
import random
import sys

COUNT, SEED = int(sys.argv[1]), int(sys.argv[2])
DICE = random.Random(SEED)
LIMITS = [2 ** 15, 2 ** 16, 2 ** 31, 2 ** 32, 2 ** 63, 2 ** 64]
LETTERS = ["a", "b", " ", "\"", "\\", "/", "\b", "\f", "\n", "\r", "\t", "\0", "\x01", "\x1f", "\x7f", "é", "€", "\u2028", "😀", "\ud7ff"]
# what the first documents are: each type, each limit, and each form
CORNERS = [None, True, False, "", {}, [], [[]], [{}], {"": None}, {"a": {}}, {"b": 1, "aa": 2, "a": 3, "": 4}, "".join(chr(it) for it in range(256)),
           {"".join(chr(it) for it in range(40)): 1}, ["x" * it for it in (0, 1, 126, 127, 128, 129, 16383, 16384)], ["z" * 2100000, 1],
           [0, 1, -1] + [it + step for it in LIMITS for step in (-1, 0)][:-1] + [-it + step for it in LIMITS[:-1] for step in (0, 1)],
           -2 ** 31 - 1, -2 ** 15 - 1, -2 ** 63, 2 ** 64 - 1, ["\x01" * 70000],
           [0.0, -0.0, 1.0, -1.5, 0.1, 0.1 + 0.2, 1e14, 999999999999999.9, 562949953421312.25, 1e-14, 2 ** -20, 1 / 3], 2.5,
           {"k" * 300: "y" * 65000, "n": 100000, "m": -100000, "o": 2 ** 32 - 1, "p": 2 ** 32, "q": True, "r": [7, 70000], "s": {"t": -7}}]


def nested(levels, of_objects, inside):
    """A document of so many levels."""
    for _ in range(levels):
        inside = {"a": inside} if of_objects else [inside]
    return inside


for each in (False, True):
    CORNERS += [nested(100, each, 1), nested(99, each, [] if each else {})]


def depth(value):
    parts = value.values() if isinstance(value, dict) else value if isinstance(value, list) else []
    return 1 + max(map(depth, parts), default=0)


def number():
    limit = DICE.choice(LIMITS)
    low = max(-limit, -2 ** 63)
    return DICE.choice([0, 1, -1, limit - 1, min(limit, 2 ** 64 - 1), low, max(low - 1, -2 ** 63), DICE.randint(low, limit - 1), DICE.randint(-200, 200)])


def double():
    return DICE.choice([-1, 1]) * DICE.choice([round(DICE.uniform(0, 10 ** DICE.randint(0, 9)), DICE.randint(0, 12)), DICE.uniform(0.001, 10 ** 15),
                                               float(DICE.randint(0, 10 ** 15 - 1)), DICE.randint(1, 10 ** 6) / 10 ** DICE.randint(1, 9)])


def text(most=40):
    return "".join(DICE.choice(LETTERS) for _ in range(DICE.choice([0, 1, 5, DICE.randint(0, most), DICE.randint(120, 140)])))


def document(levels):
    dice = DICE.random()
    if levels and dice < 0.3:
        return [document(levels - 1) for _ in range(DICE.randint(0, 6))]
    if levels and dice < 0.6:
        return {text(12): document(levels - 1) for _ in range(DICE.randint(0, 6))}
    if dice > 0.97:
        return [text(300) for _ in range(500)]
    return DICE.choice([None, True, False, number(), number(), double(), text(), text(), text()])


def literal(value):
    """An expression of SQL whose value is a document."""
    return f"CAST(CONVERT(x'{json.dumps(value, ensure_ascii=False).encode().hex()}' USING utf8mb4) AS JSON)"


def path(value):
    """A path to a part of a document: a part that is there, or one more of an array or an object."""
    if isinstance(value, list) and value and DICE.random() < 0.8:
        at = DICE.randrange(len(value) + (DICE.random() < 0.2))
        return f"[{at}]" + (path(value[at]) if at < len(value) else "")
    if isinstance(value, dict) and value and DICE.random() < 0.8:
        name = DICE.choice(list(value))
        return f".{json.dumps(name, ensure_ascii=False)}" + path(value[name])
    return ""


def quoted(words):
    return f"CONVERT(x'{words.encode().hex()}' USING utf8mb4)"


def ask(key, word="CONCAT('x', LOWER(HEX(CAST(j AS CHAR CHARACTER SET utf8mb4))))"):
    print(f"SELECT id, n, {word} FROM j WHERE id = {key};")


print("CREATE TABLE j (id INT PRIMARY KEY, n INT NOT NULL, j JSON NOT NULL); SET SESSION sql_mode = '';")
kept = {}
for step in range(COUNT):
    key = step
    if step < len(CORNERS) or DICE.random() < 0.4 or not kept:
        value = CORNERS[step] if step < len(CORNERS) else document(4)
        print(f"INSERT INTO j VALUES ({key}, 0, {literal(value)});")
        if depth(value) < 90 and len(json.dumps(value)) < 200000:
            kept[key] = value
    else:
        # the document that is there has been changed since it was inserted: not each path leads to a part any more
        key = DICE.choice(list(kept))
        small = DICE.choice([None, True, 7, number(), double(), text(8), [], {}, document(1)])
        change = DICE.choice(["JSON_SET(j, {}, {})", "JSON_SET(j, {}, {})", "JSON_REPLACE(j, {}, {})", "JSON_REMOVE(j, {})", "JSON_ARRAY_APPEND(j, {}, {})"])
        where = path(kept[key])
        if "REMOVE" in change and not where:
            change = "JSON_REPLACE(j, {}, {})"
        print(f"UPDATE IGNORE j SET n = n + 1, j = {change.format(quoted('$' + where), literal(small))} WHERE id = {key};")
    ask(key)
# a document of no bytes, which the server takes as null
print("UPDATE j SET n = n + 1, j = NULL WHERE id = 0;")
ask(0)
WITHOUT_TEXT = ("CAST(1.5 AS DECIMAL(3, 1))", "NOW()", "x'00ff'", "CAST('1e15' AS JSON)", "CAST('1e-16' AS JSON)", "CAST('18446744073709551616' AS JSON)")
for key, value in enumerate(() if sys.argv[3:] == ["with-text"] else WITHOUT_TEXT):
    print(f"INSERT INTO j VALUES ({COUNT + key}, 0, JSON_ARRAY(1, {value}));")
    ask(COUNT + key, "'?'")
