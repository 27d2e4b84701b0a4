#!/usr/bin/env python3
"""What `binlogs` needs beside servers: random changes of the columns that a log's text hasn't whole, their rows by what SELECT prints, and damage.

usage: binlogs.py numbers COUNT SEED               SQL: COUNT statements that change the rows of v.numbers
       binlogs.py rows < WHAT_SELECT_PRINTS        the `row` lines of v.numbers
       binlogs.py kind FILE KIND FLAGS TO          FILE with the first event of this kind made one of kind TO with these flags, to standard output
       binlogs.py damage PROGRAM HEAD FILE..       each bit, cut and event of each file of the channel east: counts, and status 1 where one isn't seen
"""
import os
import random
import struct
import subprocess
import sys
import tempfile
import zlib
from collections import Counter
from concurrent.futures import ThreadPoolExecutor

HEADER, CHECKSUM, MAGIC = 19, 4, 4


# ---- numbers

def numbers(count, seed):
    dice = random.Random(seed)
    floats = ["0", "-0e0", "1", "-1", "0.1", "3.402823466e38", "-3.402823466e38", "1.175494351e-38", "1.17549421e-38", "1.4e-45", "-1e-40", "16777217"]
    doubles = ["0", "-0e0", "1", "0.1", "1.7976931348623157e308", "-1.7976931348623157e308", "2.2250738585072014e-308", "2.225e-308", "5e-324", "9007199254740993"]

    def a_float():
        return dice.choice([*floats, f"{dice.uniform(-1, 1):.9f}e{dice.randint(-37, 37)}"])

    def a_double():
        return dice.choice([*doubles, f"{dice.uniform(-1, 1):.17f}e{dice.randint(-300, 300)}"])

    def place():
        return f"{dice.randint(-999, 999)}.{dice.randint(0, 99)} {dice.choice([0, 1, -1, 0.1, 1e100, -1e-100])}"

    def geometry():
        line = ", ".join(place() for _ in range(dice.randint(2, 5)))
        text = dice.choice([f"POINT({place()})", f"LINESTRING({line})", f"MULTIPOINT({line})", f"GEOMETRYCOLLECTION(POINT({place()}), LINESTRING({line}))",
                            "POLYGON((0 0, 0 3, 3 3, 3 0, 0 0))", "GEOMETRYCOLLECTION()"])
        return f"ST_GeomFromText('{text}', {dice.choice([0, 3857])})"

    def vector():
        return f"TO_VECTOR('[{', '.join(f'{dice.uniform(-1, 1):.8f}e{dice.randint(-30, 30)}' for _ in range(dice.randint(1, 300)))}]')"

    def row(key):
        made = [a_float, a_double, geometry, lambda: f"POINT({place().replace(' ', ', ')})", vector, lambda: str(abs(float(a_float())))]
        return ", ".join([str(key), *("NULL" if dice.random() < 0.1 else it() for it in made)])

    keys = []
    print("USE v;")
    for step in range(count):
        if keys and dice.random() < 0.15:
            print(f"DELETE FROM numbers WHERE id = {keys.pop(dice.randrange(len(keys)))};")
        elif keys and dice.random() < 0.4:
            print(f"UPDATE numbers SET f = {a_float()}, d = {a_double()}, g = {geometry()}, v = {vector()} WHERE id = {dice.choice(keys)};")
        else:
            print(f"INSERT INTO numbers VALUES ({row(step)}), ({row(step + count)});")
            keys += [step, step + count]


def bytes_word(packed):
    return "x" + packed.hex()


def rows():
    """Of each row SELECT prints: id, the FLOATs as DOUBLEs in decimal digits, the DOUBLE so, and the others by HEX."""
    def word(column, text):
        if text == "NULL":
            return "null"
        return {"i": lambda: text, "f": lambda: bytes_word(struct.pack(">f", float(text))), "d": lambda: bytes_word(struct.pack(">d", float(text))),
                "x": lambda: bytes_word(bytes.fromhex(text))}[column]()

    for line in sys.stdin:
        print("row v.numbers", *(word(*it) for it in zip("ifdxxxf", line.rstrip("\n").split("\t"))))


# ---- the bytes of a file

def events_of(data):
    """The events of a file, each as its bytes."""
    found, at = [], MAGIC
    while at < len(data):
        length = int.from_bytes(data[at + 9 : at + 13], "little")
        found.append(data[at : at + length])
        at += length
    return found


def with_kind(file, kind, flags, other):
    data = open(file, "rb").read()
    events = events_of(data)
    at = next(it for it, event in enumerate(events) if event[4] == kind)
    made = bytearray(events[at][:-CHECKSUM])
    made[4] = other
    made[17:19] = flags.to_bytes(2, "little")
    events[at] = bytes(made) + zlib.crc32(made).to_bytes(4, "little")
    sys.stdout.buffer.write(data[:MAGIC] + b"".join(events))


def damages(data):
    """Each damage of a file: what is done, and the bytes then."""
    for bit in range(8 * len(data)):
        made = bytearray(data)
        made[bit // 8] ^= 1 << bit % 8
        yield "flipped bits", f"bit {bit % 8} of the byte at {bit // 8}", bytes(made)
    for length in range(len(data)):
        yield "cuts", f"cut at {length}", data[:length]
    head, events = data[:MAGIC], events_of(data)
    for at, event in enumerate(events):
        told = f"event {at + 1} of kind {event[4]}"
        yield "events left out", told, head + b"".join(events[:at] + events[at + 1 :])
        yield "events doubled", told, head + b"".join(events[: at + 1] + events[at:])
        if at + 1 < len(events):
            yield "events swapped", told, head + b"".join(events[:at] + [events[at + 1], event] + events[at + 2 :])


def imported(program, head, files):
    done = subprocess.run([program, "import", "--binlogs", *(f"east={it}" for it in files)], input=head, capture_output=True, timeout=600, check=False)
    return done.stdout, done.returncode, done.stderr.decode()


def word_of(said):
    """The word by which a refusal is counted."""
    words = said.split()
    return words[5] if words[1] == "binlog" else words[4] if words[2] == "line" else words[2]


def damage(program, head_file, files):
    head = open(head_file, "rb").read()
    whole, status, said = imported(program, head, files)
    if status != 0:
        sys.exit(f"the files aren't taken whole: {said}")
    counts, wrong = {}, 0

    def tried(job):
        number, (what, where, made) = job
        with tempfile.NamedTemporaryFile(dir=os.path.dirname(files[0])) as it:
            it.write(made)
            it.flush()
            output, status, said = imported(program, head, [*files[:number], it.name, *files[number + 1 :]])
        if status == 1 and not output and said.count("\n") == 1 and said.startswith("refused "):
            return what, word_of(said), None
        if status == 0 and output == whole:
            return what, "the same bundle", None
        return what, "NOT SEEN", f"file {number + 1}, {where}: status {status}, {said.strip()[:200]}"

    with ThreadPoolExecutor(2) as pool:
        for number, file in enumerate(files):
            data = open(file, "rb").read()
            print(f"file {number + 1} of {len(files)}, of {len(data)} bytes and {len(events_of(data))} events:")
            for what, word, fault in pool.map(tried, ((number, it) for it in damages(data))):
                counts.setdefault((number, what), Counter())[word] += 1
                if fault:
                    wrong += 1
                    print(f"  {what}: {fault}")
            for (of, what), words in counts.items():
                if of == number:
                    print(f"  {what}, {sum(words.values())}: " + ", ".join(f"{it} {words[it]}" for it in sorted(words)))
    sys.exit(1 if wrong else 0)


what, *words = sys.argv[1:] or ["--help"]
if what == "numbers":
    numbers(int(words[0]), int(words[1]))
elif what == "rows":
    rows()
elif what == "kind":
    with_kind(words[0], int(words[1]), int(words[2]), int(words[3]))
elif what == "damage":
    damage(words[0], words[1], words[2:])
else:
    sys.exit(__doc__)
