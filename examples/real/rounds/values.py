"""Types of columns and their values, as SQL. A value of a key belongs to a number: two numbers have values that no server calls equal (as far as a type has
room for them), and one number has many values, some of which a server calls equal: by letter case, accent, blanks or zeros at the end, rounding, the sign of 0.
"""
from dataclasses import dataclass, field

TAKEN = ["utf8mb4_0900_ai_ci", "utf8mb4_0900_as_cs", "utf8mb4_0900_bin", "utf8mb4_general_ci", "utf8mb4_unicode_ci", "utf8mb4_unicode_520_ci", "utf8mb4_bin",
         "utf8mb3_general_ci", "utf8mb3_unicode_ci", "utf8mb3_bin", "latin1_swedish_ci", "latin1_general_ci", "latin1_general_cs", "latin1_bin",
         "ascii_general_ci", "ascii_bin"]
OTHER = ["utf8mb4_da_0900_ai_ci", "utf8mb4_0900_as_ci", "latin1_german2_ci", "utf16_general_ci", "gbk_chinese_ci", "cp1251_general_ci", "utf8mb4_ja_0900_as_cs"]
# where each number has two letters of its own
LETTERS = "bcdfghjklmnpqrstvwxz"
TAILS = ["", "x", "X", " ", "  ", " x", "\t", "\x01", "\0", "ss", "SS", "\u00df", "\u1e9e", "ae", "\u00e6", "\u00c6", "fi", "\ufb01", "oe", "\u0153", "\u0301",
         "e", "E", "\u00e9", "e\u0301", "E\u0301", "\u00e8", "i", "I", "\u0130", "\u0131", "\u00ad", "\u200b", "\u200d", "\u304b", "\u30ab", "\u304c", "\uff76",
         "\u03c3", "\u03c2", "\u03a3", "\u00f8", "o", "o\u0338", "\u01c6", "dz\u030c", "k", "\u212a", "\u00e5", "\u212b", "a", "\u00fe", "th", "\u00f0", "d", "\u00bd",
         "1\u20442", "\u3000", "\u00a0", "\ufffd", "\U0001f600", "\U0001f37a", "\U0001d41a", "\u2167", "VIII", "\u0e40\u0e01", "\u0e01\u0e40", "\uac00", "\u1100\u1161",
         "y", "\u00fc", "ue", "\u017f", "s", "\u017ft", "\u00b5", "\u03bc", "zzzz", "\u00d7", "\u20ac", "\u0160", "\u0161", "\u0152", "\u0178", "\u00ff", "-", "'", "\\", "%"]
BYTE_TAILS = [b"", b"\0", b"\0\0", b" ", b"x", b"X", b"\xff", b"\0x", b" x", b"\0 "]
WIDTHS = {"TINYINT": 8, "SMALLINT": 16, "MEDIUMINT": 24, "INT": 32, "BIGINT": 64}


@dataclass
class Type:
    """A type: its words in a definition, what kind of values it has, and how many numbers have values of their own."""
    words: str
    kind: str
    room: int = 400
    length: int = 0
    digits: int = 0
    collation: str = ""
    signed: bool = True
    fixed: bool = False
    members: list = field(default_factory=list)

    def charset(self):
        return self.collation.split("_")[0]


# ---- types at random

def whole(dice):
    name = dice.choice(list(WIDTHS))
    signed = dice.random() < 0.6
    words = name if signed else f"{name} UNSIGNED{dice.choice(['', '', ' ZEROFILL'])}"
    return Type(words, "whole", min(400, 2 ** WIDTHS[name]), WIDTHS[name], signed=signed)


def decimal(dice):
    digits = dice.choice([0, 2, 5, 10])
    precision = digits + dice.choice([4, 9, 10, 19])
    signed = dice.random() < 0.8
    return Type(f"DECIMAL({precision},{digits}){'' if signed else ' UNSIGNED'}", "decimal", 400, precision, digits, signed=signed)


def real(dice):
    words = dice.choice(["FLOAT", "DOUBLE", "FLOAT", "DOUBLE", "FLOAT(9,2)", "DOUBLE(12,3)", "FLOAT(30)"])
    return Type(words, "real", 400, 4 if words.startswith("FLOAT") and words != "FLOAT(30)" else 8)


def text(dice, collation=None):
    collation = collation or dice.choice(TAKEN)
    words = dice.choice(["CHAR", "VARCHAR", "VARCHAR", "VARCHAR", "TINYTEXT", "TEXT", "MEDIUMTEXT", "LONGTEXT"])
    length = dice.choice([1, 2, 3, 5, 10, 20, 60, 250]) if words.endswith("CHAR") else 60
    size = f"({length})" if words.endswith("CHAR") else ""
    made = Type("", "text", 20 if length == 1 else 400, length, collation=collation, fixed=words == "CHAR")
    made.words = f"{words}{size} CHARACTER SET {made.charset()} COLLATE {collation}"
    return made


def some_bytes(dice):
    words = dice.choice(["BINARY", "VARBINARY", "VARBINARY", "TINYBLOB", "BLOB", "LONGBLOB"])
    length = dice.choice([1, 2, 4, 8, 20, 60]) if words.endswith("BINARY") else 60
    return Type(f"{words}({length})" if words.endswith("BINARY") else words, "bytes", 250 if length == 1 else 400, length, fixed=words == "BINARY")


def bits(dice):
    length = dice.choice([1, 9, 13, 32, 64])
    return Type(f"BIT({length})", "bits", min(400, 2 ** length), length)


def moment(dice):
    name = dice.choice(["DATE", "TIME", "DATETIME", "TIMESTAMP", "YEAR"])
    digits = dice.randrange(7) if name in ("TIME", "DATETIME", "TIMESTAMP") and dice.random() < 0.5 else 0
    return Type(f"{name}({digits})" if digits else name, name.lower(), 250 if name == "YEAR" else 400, digits=digits)


def choice_of_names(dice):
    collation = dice.choice(["utf8mb4_bin", "utf8mb4_0900_ai_ci", "latin1_swedish_ci"])
    if dice.random() < 0.5:
        members = [f"m{it}" for it in range(dice.choice([3, 40, 300]))]
        kind = "enum"
    else:
        members = [f"s{it}" for it in range(dice.choice([2, 8, 9, 17, 33, 64]))]
        kind = "set"
    words = f"{kind.upper()}({', '.join(map(repr, members))}) CHARACTER SET {collation.split('_')[0]} COLLATE {collation}"
    return Type(words, kind, len(members) if kind == "enum" else min(400, 2 ** len(members)), members=members)


def document(dice):
    words = dice.choice(["JSON", "POINT", "GEOMETRY", "VECTOR(3)"])
    return Type(words, words.split("(")[0].lower(), 0)


KEY_TYPES = [whole, whole, whole, decimal, real, text, text, text, text, text, some_bytes, some_bytes, bits, moment, moment, choice_of_names]
TYPES = KEY_TYPES + [document, document]


# ---- literals

def literal(data):
    return f"x'{data.hex()}'"


def text_literal(made):
    return f"_utf8mb4 x'{made.encode().hex()}'"


def limits(kind):
    return (-2 ** (kind.length - 1), 2 ** (kind.length - 1) - 1) if kind.signed else (0, 2 ** kind.length - 1)


def fits(made, charset):
    """The characters that a character set has (latin1 is that of Windows)."""
    if charset == "latin1":
        return made.encode("cp1252", "ignore").decode("cp1252")
    most = {"ascii": 0x7F, "utf8mb3": 0xFFFF, "utf8mb4": 0x10FFFF}.get(charset, 0x7F)
    return "".join(it for it in made if ord(it) <= most)


# ---- the value of a number: of its many forms one at random, where `wild`, and else always the same

def whole_value(kind, number, dice, wild):
    low, high = limits(kind)
    if kind.length == 8:
        made = number if low == 0 else (number // 2 if number % 2 == 0 else -(number // 2) - 1)
    else:
        made = [number, high - number, low + number if low < 0 else number + 1000][number % 3]
    return dice.choice([str(made), f"'{made}'", f"{made}.4"]) if wild and abs(made) < 2 ** 31 else str(made)


def decimal_value(kind, number, dice, wild):
    sign = "-" if kind.signed and number % 2 else ""
    if not wild:
        return f"{sign}{number}"
    fraction = f".{'0' * kind.digits}{dice.choice(['', '0', '4', '49', '0000000001'])}"
    return f"{sign if number else dice.choice(['', '-'])}{number}{fraction if fraction != '.' else ''}"


def real_value(kind, number, dice, wild):
    made = number * (0.5 if number % 2 else -0.5)
    if not wild:
        return str(abs(made) if number == 0 else made)
    if number == 0:
        return dice.choice(["0", "-0e0", "1e-50", "-1e-50", "-0.0e0", "1e-400", "-1e-320"])
    return dice.choice([f"{made}", f"{made}e0", f"{made}00000001", f"'{made}'"])


def shaped(letter, charset, dice):
    """A letter, in a form that some collations call equal to it."""
    forms = [letter, letter.upper(), letter + "\u0301", chr(ord(letter) - 0x61 + 0xFF41), chr(ord(letter) - 0x61 + 0x24D0), chr(ord(letter) - 0x61 + 0x1D41A),
             {"c": "\u00e7", "n": "\u00f1", "z": "\u017e", "s": "\u0161", "d": "\u00f0", "l": "\u0142", "k": "\u212a"}.get(letter, letter), letter + "\u00ad"]
    return fits(dice.choice(forms[:2] + forms), charset) or letter


def text_value(kind, number, dice, wild):
    letters = LETTERS[number % 20] + (LETTERS[number // 20 % 20] if kind.length > 1 else "")
    if not wild:
        return text_literal(letters + ("x" * (number % 5))[:kind.length - len(letters)])
    letters = "".join(shaped(it, kind.charset(), dice) for it in letters)
    tail = "".join(dice.choice(TAILS) for _ in range(dice.choice([0, 1, 1, 2]))) if kind.length < 250 or dice.random() < 0.5 else dice.choice("xX ") * kind.length
    return text_literal(fits(letters + tail, kind.charset())[:kind.length])


def bytes_value(kind, number, dice, wild):
    made = bytes([number % 250 + 1]) if kind.length == 1 else bytes([number % 250 + 1, number // 250 + 1])
    return literal((made + (dice.choice(BYTE_TAILS) if wild else b"yz" * (number % 3)))[:kind.length])


def bits_value(kind, number, dice, wild):
    return dice.choice([str(number), f"b'{number:b}'"]) if wild else str(number)


def enum_value(kind, number, dice, wild):
    name = kind.members[number % len(kind.members)]
    return dice.choice([f"'{name}'", f"'{name.upper()}'", str(number + 1), f"'{name} '"]) if wild else str(number % len(kind.members) + 1)


def set_value(kind, number, dice, wild):
    return str(number)


def fraction(kind, dice, wild):
    """Digits of a second, of which those that the type hasn't are rounded away."""
    return "." + "0" * kind.digits + dice.choice(["", "0", "4", "49"])[:6 - kind.digits] if wild and dice.random() < 0.5 else ""


def date_value(kind, number, dice, wild):
    made = f"2024-{1 + number // 28 % 12:02}-{1 + number % 28:02}" if number else dice.choice(["0000-00-00", "2024-01-01"]) if wild else "2024-01-01"
    return f"'{made}'"


def time_value(kind, number, dice, wild):
    sign = ("-" if number % 2 else "") if number else (dice.choice(["", "-"]) if wild else "")
    return f"'{sign}{number // 60:02}:{number % 60:02}:00{fraction(kind, dice, wild)}'"


def datetime_value(kind, number, dice, wild):
    if number == 0 and wild and dice.random() < 0.5:
        return "'0000-00-00 00:00:00'"
    return f"'2024-03-{10 + number // 60:02} {number // 60:02}:{number % 60:02}:00{fraction(kind, dice, wild).rstrip('.')}'"


def year_value(kind, number, dice, wild):
    return str(1901 + number) if number else dice.choice(["0", "'0000'"]) if wild else "0"


VALUES = {"whole": whole_value, "decimal": decimal_value, "real": real_value, "text": text_value, "bytes": bytes_value, "bits": bits_value, "enum": enum_value,
          "set": set_value, "date": date_value, "time": time_value, "datetime": datetime_value, "timestamp": datetime_value, "year": year_value}


def key_value(kind, number, dice, wild=False):
    return VALUES[kind.kind](kind, number % max(kind.room, 1), dice, wild)


# ---- any value, often at a limit

def any_text(kind, dice):
    if kind.words.startswith("LONG") and dice.random() < 0.2:
        return f"REPEAT({text_literal(dice.choice('aB '))}, {dice.choice([255, 256, 9000, 70000])})"
    most = min(kind.length, 40)
    made = "".join(dice.choice(["a", "B", dice.choice(TAILS)]) for _ in range(dice.choice([0, 1, 3, most])))
    return text_literal(fits(made, kind.charset())[:most])


def any_bytes(kind, dice):
    if kind.words.startswith("LONG") and dice.random() < 0.2:
        return f"REPEAT({literal(dice.randbytes(1))}, {dice.choice([255, 256, 9000, 70000])})"
    return literal(dice.choice([b"", b"\0" * kind.length, dice.randbytes(kind.length), dice.randbytes(dice.randint(0, kind.length))]))


def any_document(kind, dice):
    return {"json": lambda: dice.choice(["'{}'", "'[]'", "'{\"a\": 1, \"b\": [true, null, \"x\"]}'", "'[9223372036854775808, -1, 0.5]'", "'\"text\"'", "'{\"a\": 7}'"]),
            "point": lambda: f"ST_GeomFromText('POINT({dice.randint(-9, 9)} 0.1)')",
            "geometry": lambda: dice.choice(["ST_GeomFromText('LINESTRING(0 0, 1 1)')", "ST_GeomFromText('POINT(1 2)')", "ST_GeomFromText('POLYGON((0 0, 0 1, 1 1, 0 0))', 4326)"]),
            "vector": lambda: f"STRING_TO_VECTOR('[{dice.randint(-9, 9)}, 0.1, -0]')"}[kind.kind]()


def any_number(kind, dice):
    low, high = limits(kind)
    return str(dice.choice([low, high, 0, 1, high // 2 + 1, dice.randint(low, high)]))


ANY = {"whole": any_number, "text": any_text, "bytes": any_bytes,
       "decimal": lambda kind, dice: f"{'-' if kind.signed and dice.random() < 0.5 else ''}{dice.choice(['0', '9' * (kind.length - kind.digits), '1'])}",
       "real": lambda kind, dice: dice.choice(["0", "-0e0", "0.1", "123456.789", "-3.4e5", "1.4e-45", "5e-324", "16777217"]),
       "bits": lambda kind, dice: str(dice.choice([0, 1, 2 ** kind.length - 1])),
       "enum": lambda kind, dice: str(dice.randint(1, len(kind.members))),
       "set": lambda kind, dice: str(dice.randrange(2 ** len(kind.members))),
       "year": lambda kind, dice: dice.choice(["0", "1901", "2155"]),
       "date": lambda kind, dice: dice.choice(["'0000-00-00'", "'1000-01-01'", "'9999-12-31'", "'2024-02-29'", "'2024-00-00'"]),
       "time": lambda kind, dice: dice.choice(["'-838:59:59'", "'838:59:59'", "'00:00:00.5'", "'-12:34:56.999999'", "'24:00:00'"]),
       "datetime": lambda kind, dice: dice.choice(["'0000-00-00 00:00:00'", "'9999-12-31 23:59:59'", "'2024-02-29 23:59:58.123456'", "'1000-01-01 00:00:00'"]),
       "timestamp": lambda kind, dice: dice.choice(["'0000-00-00 00:00:00'", "'1971-01-01 00:00:01'", "'2037-01-19 03:14:07'", "'2024-02-29 23:59:58.654321'",
                                                    "'2024-03-31 02:30:00+05:30'"])}


def any_value(kind, dice):
    return ANY.get(kind.kind, any_document)(kind, dice)
