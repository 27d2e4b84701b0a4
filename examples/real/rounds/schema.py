"""Random schemas. What is `gone` isn't printed: so a find is made smaller."""
from dataclasses import dataclass, field

import values

PLAIN = ["d", "shop", "e"]
ODD = ["Orders and.more", "orders and.more", "2024_log", "a`b", "\u00fcber-\u6f22", "it's", "say \"so\"", "a%b$", "null", "D", "select", "x" * 60]


@dataclass
class Column:
    name: str
    kind: values.Type
    null: bool = True
    made_as: str = ""
    stored: bool = False
    invisible: bool = False
    default: str = ""
    counted: bool = False
    gone: bool = False

    def words(self):
        made = f" AS ({self.made_as}) {'STORED' if self.stored else 'VIRTUAL'}" if self.made_as else ""
        default = f" DEFAULT {self.default}" if self.default else " NULL DEFAULT NULL" if self.kind.kind == "timestamp" and self.null else ""
        rest = (" NOT NULL" if not self.null else "") + (default if not made else "") + (" AUTO_INCREMENT" if self.counted else "")
        return f"{quoted(self.name)} {self.kind.words}{made}{rest}{' INVISIBLE' if self.invisible else ''}"


@dataclass
class Part:
    """What a key has of a column, all of it or so many characters; or an expression."""
    column: str
    length: int = 0
    descending: bool = False
    expression: str = ""

    def words(self):
        return self.expression or f"{quoted(self.column)}{f'({self.length})' if self.length else ''}{' DESC' if self.descending else ''}"


@dataclass
class Key:
    words: str
    name: str
    parts: list
    invisible: bool = False
    gone: bool = False

    def columns(self):
        return [it.column for it in self.parts]

    def unique(self):
        return self.words in ("PRIMARY KEY", "UNIQUE KEY")

    def printed(self):
        name = "" if self.words == "PRIMARY KEY" else f" {quoted(self.name)}"
        return f"{self.words}{name} ({', '.join(it.words() for it in self.parts)}){' INVISIBLE' if self.invisible else ''}"


@dataclass
class Line:
    """A line of a table's definition, as a CHECK, or a statement of the schema, as a trigger; with the columns or tables that it names."""
    words: str
    names: list
    gone: bool = False


@dataclass
class Table:
    database: str
    name: str
    columns: list = field(default_factory=list)
    keys: list = field(default_factory=list)
    lines: list = field(default_factory=list)
    partition: list = field(default_factory=list)
    # (whether the server makes an invisible primary key, where the table has none)
    made_key: bool = False
    gone: bool = False

    def place(self):
        return f"{quoted(self.database)}.{quoted(self.name)}"

    def present(self):
        return {it.name: it for it in self.columns if not it.gone}

    def keys_here(self):
        here = self.present()
        return [it for it in self.keys if not it.gone and all(column in here for column in it.columns())]

    def in_keys(self):
        return {column for key in self.keys if key.unique() for column in key.columns()}

    def primary(self):
        """The columns by which a statement finds a row: those of the primary key, else of another one without NULLs, else some."""
        here = self.present()
        whole = [it for it in self.keys if it.unique() and all(here[column].null is False for column in it.columns() if column in here)]
        chosen = sorted(whole, key=lambda it: it.words)[:1]
        return chosen[0].columns() if chosen and chosen[0].columns() != [""] else [it.name for it in self.columns if it.kind.room and not it.made_as][:3]

    def create(self):
        here = self.present()
        lines = [it.words() for it in here.values()] + [it.printed() for it in self.keys_here()]
        lines += [it.words for it in self.lines if not it.gone and all(name in here for name in it.names)]
        partition = "".join(f" {it.words}" for it in self.partition if not it.gone)
        made = f"CREATE TABLE {self.place()} ({', '.join(lines)}){partition};"
        return f"SET SESSION sql_generate_invisible_primary_key = ON; {made} SET SESSION sql_generate_invisible_primary_key = OFF;" if self.made_key else made


@dataclass
class Schema:
    tables: list = field(default_factory=list)
    references: list = field(default_factory=list)
    triggers: list = field(default_factory=list)

    def here(self):
        return [it for it in self.tables if not it.gone]

    def databases(self):
        return sorted({it.database for it in self.here()})

    def create(self):
        databases = [f"CREATE DATABASE {quoted(it)};" for it in self.databases()]
        return "\n".join(databases + [it.create() for it in self.here()] + self.of_lines(self.references))

    def create_triggers(self):
        return "\n".join(self.of_lines(self.triggers))

    def of_lines(self, lines):
        places = {it.place(): it for it in self.here()}
        return [it.words for it in lines if not it.gone and all(table in places and (not column or column in places[table].present()) for table, column in it.names)]

    def drop(self):
        return "\n".join(f"DROP DATABASE IF EXISTS {quoted(it)};" for it in {table.database for table in self.tables})


def quoted(name):
    return "`" + name.replace("`", "``") + "`"


# ---- columns

def name_of(dice, taken, odd, fold=str.lower):
    """A name that isn't taken: of columns, in no letter case."""
    while True:
        made = dice.choice(ODD if odd else PLAIN) + (str(len(taken)) if dice.random() < 0.7 else "")
        if fold(made) not in taken:
            taken.add(fold(made))
            return made


def made_by(column, dice):
    """An expression of a column for a generated column, and its type."""
    it, kind = quoted(column.name), column.kind
    collation = dice.choice(["utf8mb4_0900_ai_ci", "utf8mb4_bin", "utf8mb4_general_ci"])
    text = values.Type(f"VARCHAR(80) CHARACTER SET utf8mb4 COLLATE {collation}", "text", 0, collation="utf8mb4_bin")
    number = values.Type(dice.choice(["BIGINT", "DOUBLE", "DECIMAL(30,4)"]), "whole", 0)
    of_kind = {"whole": [(f"{it} % 100000", number), (f"CAST({it} AS DOUBLE) * 2", number), (f"CONCAT('n', {it})", text)], "text": [
        (f"LOWER(LEFT({it}, 40))", text), (f"CHAR_LENGTH({it})", number), (f"HEX(LEFT({it}, 9))", text), (f"LEFT({it}, 2)", text), (f"CONCAT('<', LEFT({it}, 40), '>')", text)],
        "bytes": [(f"HEX(LEFT({it}, 9))", text), (f"LENGTH({it})", number)], "real": [(f"{it} * 2", number), (f"IF({it} < 0, NULL, {it})", number)],
        "json": [(f"JSON_UNQUOTE(JSON_EXTRACT({it}, '$.a'))", text), (f"JSON_LENGTH({it})", number)], "timestamp": [(f"YEAR({it})", number), (f"CONCAT('', {it})", text)],
        "date": [(f"DAYOFMONTH({it})", number)], "datetime": [(f"MINUTE({it})", number), (f"HOUR({it})", number),
        (f"DATE_ADD({it}, INTERVAL 1 DAY)", text), (f"DATE_FORMAT({it}, '%M %H:%i')", text)],
        "time": [(f"HOUR({it})", number)],
        "decimal": [(f"{it} / 3", number), (f"ROUND({it})", number), (f"ABS({it})", number), (f"{it} * 2", number)],
        "enum": [(f"{it} + 0", number), (f"CONCAT({it})", text)], "set": [(f"{it} + 0", number)]}
    return dice.choice(of_kind.get(kind.kind, [(f"IF({it} IS NULL, 1, 0)", number)]))


def generated(table, dice, name):
    expression, kind = made_by(dice.choice([it for it in table.columns if not it.made_as and not it.counted]), dice)
    return Column(name, kind, made_as=expression, stored=dice.random() < 0.5)


def default_of(kind, dice):
    if kind.kind in ("datetime", "timestamp") and dice.random() < 0.3:
        digits = f"({kind.digits})" if kind.digits else ""
        return f"CURRENT_TIMESTAMP{digits} ON UPDATE CURRENT_TIMESTAMP{digits}"
    if kind.kind == "text" and kind.length >= 20 and dice.random() < 0.1:
        return "(LEFT(UUID(), 20))"
    return "(FLOOR(RAND() * 100))" if kind.kind == "whole" and dice.random() < 0.05 else ""


def plain_column(dice, name):
    kind = dice.choice(values.TYPES)(dice)
    if kind.kind == "text" and dice.random() < 0.1:
        kind = values.text(dice, dice.choice(values.OTHER))
    return Column(name, kind, dice.random() < 0.7, default=default_of(kind, dice), invisible=dice.random() < 0.05)


# ---- keys

def part_of(column, dice):
    """A part of a key: TEXT and BLOB by a prefix, others now and then."""
    kind, length = column.kind, 0
    large = kind.kind in ("text", "bytes") and any(it in kind.words.split("(")[0].split()[0] for it in ("TEXT", "BLOB"))
    if large or (kind.kind in ("text", "bytes") and kind.length > 2 and dice.random() < 0.3):
        length = dice.choice([it for it in (2, 3, 4, 10, 20) if it < max(kind.length, 3)])
    return Part(column.name, length, dice.random() < 0.2)


def key_columns(table, dice, names):
    """New columns for a key, of which one at least has room for each row."""
    made = [Column(names(), dice.choice(values.KEY_TYPES)(dice), False) for _ in range(dice.choice([1, 1, 1, 2, 3]))]
    while all(it.kind.room < 200 for it in made):
        made[0].kind = dice.choice(values.KEY_TYPES)(dice)
    table.columns += made
    return made


def add_primary(table, dice, names):
    made = key_columns(table, dice, names)
    if len(made) == 1 and made[0].kind.kind == "whole" and made[0].kind.length > 8 and dice.random() < 0.2:
        made[0].counted = True
    parts = [part_of(it, dice) for it in made]
    dice.shuffle(parts)
    table.keys.append(Key("PRIMARY KEY", "PRIMARY", parts))


def add_unique(table, dice, names, null=True):
    """A unique key, of new columns, of columns of the primary key too, or of a generated column."""
    made = key_columns(table, dice, names)
    for it in made:
        it.null = null and dice.random() < 0.6
    if null and dice.random() < 0.25:
        made = [generated(table, dice, names())]
        table.columns += made
    elif dice.random() < 0.15 and table.keys:
        made += [it for it in table.columns if it.name == dice.choice(table.keys[0].parts).column and it not in made]
    parts = [part_of(it, dice) if not it.made_as else Part(it.name) for it in made]
    table.keys.append(Key("UNIQUE KEY", f"u{len(table.keys)} {dice.choice(['', 'of it', '-'])}".strip(), parts, dice.random() < 0.1))


def add_common(table, dice):
    """A key that isn't unique: of a column, an expression, or the members of a document."""
    it = dice.choice([it for it in table.columns if it.kind.room])
    table.keys.append(Key("KEY", f"k{len(table.keys)}", [part_of(it, dice)]))
    documents = [it for it in table.columns if it.kind.kind == "json"]
    if documents and dice.random() < 0.5:
        table.keys.append(Key("KEY", "members", [Part(documents[0].name, expression=f"(CAST({quoted(documents[0].name)}->'$.a' AS UNSIGNED ARRAY))")]))
    elif dice.random() < 0.3:
        table.keys.append(Key("KEY", "expressed", [Part(it.name, expression=f"(LENGTH({quoted(it.name)}))")]))


def add_refused(table, dice):
    """A key that no bundle can hold."""
    it, turn = dice.choice([it for it in table.columns if it.kind.room and not it.made_as]), dice.random()
    if turn < 0.4:
        table.keys.append(Key("UNIQUE KEY", "refused", [Part(it.name, expression=f"(CONCAT({quoted(it.name)}, 'x'))")]))
    elif turn < 0.6:
        table.columns.append(Column("refused", values.Type("JSON", "json", 0)))
        table.keys.append(Key("UNIQUE KEY", "refused", [Part("refused", expression="(CAST(`refused`->'$.b' AS CHAR(9) ARRAY))")]))
    else:
        column = Column("refused", values.text(dice, dice.choice(values.OTHER)))
        column.kind.words, column.kind.length = column.kind.words.replace("TEXT", "CHAR(20)") if "CHAR" not in column.kind.words.split()[0] else column.kind.words, 20
        table.columns.append(column)
        table.keys.append(Key("UNIQUE KEY", "refused", [Part("refused")]))


def add_partition(table, dice):
    names = table.keys[0].columns()
    first = table.present()[names[0]]
    ways = [f"PARTITION BY KEY ({quoted(first.name)}) PARTITIONS 3"] if not table.keys[0].parts[0].length else []
    if first.kind.kind == "whole":
        ways += [f"PARTITION BY HASH ({quoted(first.name)}) PARTITIONS 4",
                 f"PARTITION BY RANGE ({quoted(first.name)}) (PARTITION p0 VALUES LESS THAN (20), PARTITION p1 VALUES LESS THAN MAXVALUE)"]
    if ways:
        table.partition = [Line(dice.choice(ways), [])]


# ---- tables

def add_options(table, dice):
    plain = [it for it in table.columns if not it.made_as and it.kind.kind == "whole"]
    if plain and dice.random() < 0.2:
        it = dice.choice(plain).name
        table.lines.append(Line(f"CHECK ({quoted(it)} <> 77)", [it]))
    if not table.partition and dice.random() < 0.15:
        table.partition = [Line(f"ROW_FORMAT={dice.choice(['COMPACT', 'REDUNDANT', 'COMPRESSED', 'DYNAMIC'])}", [])]


def add_keys(table, dice, names, chances):
    keyless = dice.random() < chances["keyless"]
    table.made_key = keyless and dice.random() < 0.3
    if not keyless and dice.random() < 0.9:
        add_primary(table, dice, names)
    elif not keyless:
        add_unique(table, dice, names, null=False)
        for it in table.columns:
            it.null = False
    else:
        table.columns += [plain_column(dice, names()) for _ in range(2)]
    if not keyless and dice.random() < 0.12 and len(table.keys) == 1:
        return add_partition(table, dice)
    for _ in range(dice.choice([0, 0, 1, 1, 2, 3]) if not keyless else 0):
        add_unique(table, dice, names)


def random_table(dice, database, name, chances):
    table, taken = Table(database, name), set()
    odd = dice.random() < chances["odd"]

    def names():
        return name_of(dice, taken, odd)

    add_keys(table, dice, names, chances)
    table.columns += [plain_column(dice, names()) for _ in range(dice.choice([0, 1, 2, 3, 5]))]
    if dice.random() < 0.25:
        table.columns.append(generated(table, dice, names()))
    if dice.random() < 0.3 and any(it.kind.room for it in table.columns):
        add_common(table, dice)
    if dice.random() < chances["refused"]:
        add_refused(table, dice)
    add_options(table, dice)
    dice.shuffle(table.columns)
    return in_order(table)


def in_order(table):
    """Generated columns may stand anywhere; at least one column has to be visible."""
    if all(it.invisible for it in table.columns):
        table.columns[0].invisible = False
    return table


# ---- foreign keys and triggers

def add_reference(schema, dice):
    """A child's column that refers to a key of one whole column."""
    parents = [(table, key) for table in schema.tables for key in table.keys if key.unique() and len(key.parts) == 1 and not key.parts[0].length and not key.parts[0].expression
               and not table.partition and not table.present()[key.parts[0].column].made_as]
    children = [it for it in schema.tables if not it.partition]
    if not parents or not children:
        return
    (parent, key), child = dice.choice(parents), dice.choice(children)
    of_parent = parent.present()[key.parts[0].column]
    column = Column(f"up{len(child.columns)}", of_parent.kind)
    child.columns.append(column)
    actions = f" ON DELETE {dice.choice(['CASCADE', 'SET NULL', 'NO ACTION', 'RESTRICT'])} ON UPDATE {dice.choice(['CASCADE', 'NO ACTION', 'SET NULL'])}"
    schema.references.append(Line(f"ALTER TABLE {child.place()} ADD CONSTRAINT f{len(schema.references)} FOREIGN KEY ({quoted(column.name)}) "
                                  f"REFERENCES {parent.place()} ({quoted(of_parent.name)}){actions};", [(child.place(), column.name), (parent.place(), of_parent.name)]))


def add_trigger(schema, dice):
    """A trigger that logs rows: by a counter, which both servers count, or by UUIDs."""
    table = dice.choice(schema.tables)
    log = Table(table.database, "log of it")
    counted = dice.random() < 0.4
    kind = values.Type("BIGINT", "whole", 0, 64) if counted else values.Type("VARCHAR(40) CHARACTER SET ascii COLLATE ascii_bin", "text", 0, 40, collation="ascii_bin")
    first = Column("n", kind, False, counted=counted)
    log.columns = [first, Column("w", values.Type("INT", "whole", 0, 32))]
    log.keys = [Key("PRIMARY KEY", "PRIMARY", [Part("n")])]
    schema.tables.append(log)
    what = dice.choice(["INSERT", "UPDATE", "DELETE"])
    schema.triggers.append(Line(f"CREATE TRIGGER {quoted(table.database)}.logged AFTER {what} ON {table.place()} FOR EACH ROW "
                                f"INSERT INTO {log.place()} ({'w' if counted else 'n, w'}) VALUES ({'1' if counted else 'UUID(), 1'});", [(table.place(), ""), (log.place(), "")]))


def random_schema(dice, chances):
    schema, databases, taken = Schema(), [], set()
    for _ in range(dice.choice([1, 1, 1, 2, 3])):
        databases.append(name_of(dice, taken, dice.random() < chances["odd"], str))
    taken = set()
    for _ in range(dice.choice([1, 1, 2, 2, 3, 4])):
        schema.tables.append(random_table(dice, dice.choice(databases), name_of(dice, taken, dice.random() < chances["odd"], str), chances))
    if dice.random() < chances["references"]:
        for _ in range(dice.choice([1, 2])):
            add_reference(schema, dice)
    if dice.random() < chances["triggers"]:
        add_trigger(schema, dice)
    return schema
