"""Makes a round smaller that shows something: leaves out transactions, statements, rows, tables, keys and columns as long as it still shows the same."""
import time


def pieces(it):
    """What can be left out, in groups: the large ones first."""
    tables = it.schema.tables
    yield it.transactions()
    yield [each for each in it.schema.triggers + it.schema.references]
    yield tables
    yield it.statements()
    yield [row for each in it.statements() for row in each.rows]
    yield [key for table in tables for key in table.keys if key.words != "PRIMARY KEY"] + [line for table in tables for line in table.lines + table.partition]
    yield [column for table in tables for column in table.columns]


def leave_out(group, shows, end):
    """Leaves out as many of a group as can be, halves first."""
    size = max(len(group) // 2, 1)
    while group and time.monotonic() < end:
        at = 0
        while at < len(group) and time.monotonic() < end:
            part = group[at:at + size]
            if without(part, shows):
                group = group[:at] + group[at + size:]
            else:
                at += size
        if size == 1:
            return
        size //= 2


def without(part, shows):
    for it in part:
        it.gone = True
    if shows():
        return True
    for it in part:
        it.gone = False
    return False


def simpler(it, shows):
    """Plain settings, one by one."""
    for settings, plain in ((it.settings, {"logged": False, "third first": True, "metadata": "FULL", "checksum": "CRC32", "workers": {1: 1, 2: 1, 3: 1},
                                           "preserve": {1: True, 2: True, 3: True}}), *((side, {name: "DEFAULT" for name in side}) for side in it.session.values())):
        for name, value in plain.items():
            kept, settings[name] = settings[name], value
            if not shows():
                settings[name] = kept


def smaller(it, shows, seconds=120):
    """`shows` says whether a round still shows what it did."""
    end = time.monotonic() + seconds
    for turn in range(2):
        for group in pieces(it):
            leave_out([each for each in group if not each.gone], shows, end)
        if turn == 0:
            simpler(it, shows)
    return it
