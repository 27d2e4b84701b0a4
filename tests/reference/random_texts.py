"""Random texts: sets as people write them, and texts with a fault. Written independently, from docs/FORMATS.md: the texts that the
programs are compared on.

A broken text is a good one in which a byte, a word or a line is changed, dropped, doubled or moved. Its characters are bytes.
"""
from __future__ import annotations

from random import Random

from .gtids import GREATEST, MOST_SOURCES
from .random_bundles import SOURCES

A, B, C = SOURCES[:3]
ODD_WORDS = [
    *("", "-", "null", "0", "00", "01", "1", "-0", "+1", "-1", "9223372036854775807", "9223372036854775808", "-9223372036854775809"),
    *("x", "x6", "x6A", "x61", "xx", "|", "pk", "uk", "0,0", "0,1", "1,0", "64", "65", "9" * 23, "preserve", "1x", "A", "1 ", " 1"),
    *("t", "u", "_", "9t", "T", "a" * 64, "a" * 65, "x" + "61" * 23, "journal", "bundle", "txn", "end", "close", "done", "previous"),
    *(A, B.upper(), f"{A}:1", f"{A}:0", f"{A}:01", f"{A}:1-3:5", f"{A}:3-1", f"{B}:1,{A}:1", f"{A}:1-2:3", f"{C}:{GREATEST + 1}"),
    *("\t", "1\r", f"{A}:1,", f"{A}:1-", f"{A}:1:1", f"{A}:1-1", f"{A}:1,{B}:1", f"{A}:1, {B}:1"),
]
REFERRED = ["cascade", "restrict", "0", "1", "2", "3", "4", "0,1", "1,0", "0,0"]
ASSUMED = [
    *("references", "executed x", "checksums y", "checksums shop.orders", "ignored t", "ignored shop", "ignored shop.orders", "ignored a", "references x"),
    *("executed", "ignored a b", "rows", "rows x", "nothing", f"opening x {A}:1", f"statements x {A}:1", "", "references ", "ignored %41"),
]
ODD_BYTES = "-:, |0129abgxAZ_\t\r\x00\x7f\x80\xff\xc3\xa9"
BLANKS = ["", "", "", "", " ", " ", "\t", "\n", "\r\n", "  "]
SET_BYTES = "-:, 0129afgAF\t\nx|_"


class TextBreaker:
    """Makes faults of one source of chance."""

    def __init__(self, chance: Random) -> None:
        self.chance = chance

    def parts(self, items: list[str], others: list[str]) -> list[str]:
        """These items with one changed, dropped, doubled or put before another one, or with one of the others beside it."""
        if not items:
            return [self.chance.choice(others)]
        made, at = list(items), self.chance.randrange(len(items))
        match self.chance.randrange(5):
            case 0:
                made[at] = self.chance.choice(others)
            case 1:
                del made[at]
            case 2:
                made.insert(at, made[at])
            case 3:
                moved = made.pop(at)
                made.insert(self.chance.randint(0, len(made)), moved)
            case 4:
                made.insert(at, self.chance.choice(others))
        return made

    def line(self, line: str, odd_bytes: str = ODD_BYTES) -> str:
        """A line with another word or another byte."""
        if self.chance.randrange(2):
            return "".join(self.parts(list(line), list(odd_bytes)))
        return " ".join(self.parts(line.split(" "), ODD_WORDS))

    def text(self, text: str) -> str:
        """A text with another byte, another word or another line."""
        lines = text.split("\n")
        at = self.chance.randrange(len(lines))
        match self.chance.randrange(16):
            case 0:
                return text[: self.chance.randint(0, len(text))]
            case 1 | 2:
                return "\n".join(self.parts(lines, lines))
            case 3:
                return "".join(self.parts(list(text), [*ODD_BYTES, "\n"]))
            case 4:
                return "\n".join(self.entry_again(lines))
            case 5 | 6 | 7:
                lines[at] = self.line(lines[at])
            case _:
                lines[at] = self.wrong_line(lines[at], lines)
        return "\n".join(lines)

    def entry_again(self, lines: list[str]) -> list[str]:
        """The lines with those of an entry once more, before another entry or an end."""
        begins = [at for at, line in enumerate(lines) if line.startswith("txn ")]
        places = [at for at, line in enumerate(lines) if line.startswith(("txn ", "close"))]
        if not begins:
            return lines
        begin, place = self.chance.choice(begins), self.chance.choice(places)
        entry = lines[begin : lines.index("end", begin) + 1] if "end" in lines[begin:] else lines[begin:]
        return [*lines[:place], *entry, *lines[place:]]

    def wrong_line(self, line: str, lines: list[str]) -> str:
        """A line of the same first word that most likely isn't allowed there."""
        word, *words = line.split(" ")
        others = [it.split(" ")[1:] for it in lines if it.startswith(f"{word} ")]
        other = self.chance.choice(others) if others else []
        match word:
            case "journal" | "bundle":
                words = [self.chance.choice(["1", "2", "3", "0", "7", "9" * 25, "-1", "1 ", "01"])]
            case "table":
                words = self.wrong_table(words, other)
            case "row" | "ins" | "upd" | "del":
                words = self.wrong_image(words, other)
            case "txn":
                words = [*other[:1], *words[1:]] if self.chance.randrange(2) else self.parts(words, ODD_WORDS)
            case "previous" | "opening":
                words = [self.wrong_set(lines)]
            case "fk":
                words = self.parts(words, [*words, *other, *REFERRED])
            case "assume":
                words = [self.chance.choice(ASSUMED)] if self.chance.randrange(2) else self.parts(words, [*words, *other])
            case "done" if self.chance.randrange(2):
                return f"assume {self.chance.choice(ASSUMED)}\n{line}"
            case "channel" | "replica":
                words = self.chance.choice([other, [*words, "preserve"], self.parts(words, ODD_WORDS)])
            case _:
                return self.line(line)
        return " ".join([word, *words])

    def wrong_table(self, words: list[str], other: list[str]) -> list[str]:
        """The words of a table that most likely can't be declared."""
        match self.chance.randrange(6):
            case 0:
                return [*words[:1], self.chance.choice(["0", "1", "2", "64", "65", "9" * 25]), *words[2:]]
            case 1:
                return words + ["uk", "0"] * self.chance.choice([1, 7, 8, 9])
            case 2:
                return [*words[:3], self.chance.choice(["63", "64", "65", "9" * 25, "0,0", "1,0", f"{'9' * 25},{'9' * 25}"]), *words[4:]]
            case 3:
                return [*other[:1], *words[1:]]
            case 4:
                return [*words, "pk", "0"]
        return self.parts(words, ODD_WORDS)

    def wrong_image(self, words: list[str], other: list[str]) -> list[str]:
        """The words of a row or a change that most likely doesn't fit."""
        match self.chance.randrange(8):
            case 0:
                return words[:-1]
            case 1:
                return [*words, self.chance.choice(["1", "null", "x"])]
            case 2:
                return words + ["0"] * self.chance.choice([60, 61, 62, 63, 64, 65])
            case 3:
                return [*words[:-1], "x" + "61" * self.chance.choice([22, 23, 65_535, 65_536])]
            case 4:
                return [*words[:1], "null", *words[2:]]
            case 5:
                return [*other[:1], *words[1:]]
            case 6:
                return [*words, "|", *words[1:]]
        return self.parts(words, ODD_WORDS)

    def wrong_set(self, lines: list[str]) -> str:
        """The text of a set that has a GTID of the journal, or too many sources."""
        gtids = sorted(line.split(" ")[1] for line in lines if line.startswith("txn ") and len(line.split(" ")) > 1)
        if self.chance.randrange(15) == 0:
            count = MOST_SOURCES + self.chance.randint(-1, 1)
            return ",".join(f"00000000-0000-0000-0000-{number:012x}:1" for number in range(count))
        return self.chance.choice([*gtids, ",".join(gtids[:2]), self.chance.choice(ODD_WORDS)])

    def texts(self, text: str) -> str:
        """A text with a few such faults, most often one."""
        for _ in range(self.chance.choice([1, 1, 1, 2, 3])):
            text = self.text(text)
        return text


class SetWriter:
    """Writes sets of one source of chance as people write them."""

    def __init__(self, chance: Random) -> None:
        self.chance = chance

    def blank(self) -> str:
        """Blanks, or none."""
        return self.chance.choice(BLANKS)

    def number(self) -> int:
        """A number of a transaction."""
        return GREATEST - self.chance.randrange(4) if self.chance.randrange(15) == 0 else self.chance.randint(1, 12)

    def digits(self, number: int) -> str:
        """A number, which may have leading zeros."""
        return "0" * self.chance.choice([0, 0, 0, 0, 0, 1, 2]) + str(number)

    def source(self) -> str:
        """A UUID in either case."""
        found = self.chance.choice(SOURCES)
        return found if self.chance.randrange(4) else self.chance.choice([found.upper(), found.title()])

    def interval(self) -> str:
        """An interval with the colon before it."""
        low = self.number()
        begin = f":{self.blank()}{self.digits(low)}{self.blank()}"
        if self.chance.randrange(2):
            return begin
        high = min(low + self.chance.choice([0, 1, 1, 2, 5]), GREATEST)
        return f"{begin}-{self.blank()}{self.digits(high)}{self.blank()}"

    def element(self) -> str:
        """An element, which may be empty."""
        if self.chance.randrange(12) == 0:
            return self.blank()
        intervals = (self.interval() for _ in range(self.chance.choice([1, 1, 2, 3, 4])))
        return self.blank() + self.source() + self.blank() + "".join(intervals)

    def set_text(self) -> str:
        """The text of a set."""
        return ",".join(self.element() for _ in range(self.chance.choice([0, 1, 1, 2, 2, 3, 5])))

    def source_text(self) -> str:
        """The text of a source."""
        return self.blank() + self.source() + self.blank()

    def broken(self, text: str) -> str:
        """A text of a set or a source with another byte."""
        return "".join(TextBreaker(self.chance).parts(list(text), list(SET_BYTES)))
