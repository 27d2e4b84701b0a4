#!/usr/bin/env python3
"""The rows of examples/mysql/collations, and what a bundle makes equal of them beside what the server calls equal.

usage: collations.py rows COLLATION PAIRS SEED      the rows, as lines `<bytes in hexadecimal> TAB <number>`; the same for the same words
       collations.py compare COLLATION FOLDER       holds FOLDER/bundle against FOLDER/groups and FOLDER/pairs, and tells it in a line

The rows are all code points of the collation's character set, each by its own number, and from 2000000 on pairs of strings: numbers 2n and 2n + 1.
"""
import random
import sys
import unicodedata
from itertools import chain

FIRST_PAIR = 2_000_000
# how many code points the character sets have
POINTS = {"utf8mb4": 0x110000, "utf8mb3": 0x10000, "latin1": 0x100, "ascii": 0x80}
SURROGATES = range(0xD800, 0xE000)
# What collations differ in: letters with marks and cases, marks, blanks and what they ignore, digits and marks of punctuation, ligatures and letters that
# some languages sort as one, jamo and syllables, kana, Han, Thai and Tibetan, and what lies above U+FFFF.
POOLS = [
    range(0x20, 0x7F),
    range(0xA0, 0x250),
    range(0x300, 0x370),
    [*range(0x20), 0x20, 0x7F, 0x85, 0xA0, 0xAD, 0x1680, *range(0x2000, 0x2010), 0x2028, 0x202F, 0x205F, 0x3000, 0xFEFF, 0xFFFD],
    [ord(it) for it in "aAàÀeEéÉiIıİoOöøsSßſẞuUnNñzZžcChHlLjJdDþæÆœŒĳǆᵃªº²½Ⅳﬁ"],
    range(0x370, 0x600),
    [*range(0x1100, 0x1200), *range(0xAC00, 0xAC80), *range(0xD780, 0xD7A4)],
    [*range(0x3040, 0x3100), *range(0xFF60, 0xFFA0), 0x30FC, 0x3099, 0x309A],
    [*range(0x4E00, 0x4E40), *range(0x3400, 0x3420), *range(0xF900, 0xF940), *range(0x20000, 0x20020), *range(0x2F800, 0x2F840)],
    [*range(0xE00, 0xF00), *range(0xF40, 0xFBD)],
    [*range(0x1D400, 0x1D4C0), *range(0x1F600, 0x1F640), *range(0x10400, 0x10450), 0xE000, 0xFFFE, 0xFFFF, 0x10FFFF],
    range(0x110000),
]


def charset(collation):
    return collation.partition("_")[0]


def points(collation):
    """The code points of the character set; those of latin1 are its bytes."""
    return [it for it in range(POINTS[charset(collation)]) if charset(collation)[:4] != "utf8" or it not in SURROGATES]


def as_bytes(collation, text):
    return "".join(map(chr, text)).encode("utf-8" if charset(collation)[:4] == "utf8" else "latin-1")


class Strings:
    """Random strings of a character set."""

    def __init__(self, collation, seed):
        self.dice, self.all = random.Random(f"{collation} {seed}"), {*points(collation)}
        self.pools = [it for it in ([it for it in pool if it in self.all] for pool in POOLS) if it]

    def one(self):
        return self.dice.choice(self.dice.choice(self.pools))

    def some(self):
        pools = self.dice.choices(self.pools, k=2)
        return [self.dice.choice(self.dice.choice(pools)) for _ in range(self.dice.randint(0, 8))]

    def like(self, point):
        """A code point that is one's other case or other form, or stands near it."""
        text = chr(point)
        forms = [text.upper(), text.lower(), *(unicodedata.normalize(it, text) for it in ("NFD", "NFKD", "NFKC")), chr((point ^ 1) % 0x110000), chr(point | 0x20)]
        found = [ord(it) for it in self.dice.choice(forms)]
        return found if all(it in self.all for it in found) else [point]

    def near(self, text):
        """A string that differs little or not at all."""
        found = [*text]
        for _ in range(self.dice.choice([0, 1, 1, 2])):
            at = self.dice.randint(0, len(found))
            step = self.dice.randint(0, 6)
            if step < 3 and found:
                found[at - 1 : at] = self.like(found[at - 1]) if at else []
            elif step == 3:
                found.insert(at, self.dice.choice(self.pools[min(3, len(self.pools) - 1)]))
            elif step == 4:
                found.append(self.dice.choice([0x20, self.one()]))
            elif step == 5:
                del found[at : at + 1]
            else:
                found[at:at] = found[at : at + 1]
        return found[:20]

    def pair(self):
        first = self.some()
        second = self.near(first)
        return (first, second) if self.dice.random() < 0.5 else (second, first)


def rows(collation, pairs, seed):
    for it in points(collation):
        print(f"{as_bytes(collation, [it]).hex()}\t{it}")
    strings = Strings(collation, seed)
    for number, text in enumerate(chain.from_iterable(strings.pair() for _ in range(pairs)), FIRST_PAIR):
        print(f"{as_bytes(collation, text).hex()}\t{number}")


def hidden_values(file):
    """The hidden value of each row of a bundle, by the row's number."""
    with open(file, encoding="ascii") as it:
        words = (line.split() for line in it if line.startswith("ins c.t "))
        return {int(number): weights for _, _, _, number, weights in words}


def compare(collation, folder):
    hidden, groups = hidden_values(f"{folder}/bundle"), {}
    with open(f"{folder}/groups", encoding="ascii") as it:
        of_server = [tuple(map(int, line.split(","))) for line in it]
    with open(f"{folder}/pairs", encoding="ascii") as it:
        equal = {int(line) for line in it}
    for number in sorted(hidden):
        groups.setdefault(hidden[number], []).append(number)
    ours = {tuple(it) for it in groups.values()}
    pairs = [it for it in hidden if it >= FIRST_PAIR and it % 2 == 0]
    faults = [f"rows {it[:3]} are a group to the server" for it in of_server if it not in ours]
    faults += [f"the pair {it} is {'' if it in equal else 'not '}equal to the server" for it in pairs if (hidden[it] == hidden[it + 1]) != (it in equal)]
    faults += [f"the row {it} isn't in the bundle" for it in points(collation) if it not in hidden]
    for it in faults[:5]:
        print(f"WRONG: {collation}: {it}")
    count = len(hidden) - 2 * len(pairs)
    told = "the bundle and the server agree" if not faults else f"{len(faults)} differences"
    print(f"{collation}: {count} code points, {len(pairs)} pairs, of which {len(equal)} are equal, {len(of_server)} groups: {told}")
    return 1 if faults or not pairs or sum(map(len, of_server)) != len(hidden) else 0


if __name__ == "__main__":
    if sys.argv[1] == "rows":
        rows(sys.argv[2], int(sys.argv[3]), int(sys.argv[4]))
    else:
        sys.exit(compare(sys.argv[2], sys.argv[3]))
