"""Random runs of both programs, by kind, with what the references answer. Written independently, from docs/: what `tools/compare`
compares.

A case is what one turn of chance gives: a script, or an input with a few runs of it. Scripts are run together, each begun afresh by a line
`---`, up to one that isn't whole.
"""
from __future__ import annotations

from collections import Counter
from collections.abc import Callable, Iterable, Iterator
from dataclasses import dataclass
from random import Random

from . import commands, random_scripts, scripts
from .formats import VERSIONS, Bundle, Journal, bundle_lines, journal_lines, read_bundle
from .gtids import GtidSet
from .histories import objection
from .ordered import Failovers, OrderedAudit, is_borne_out
from .logs import imported
from .random_bundles import SOURCES, BundleMaker
from .random_logs import logs_text, options
from .random_scripts import Made
from .random_texts import SetWriter, TextBreaker
from .random_version3 import Widener

MOST_TOGETHER = 50
MOST_LINES_AGAIN = 20_000
SET_FUNCTIONS = ["union", "intersect", "subtract", "symmetric", "subset", "equal", "disjoint", "only", "without", "normalize", "count"]


@dataclass(frozen=True)
class Ended:
    """What a run printed, its exit status, and its message on standard error (None where that isn't fixed)."""

    output: str
    status: int
    said: str | None


@dataclass(frozen=True)
class Run:
    """A program's name, its words, and its input. Characters are bytes."""

    program: str
    words: tuple[str, ...]
    given: str

    def wanted(self) -> Ended:
        """What the reference does."""
        if self.program == "replica_script":
            return Ended(*scripts.run(self.given))
        output, status = commands.answer(self.words, lambda: self.given)
        return Ended(output, status, "" if status in (0, 1, 5) else None)

    def objection(self, _ended: Ended, _play: Callable[[str], str]) -> str | None:
        """What is wrong with what a program did beside that, or None. `replica_script` answers a script."""
        return None


@dataclass(frozen=True)
class OrderedRun(Run):
    """A run of `audit --ordered` on a bundle whose text is whole, where the reference tries all orders of a few transactions."""

    def wanted(self) -> Ended:
        """What the reference does; where its definitions and all orders disagree, that they do."""
        ended = super().wanted()
        if ended.output.startswith("refused"):
            return ended
        if is_borne_out(OrderedAudit(read_bundle(self.given, VERSIONS)), ended.output.removesuffix("\n")):
            return ended
        return Ended(f"by all orders otherwise than {ended.output}", ended.status, ended.said)


@dataclass(frozen=True)
class HistoryRun(Run):
    """A run of `apply --by replica --history` on a bundle whose text is whole."""

    def wanted(self) -> Ended:
        """What the reference does; the history isn't fixed."""
        ended = Run(self.program, tuple(it for it in self.words if it not in ("--by", "replica", "--history")), self.given).wanted()
        return Ended(ended.output, ended.status, None)

    def objection(self, ended: Ended, play: Callable[[str], str]) -> str | None:
        """What is wrong with the history: none where the keys aren't sound."""
        if ended.output.startswith(("executed ", "does-not-apply ")):
            return objection(read_bundle(self.given, VERSIONS), ended.output, ended.said or "", int(self.words[-1]), play)
        return f"a history of {ended.output!r}" if ended.said else None


@dataclass(frozen=True)
class ImportRun(Run):
    """A run of `import`, which tells on standard error what it refuses or assumes."""

    def wanted(self) -> Ended:
        """What the reference does."""
        return Ended(*imported(self.given, list(self.words[1:])))


@dataclass
class Case:
    """The number of a case, its runs, and its script if it is one."""

    number: int
    runs: list[Run]
    script: Made | None = None

    def replies(self) -> Counter[str]:
        """How often the reference gives each answer."""
        return self.script.replies if self.script else Counter(map(reply_of, self.runs))


@dataclass
class Batch:
    """Cases, and the runs by which all of them are run together."""

    cases: list[Case]
    runs: list[Run]


def text_of(lines: Iterable[str]) -> str:
    """The text of some lines."""
    return "".join(f"{line}\n" for line in lines)


def gtidrep(given: str, *commands_of: str) -> list[Run]:
    """Runs of gtidrep with one input, for each of these command lines."""
    return [Run("gtidrep", tuple(line.split(" ")), given) for line in commands_of]


def apply_words(chance: Random) -> str:
    """The command `apply` with some number of workers."""
    return f"apply --workers {chance.choice([1, 2, 2, 3, 64])}"


def version2(chance: Random) -> list[Run]:
    """A bundle of version 2, audited and applied."""
    text = text_of(bundle_lines(BundleMaker(chance).bundle(True), 2))
    return gtidrep(text, "audit", "apply", apply_words(chance))


def version3(chance: Random) -> list[Run]:
    """A bundle of version 3, audited in all ways, applied in both and upgraded; now and then with a fault. Now and then one of version 2 is
    upgraded too, and what comes of that audited."""
    maker = BundleMaker(chance)
    narrow = Failovers(chance).bundle() if maker.is_one_in(3) else maker.bundle(True)
    wide = Widener(chance).bundle(narrow)
    text = text_of(bundle_lines(wide, 3))
    is_broken = maker.is_one_in(3)
    if is_broken:
        text = TextBreaker(chance).texts(text)
    ways = ["audit", "audit --all", apply_words(chance), f"apply --by replica --workers {chance.choice([1, 2])}"]
    runs = gtidrep(text, *ways, f"apply --ordered --workers {chance.choice([1, 2])}", upgrade_words(chance))
    runs.append(OrderedRun("gtidrep", ("audit", "--ordered"), text))
    if "rows" in wide.assumptions and not is_broken:
        runs.append(HistoryRun("gtidrep", ("apply", "--by", "replica", "--history", "--workers", "2"), text))
    return runs + upgrade_runs(chance, narrow) if maker.is_one_in(3) else runs


def upgrade_words(chance: Random) -> str:
    """The command `upgrade` to some version."""
    return chance.choice(["upgrade", "upgrade --to 2", "upgrade --to 3"])


def upgrade_runs(chance: Random, bundle: Bundle) -> list[Run]:
    """A bundle of version 2, perhaps with a fault, upgraded to both versions, and the upgraded one audited and upgraded again."""
    text, upgraded = (text_of(bundle_lines(bundle, version)) for version in (2, 3))
    if chance.randrange(4) == 0:
        text = TextBreaker(chance).texts(text)
    return gtidrep(text, "upgrade --to 2", "upgrade --to 3") + gtidrep(upgraded, "audit --all", apply_words(chance), "upgrade --to 3")


def upgrade(chance: Random) -> list[Run]:
    """A bundle of version 1, audited, applied and upgraded, and the upgraded one applied."""
    bundle = BundleMaker(chance).bundle(False)
    text, upgraded = (text_of(bundle_lines(bundle, version)) for version in (1, 2))
    return gtidrep(text, "audit", apply_words(chance), "upgrade", "upgrade --to 3") + gtidrep(upgraded, "apply", "upgrade", "upgrade --to 3")


def ordered(chance: Random) -> list[Run]:
    """A bundle of servers that write the same rows, or of any kind, audited and applied in one order."""
    maker, version = BundleMaker(chance), chance.choice([1, 2])
    bundle = maker.bundle(version == 2) if maker.is_one_in(6) else Failovers(chance).bundle()
    text = text_of(bundle_lines(bundle, 2 if bundle.opening else version))
    runs: list[Run] = [OrderedRun("gtidrep", ("audit", "--ordered"), text)]
    if maker.is_one_in(4) or OrderedAudit(bundle).verdict() == "sound":
        runs += gtidrep(text, f"apply --ordered --workers {chance.choice([1, 1, 2, 4])}")
    return runs


def histories(chance: Random) -> list[Run]:
    """A bundle, mostly one that can be merged, applied by workers that share a replica, who tell what they did."""
    maker, version = BundleMaker(chance), chance.choice([1, 2])
    is_ordered = maker.is_one_in(3)
    bundle = Failovers(chance).bundle() if is_ordered else maker.bundle(version == 2)
    text = text_of(bundle_lines(bundle, 2 if bundle.opening else version))
    words = ("apply", "--by", "replica", "--history", *(["--ordered"] if is_ordered else []), "--workers")
    return [HistoryRun("gtidrep", (*words, str(workers)), text) for workers in (1, chance.choice([2, 3, 4]), chance.choice([8, 64]))]


def faults(chance: Random) -> list[Run]:
    """A bundle with some faults, all of which are listed."""
    maker, version = BundleMaker(chance), chance.choice([1, 2])
    bundle = maker.bundle(version == 2)
    if maker.is_one_in(2):
        maker.spoil_sources(bundle)
    for _ in range(maker.few(4)):
        maker.spoil(bundle)
    return gtidrep(text_of(bundle_lines(bundle, version)), "audit --all")


def imports(chance: Random) -> list[Run]:
    """A bundle of logs, perhaps damaged, with some of the options."""
    text = logs_text(chance)
    return [ImportRun("gtidrep", ("import", *options(chance)), text)]


def restamped(chance: Random, text: str) -> str:
    """The text with other numbers in an entry's line, where there is one."""
    lines = text.split("\n")
    places = [at for at, line in enumerate(lines) if line.startswith("txn ")]
    if places:
        at = chance.choice(places)
        words = lines[at].split(" ")
        number = int(words[-1])
        which = chance.choice([2, 2, 2, 3])
        near = [0, 1, 2, number - 1, number, number + 1, chance.randint(0, number), chance.randint(0, number)]
        words[which] = str(chance.choice([*near, chance.choice([2**64, 2**64 + number, 10**30])]))
        lines[at] = " ".join(words)
    return "\n".join(lines)


def stamps(chance: Random) -> list[Run]:
    """A bundle or a journal of version 2 with other numbers in one or two lines of entries."""
    maker = BundleMaker(chance)
    bundle = maker.bundle(True)
    is_journal = bool(bundle.channels) and maker.is_one_in(4)
    text = text_of(journal_lines(bundle.channels[0].journal, bundle.schema) if is_journal else bundle_lines(bundle, 2))
    for _ in range(chance.choice([1, 1, 2])):
        text = restamped(chance, text)
    if maker.is_one_in(5):
        text = TextBreaker(chance).texts(text)
    return [position_run(text, SOURCES[0], "")] if is_journal else gtidrep(text, "audit", apply_words(chance))


def position_run(text: str, own: str, ask: str) -> Run:
    """A run of `position`."""
    return Run("gtidrep", ("position", "--own", as_word(own), "--ask", as_word(ask)), text)


def as_word(text: str) -> str:
    """The text as a word of a command line that is no option: a blank is put before a hyphen, but for a hyphen alone."""
    return f" {text}" if text.startswith("-") and text != "-" else text


def random_journal(maker: BundleMaker) -> str:
    """The text of a journal of either version."""
    if maker.is_one_in(2):
        schema = maker.tables()
        journal = maker.wild_journal(list(schema.values()))
    else:
        bundle = maker.tidy_bundle(maker.is_one_in(2))
        schema, journal = bundle.schema, maker.chance.choice(bundle.channels).journal
    return text_of(journal_lines(journal, maker.chance.choice([None, schema])))


def ask_near(maker: BundleMaker, journal: Journal) -> GtidSet:
    """A set with which a replica may ask the source of this journal."""
    had = journal.previous if not maker.is_one_in(4) else GtidSet()
    had = had | GtidSet.of(entry.gtid for entry in journal.entries[: maker.few(len(journal.entries))])
    had = had | GtidSet.of(maker.subset((entry.gtid for entry in journal.entries), 30))
    return had | maker.wild_set() if maker.is_one_in(3) else had


def positions(chance: Random) -> list[Run]:
    """A journal, and replicas that ask its source."""
    maker, writer = BundleMaker(chance), SetWriter(chance)
    schema = maker.tables()
    journal = maker.wild_journal(list(schema.values()))
    text = text_of(journal_lines(journal, chance.choice([None, schema])))
    if maker.is_one_in(15):
        text = TextBreaker(chance).texts(text)
    sources = sorted({entry.gtid.source for entry in journal.entries}) or SOURCES
    runs = []
    for _ in range(3):
        own, ask = chance.choice([*sources, chance.choice(SOURCES)]), str(ask_near(maker, journal))
        if maker.is_one_in(6):
            ask = writer.set_text()
        if maker.is_one_in(10):
            own, ask = chance.choice([(writer.broken(own), ask), (own, writer.broken(ask)), (writer.source_text(), ask)])
        runs.append(position_run(text, own, ask))
    return runs


def texts(chance: Random) -> list[Run]:
    """A bundle or a journal with a fault or a few."""
    maker, breaker = BundleMaker(chance), TextBreaker(chance)
    if maker.is_one_in(3):
        return [position_run(breaker.texts(random_journal(maker)), chance.choice(SOURCES), "")]
    version = chance.choice([1, 2])
    text = breaker.texts(text_of(bundle_lines(maker.bundle(version == 2), version)))
    return gtidrep(text, "audit", apply_words(chance), "upgrade")


def sets(chance: Random) -> list[Run]:
    """A set function of two texts, which may be broken, of too few words or of an unknown name."""
    writer = SetWriter(chance)
    name = chance.choice(SET_FUNCTIONS)
    count = 1 if name in ("normalize", "count") else 2
    words = [writer.set_text() for _ in range(count)]
    if name in ("only", "without"):
        words[1] = writer.source_text()
    if chance.randrange(4) == 0:
        at = chance.randrange(count)
        words[at] = writer.broken(words[at])
    if chance.randrange(20) == 0:
        words = [writer.set_text() for _ in range(chance.randrange(4))]
    if chance.randrange(30) == 0:
        name = chance.choice(["", "Union", "unions", "minus", "sets", " count"])
    return [Run("gtidrep", ("set", name, *map(as_word, words)), "")]


def server_line(chance: Random, at: int) -> str:
    """A line of a server: its name, its UUID and its set."""
    writer = SetWriter(chance)
    executed = writer.set_text().replace("\n", "\t").replace("\r", "\t")
    return f"{chance.choice(['east', 'db-2:3306', 's'])}{at} {writer.source()} {chance.choice([executed, executed, executed, '-'])}"


def states(chance: Random) -> list[Run]:
    """Up to six servers, of which a line may be broken, with either end of lines."""
    lines = [server_line(chance, at) for at in range(chance.randrange(7))]
    if lines and chance.randrange(5) == 0:
        at = chance.randrange(len(lines))
        lines[at] = chance.choice([TextBreaker(chance).line(lines[at]), "", lines[at].replace(" ", "", 1)])
    end = chance.choice(["\n", "\n", "\r\n"])
    text = "".join(f"{line}{end}" for line in lines)
    return [Run("gtidrep", ("states",), text.removesuffix(end) if chance.randrange(5) == 0 else text)]


COMMAND_KINDS: dict[str, Callable[[Random], list[Run]]] = {
    "version2": version2,
    "version3": version3,
    "stamps": stamps,
    "positions": positions,
    "texts": texts,
    "upgrade": upgrade,
    "sets": sets,
    "states": states,
    "ordered": ordered,
    "faults": faults,
    "imports": imports,
    "histories": histories,
}
SCRIPT_KINDS: dict[str, Callable[[Random], Made]] = {"scripts": random_scripts.one_replica, "networks": random_scripts.network}
KINDS = [*SCRIPT_KINDS, *COMMAND_KINDS]


def reply_of(run: Run) -> str:
    """The kind of the reference's answer to a run of gtidrep."""
    ended = run.wanted()
    line = (ended.output or ended.said or "").split("\n")[0]
    first, *more = line.split(" ")
    if first == "refused":
        if more[0] == "import":
            return f"import: refused {more[3] if more[1] == 'line' else more[1]}"
        first = " ".join([first, more[0], *more[-1:]]) if more[0] == "E14" else f"{first} {more[0]}"
    elif line.startswith("sound if "):
        assumed = [it.split(" ")[0] for it in line.removeprefix("sound if ").split(", ")]
        first = f"sound if {', '.join(dict.fromkeys(assumed))}"
    elif run.words[0] == "set":
        first = "a line" if line else "the empty line"
    return f"{run.words[0]}: {first}"


def script_batch(made: list[tuple[int, Made]]) -> Batch:
    """Scripts that are run together, as they are and with `--again`."""
    cases = [Case(number, script_runs(script.lines), script) for number, script in made]
    lines = made[0][1].lines[:]
    for _, script in made[1:]:
        lines += ["---", *script.lines]
    return Batch(cases, script_runs(lines))


def script_runs(lines: list[str]) -> list[Run]:
    """The runs of a script."""
    ways: list[tuple[str, ...]] = [(), ("--again",)] if len(lines) < MOST_LINES_AGAIN else [()]
    return [Run("replica_script", words, text_of(lines)) for words in ways]


def script_batches(make: Callable[[Random], Made], chances: Iterable[tuple[int, Random]]) -> Iterator[Batch]:
    """The scripts of these turns of chance, in batches."""
    waiting: list[tuple[int, Made]] = []
    for number, chance in chances:
        made = make(chance)
        waiting.append((number, made))
        if not made.is_whole or len(waiting) == MOST_TOGETHER:
            yield script_batch(waiting)
            waiting = []
    if waiting:
        yield script_batch(waiting)


def batches(kind: str, seed: int, numbers: Iterable[int]) -> Iterator[Batch]:
    """The cases of these numbers, in batches."""
    chances = ((number, Random(f"{kind} {seed} {number}")) for number in numbers)
    if kind in SCRIPT_KINDS:
        yield from script_batches(SCRIPT_KINDS[kind], chances)
        return
    for number, chance in chances:
        runs = COMMAND_KINDS[kind](chance)
        yield Batch([Case(number, runs)], runs)
