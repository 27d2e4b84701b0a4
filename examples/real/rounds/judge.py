"""What gtidrep says of the binary log files of two servers."""
import os
import subprocess
from dataclasses import dataclass, field

SIDES = {1: "east", 2: "west"}


@dataclass
class Said:
    """What was refused, or the verdicts, each with the rows that are foretold beside it."""
    refused: str = ""
    verdict: str = ""
    ordered: str = ""
    foretold: dict = field(default_factory=dict)


class Program:
    def __init__(self, path, folder):
        self.path, self.folder = path, folder

    def run(self, words, source, target=None):
        """The status, and what was printed (into a file, if there is one)."""
        with open(source, "rb") as given:
            done = subprocess.run([self.path, *words], stdin=given, capture_output=True, check=False)
        if target:
            with open(target, "wb") as it:
                it.write(done.stdout)
        return done.returncode, done.stdout.decode(), done.stderr.decode()

    def place(self, name):
        return os.path.join(self.folder, name)

    def judge(self, head, files, options):
        with open(self.place("head"), "w", encoding="utf-8", errors="surrogateescape") as it:
            it.write(head)
        words = [f"{side}={file}" for side, of_side in files.items() for file in of_side]
        status, _, told = self.run(["import", *options, "--binlogs", *words], self.place("head"), self.place("bundle"))
        if status:
            return Said(refused=f"{told.strip()}" if told.strip() else f"status {status}")
        return self.audited()

    def audited(self):
        """(The order of the logs is asked only where their keys don't say enough.)"""
        said = Said(verdict=self.one_line(["audit"]))
        said.ordered = self.one_line(["audit", "--ordered"]) if not said.verdict.startswith("sound") else ""
        for way, verdict in (((), said.verdict), (("--ordered",), said.ordered)):
            if verdict.startswith("sound") and "rows" not in verdict:
                status, lines, told = self.run(["apply", *way], self.place("bundle"))
                said.foretold[way] = lines.splitlines() if status in (0, 5) else [f"status {status} {told}"]
        return said

    def one_line(self, words):
        status, told, wrong = self.run(words, self.place("bundle"))
        return told.strip() or f"status {status} {wrong.strip()}"
