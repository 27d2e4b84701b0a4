"""Runs of the built programs under a preloaded library that lets one call fail, for the sweeps beside this file."""
import os
import resource
import subprocess
import sys

sys.dont_write_bytecode = True
resource.setrlimit(resource.RLIMIT_CORE, (0, 0))
HERE = os.path.dirname(os.path.abspath(__file__))
TOP = os.path.dirname(HERE)

RING = "tests/cases/relayed.bundle"
FIRST = "examples/first.bundle"
THREE = "sweep/three.bundle"
STOPPED = "sweep/stopped.bundle"  # the second transaction of its first channel is refused, and that channel is stopped
VERDICT = "sweep/stopped.answer"
PURGED = "sweep/purged.journal"
A = "aaaaaaaa-aaaa-aaaa-aaaa-aaaaaaaaaaaa"
REPLICAS = "sweep/three.script"
ANSWERS = "sweep/three.answers"
NETWORK = "examples/ring.script"
HEAD = "examples/binlogs/head"
FILES = ["east=east.000001", "east=east.000002", "east=east.000003", "west=west.000002"]
BINLOGS = ["import", "--binlogs", *[it.replace("=", f"={TOP}/examples/binlogs/") for it in FILES]]


def library(folder, name):
    """The library of a C file beside this one, compiled into the folder."""
    made = os.path.join(folder, f"{name}.so")
    compiler = os.environ.get("CC", "cc")
    subprocess.run([compiler, "-O2", "-shared", "-fPIC", "-o", made, os.path.join(HERE, f"{name}.c"), "-ldl"], check=True)
    return made


def run(words, given, more=None, mark=""):
    """Status, output, and what the library reports: none where the call that was to fail never came, else how many calls of its kind came later."""
    with open(os.path.join(TOP, given) if given else os.devnull, "rb") as it:
        how = {"stdin": it, "stdout": subprocess.PIPE, "stderr": subprocess.DEVNULL, "timeout": 60, "check": False}
        ran = subprocess.run(words, env={**os.environ, **(more or {})}, **how)
    later = os.path.getsize(mark) if mark and os.path.exists(mark) else None
    if later is not None:
        os.remove(mark)
    return ran.returncode, ran.stdout, later


def built(name):
    """The program of that name as it was built, by one compiler or by both. A crate of tests is `NAME_tests`, and one compiler builds it."""
    crate = name.removesuffix("_tests")
    found = [os.path.join(TOP, "crates", crate, "out", name + end) for end in ("", ".by-rattle")]
    return [it for it in found if os.path.isfile(it)]


def missing(names):
    """Says which programs are not built, and returns how many."""
    lost = [it for it in sorted({*names}) if not built(it)]
    for it in lost:
        print(f"{it} is not built")
    return len(lost)
