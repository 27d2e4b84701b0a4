"""The kit's command rt as a module, for the tools beside this file: its crates, its checks, and how it reads an edit."""
import importlib.machinery
import importlib.util
import os
import shutil
import sys

sys.dont_write_bytecode = True
TOP = os.path.dirname(os.path.dirname(os.path.realpath(__file__)))


def loaded(name, file):
    """The Python file as a module of this name."""
    loader = importlib.machinery.SourceFileLoader(name, file)
    made = importlib.util.module_from_spec(importlib.util.spec_from_loader(name, loader))
    sys.modules[name] = made
    loader.exec_module(made)
    return made


def folder():
    """Where rt lies, or None."""
    found = shutil.which("rt") or shutil.which("/opt/rattle/bin/rt")
    return found and os.path.dirname(os.path.realpath(found))


BIN = folder()
if not BIN:
    sys.exit("there is no rt on this machine (README.md names the kit)")
rt = loaded("rt", os.path.join(BIN, "rt"))
rtlib = rt.rtlib
bodies = loaded("rt_plant_bodies", os.path.join(BIN, "rt-plant-bodies"))


def crates():
    """The repository's crates by name, each after those that it depends on."""
    os.chdir(TOP)
    # (its first call sets a signal's handler, which only the main thread may)
    rtlib.guarded()
    found = sorted(rtlib.crates_below(TOP), key=lambda it: len(it.below()))
    return {it.name: it for it in found}


def lanes():
    """How many checks may run side by side: one a processor, and 4.5 GB of free memory for each."""
    return max(1, min(rt.processors(), rt.free() // 4_500_000_000))


def in_order(tasks, lanes, call):
    """Calls call(key) for each key of tasks, lanes at a time, a key once those that it waits for have given 0, and those with the
    longest way behind them first. tasks has for each key what it waits for and its size. Returns what each call gave."""
    from concurrent.futures import FIRST_COMPLETED, ThreadPoolExecutor, wait

    behind = {}

    def weight(key):
        if key not in behind:
            behind[key] = tasks[key][1] + max([weight(it) for it in tasks if key in tasks[it][0]], default=0)
        return behind[key]

    left, running, given = sorted(tasks, key=lambda it: -weight(it)), {}, {}
    with ThreadPoolExecutor(lanes) as pool:
        while True:
            for key in [it for it in left if all(given.get(below, 1) == 0 for below in tasks[it][0])]:
                if len(running) < lanes:
                    left.remove(key)
                    running[pool.submit(call, key)] = key
            if not running:
                return given
            for it in wait(running, return_when=FIRST_COMPLETED).done:
                given[running.pop(it)] = it.result()
