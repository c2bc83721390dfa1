#!/usr/bin/env python3
"""Measures the object calls of `suwhanoki apply` by the number of objects, and against SQLite.

Usage: bench/calls_by_rows.py PROGRAM [RUNS]
PROGRAM is crates/suwhanoki/out/suwhanoki after `rt run` there. Each figure is processor time (user
and system). The inputs are run one after another, and all of them RUNS times (default 5); the least of
its times counts for each, since other work on the machine only adds. A kind of call is measured by an
input of creates and calls of that kind, less the time of the creates alone, so it holds all that a
call costs from its line to its answer's line.
"""
import json
import os
import subprocess
import sys
import tempfile
from itertools import chain, repeat

from sqlite_calls import FIND_KINDS, MANY, WHOLE, create, delete, get, over, update

FEW = 1_000
FINDS = 60
REGISTRY = {"line": "registry", "version": "7.12.0", "types": [{"name": "t", "kind": "single"}]}


def line(said):
    return json.dumps(said, separators=(",", ":")) + "\n"


class Input:
    """An input, how often it is run at a time, and what its runs took."""

    def __init__(self, folder, name, calls, again=1):
        self.path, self.again = os.path.join(folder, name), again
        self.times, self.peak = [], 0
        # Line by line, since a run's peak memory begins with what this program itself has.
        with open(self.path, "w", encoding="utf-8") as out:
            out.write(line(REGISTRY))
            for call in calls:
                out.write(line({"line": "call", "call": call}))

    def run(self, program):
        seconds = 0.0
        for _ in range(self.again):
            took, self.peak = once(program, self.path)
            seconds += took
        self.times.append(seconds / self.again)

    def least(self):
        return min(self.times)


def once(program, path):
    """Seconds of processor time and peak kilobytes of one run."""
    with open(path, "rb") as source, open(os.devnull, "wb") as sink:
        child = subprocess.Popen([program, "apply"], stdin=source, stdout=sink)
        _, status, used = os.wait4(child.pid, 0)
    child.returncode = os.waitstatus_to_exitcode(status)
    if child.returncode != 0:
        sys.exit(f"{program} apply ended with {child.returncode}")
    return used.ru_utime + used.ru_stime, used.ru_maxrss


def inputs(folder):
    """The inputs by their names."""
    made = {
        "none": Input(folder, "none", [], 100),
        "few": Input(folder, "few", over(create, FEW, FEW), 100),
        "many": Input(folder, "many", over(create, MANY, MANY)),
        "whole": Input(folder, "whole", (call for kind in (create, get, update, delete) for call in over(kind, WHOLE, WHOLE))),
    }
    for name, kind in (("get", get), ("update", update), ("delete", delete)):
        # An object is deleted once.
        count, again = (FEW, 100) if kind is delete else (MANY, 1)
        few = chain(over(create, FEW, FEW), over(kind, FEW, count))
        made[f"few {name}"] = Input(folder, f"few_{name}", few, again)
        many = chain(over(create, MANY, MANY), over(kind, MANY, MANY))
        made[f"many {name}"] = Input(folder, f"many_{name}", many)
    for place, (what, more) in enumerate(FIND_KINDS.items()):
        finds = repeat({"do": "find", "types": ["t"], **more}, FINDS)
        made[what] = Input(folder, f"find_{place}", chain(over(create, MANY, MANY), finds))
    return made


def each(made, name, before, count):
    """Microseconds of a call of an input beyond another."""
    return (made[name].least() - made[before].least()) / count * 1e6


def compare(what, few, many):
    print(f"{what}: {few:.2f} us over {FEW:,} objects and {many:.2f} us over {MANY:,}, ratio {many / few:.2f}")


def tell(made, theirs):
    compare("a create", each(made, "few", "none", FEW), each(made, "many", "none", MANY))
    compare("a get", each(made, "few get", "few", MANY), each(made, "many get", "many", MANY))
    compare("an update", each(made, "few update", "few", MANY), each(made, "many update", "many", MANY))
    compare("a delete", each(made, "few delete", "few", FEW), each(made, "many delete", "many", MANY))
    print(f"peak memory: {made['many'].peak * 1024 // MANY} bytes for each of {MANY:,} objects that were created")
    ours, alone, with_lines = made["whole"].least(), theirs["alone"], theirs["with lines"]
    print(
        f"{WHOLE:,} creates, gets, updates and deletes: {ours:.2f} s, {made['whole'].peak // 1024} MB; "
        f"statements of SQLite alone {alone:.2f} s, ratio {ours / alone:.2f}; "
        f"with their lines read and written {with_lines:.2f} s, ratio {ours / with_lines:.2f}"
    )
    for what in FIND_KINDS:
        row, other = each(made, what, "many", FINDS) * 1000 / MANY, theirs[what] * 1e9 / MANY
        print(f"{what} of {MANY:,} objects: {row:.0f} ns a row, SQLite {other:.0f} ns, ratio {row / other:.2f}")


def sqlite():
    """Seconds of SQLite's works, in a program of its own."""
    script = os.path.join(os.path.dirname(os.path.abspath(__file__)), "sqlite_calls.py")
    return json.loads(subprocess.run([sys.executable, script], check=True, stdout=subprocess.PIPE).stdout)


def main():
    program = sys.argv[1]
    runs = int(sys.argv[2]) if len(sys.argv) > 2 else 5
    with tempfile.TemporaryDirectory() as folder:
        made = inputs(folder)
        theirs = {}
        for _ in range(runs):
            for one in made.values():
                one.run(program)
            for what, seconds in sqlite().items():
                theirs[what] = min(seconds, theirs.get(what, seconds))
        tell(made, theirs)


main()
