#!/usr/bin/env python3
"""Makes attempts with the smallest simulation by the program and in C, in turn, and prints the ratio of their times, and that
of C to itself; with --calls it compares how often they call the system in an attempt.

    attempts.py RUNS SCRATCH PROGRAM ATTEMPTS CHILD
    attempts.py --calls SCRATCH PROGRAM ATTEMPTS CHILD
"""
import collections
import os
import re
import shutil
import subprocess
import sys

from journal import kind_of
from texts import SMALL, in_turn, study_of, tell, written

# The attempts of a run that is timed, and of two that are traced, the second of which has ten more.
COUNT, FEW, MORE = 200, 5, 15

# A call that begins in a trace: the process and its name.
CALL = re.compile(r"(\d+) +(\w+)\(")


def lay(scratch, commands, child, study):
    """Makes a folder for each command, with the study and the simulation."""
    folders = {name: os.path.join(scratch, f"of-{name}") for name in commands}
    for folder in folders.values():
        os.makedirs(folder)
        shutil.copy(child, os.path.join(folder, "child"))
        written(folder, "study.in", study)
    return folders


def command_of(program, count):
    """The command that makes so many attempts."""
    return [*program, str(count), "study.in", *SMALL[2]]


def calls_of(command, folder):
    """How often each call was made: by the program, and by its children until the simulation runs."""
    traced = ["strace", "-f", "-o", "calls", *command]
    subprocess.run(traced, cwd=folder, stdin=subprocess.DEVNULL, stdout=subprocess.DEVNULL, check=True)
    counts, first, ran = (collections.Counter(), collections.Counter()), None, set()
    with open(os.path.join(folder, "calls"), encoding="ascii") as it:
        for process, name in (call.groups() for call in map(CALL.match, it) if call):
            first = first or process
            if process not in ran:
                counts[process != first][name] += 1
            if process != first and name == "execve":
                ran.add(process)
    return counts


def compare_calls(programs, folders):
    """Prints the calls of one attempt: a tenth of what ten more attempts take more."""
    for name, program in programs.items():
        few, more = (calls_of(command_of(program, count), folders[name]) for count in (FEW, MORE))
        for who, before, after in zip(("itself", "the child before it runs"), few, more):
            each = {call: (count - before[call]) / (MORE - FEW) for call, count in after.items() if count != before[call]}
            parts = ", ".join(f"{count:g} {call}" for call, count in sorted(each.items()))
            print(f"calls of an attempt, {name}, by {who}: {sum(each.values()):g}: {parts}")


def main():
    mode, *paths = sys.argv[1:]
    scratch, program, in_c, child = map(os.path.abspath, paths)
    scratch = os.path.join(scratch, "attempts-traced" if mode == "--calls" else "attempts-timed")
    programs = {"program": [program, "attempts"], "C": [in_c]}
    if mode == "--calls":
        compare_calls(programs, lay(scratch, programs, child, study_of(SMALL)))
        return 0
    programs["C again"] = programs["C"]
    folders = lay(scratch, programs, child, study_of(SMALL))
    times, line = in_turn(int(mode), {name: command_of(it, COUNT) for name, it in programs.items()}, folders)
    print(f"attempts on {kind_of(scratch)}: {line} by all")
    tell(times, COUNT, "an attempt")
    return 0


if __name__ == "__main__":
    sys.exit(main())
