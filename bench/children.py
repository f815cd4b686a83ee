#!/usr/bin/env python3
"""Runs a study over the smallest simulation with the program and in C, in turn, checks that both leave the same, and prints the
ratio of their times, and that of C to itself; with --calls it compares their calls of the system on the files of the run.

    children.py MOST_RUNS SCRATCH STUDY PROGRAM CHILDREN CHILD
    children.py --calls SCRATCH STUDY PROGRAM CHILDREN CHILD
"""
import collections
import os
import re
import subprocess
import sys

from attempts import lay
from journal import kind_of, tell_ratios, tell_times, times_of
from measure import RESTART, clear, left
from records import entries_of, file_of
from resume import table_of
from study import ONE

SUMMARY = "<<<<< Study finished: complete\n<<<<< Function evaluation summary: {0} total ({0} new, 0 duplicate)\n"
STAYS = {"child", "study.in", "t.dat", RESTART}

# A call that did something: its name, the path of its file or the one behind its descriptor, what else it was given, and its
# answer.
CALL = re.compile(r'(\w+)\((?:AT_FDCWD(?:<.*?>)?, )?(?:"(.*?)"|\d+<(.*?)>)(.*)\) += (-?\d+)')
CALLS = "unlink,unlinkat,rename,open,openat,creat,close,read,write,pwrite64,pwritev,fdatasync,fsync,ftruncate,flock"
FILES = {".", "params.in", "results.out", "t.dat", RESTART}
# Seconds for the runs that are timed, and how many turns there are at least.
SECONDS, LEAST = 45, 3


def text_at(path):
    """The text of a study."""
    with open(path, encoding="ascii") as it:
        return it.read()


def always_one(*_):
    """The value of the smallest simulation."""
    return ONE


def outcome_of(study, value_of, recovered=None):
    """What a run of the study at a path leaves: its restart file, and its summary, status and table."""
    kept = file_of(study, value_of)
    entries = [(point, attempt, values or (recovered,)) for point, attempt, values in entries_of(kept)[0]]
    return kept, (SUMMARY.format(len(entries)).encode("ascii"), 0, table_of(entries))


def fault_in(folder, wrote, kept, expected):
    """What a run left otherwise than it has to."""
    if wrote != expected:
        return "another table, summary or status"
    if left(folder, RESTART) != kept:
        return "another restart file"
    return None if set(os.listdir(folder)) == STAYS else f"other files than {', '.join(sorted(STAYS))}"


def calls_of(command, folder):
    """The calls of a run itself, and not of its children, on its files, in order. How the table is cut into pieces, how many bytes
    a read asks for, and how a file is opened aren't compared."""
    clear(folder)
    traced = ["strace", "-y", "-s", "65536", "-e", f"trace={CALLS}", "-o", "calls", *command]
    subprocess.run(traced, cwd=folder, stdin=subprocess.DEVNULL, stdout=subprocess.DEVNULL, check=True)
    with open(os.path.join(folder, "calls"), encoding="ascii") as it:
        found = [call.groups() for call in map(CALL.match, it) if call]
    calls = []
    for name, path, behind, given, answer in found:
        file = os.path.relpath(os.path.join(folder, path or behind), folder)
        name = {"open": "openat", "unlinkat": "unlink"}.get(name, name)
        call = (name, file, given if "write" in name else "", "" if name == "openat" else answer)
        if file in FILES and not (name == "openat" and answer == "-1"):
            calls.append(("write", file, "", "") if name == "write" and file == "t.dat" else call)
    return [call for at, call in enumerate(calls) if call != ("write", "t.dat", "", "") or calls[at - 1] != call]


def compare_calls(commands, folders):
    program, in_c = (calls_of(commands[name], folders[name]) for name in ("program", "C"))
    if program != in_c:
        at = next((at for at, both in enumerate(zip(program, in_c)) if both[0] != both[1]), min(len(program), len(in_c)))
        print(f"bench: the calls differ from {at} on: {program[at : at + 2]}, in C {in_c[at : at + 2]}")
        return 1
    counts = collections.Counter(name for name, *_ in program)
    print(f"the same {len(program)} calls on files by both: {', '.join(f'{n} {name}' for name, n in sorted(counts.items()))}")
    return 0


def compare_times(most, commands, folders, study):
    kept, expected = outcome_of(study, always_one)
    times = times_of(commands, folders, lambda *it: fault_in(*it, kept, expected), LEAST, most, SECONDS)
    rows = expected[2].count(b"\n") - 1
    print(f"{rows} evaluations: the same {len(kept)} bytes of restart file and {len(expected[2])} of table by all")
    medians = tell_times(times)
    print(f"program: {medians['program'] / rows * 1e6:.0f} microseconds an evaluation, C {medians['C'] / rows * 1e6:.0f}")
    tell_ratios(times, medians)
    return 0


def main():
    mode, scratch, *paths = sys.argv[1:]
    study, program, in_c, child = map(os.path.abspath, paths)
    scratch = os.path.join(os.path.abspath(scratch), "children-traced" if mode == "--calls" else "children-timed")
    commands = {"program": [program, "-i", "study.in"], "C": [in_c, "study.in"], "C again": [in_c, "study.in"]}
    folders = lay(scratch, commands, child, text_at(study))
    if mode == "--calls":
        return compare_calls(commands, folders)
    print(f"{os.path.basename(study)}: with children, on {kind_of(scratch)}")
    return compare_times(int(mode), commands, folders, study)


if __name__ == "__main__":
    sys.exit(main())
