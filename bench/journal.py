#!/usr/bin/env python3
"""Runs a study with the program, which keeps its restart file, and makes the same file in C, in turn, and prints the ratio
of their times, and that of C to itself; with --calls it compares their calls of the system that write and sync.

    journal.py MOST_RUNS SCRATCH STUDY PROGRAM JOURNAL
    journal.py --calls SCRATCH STUDY PROGRAM JOURNAL
"""
import collections
import os
import re
import statistics
import subprocess
import sys
import time

from measure import RESTART, clear, journal_of, lay, left, ran
from records import file_of

# A call without the process and the descriptor, which are other numbers in each program.
CALL = re.compile(r"\d+ +(\w+)\((?:\d+\b)?(.*)")
CALLS = "pwrite64,pwritev,fdatasync,fsync,sync_file_range,ftruncate,rename"
SECONDS = 120


def kind_of(folder):
    """The kind of file system that a folder is on."""
    with open("/proc/self/mounts", encoding="utf-8") as it:
        mounts = [line.split()[1:3] for line in it]
    inside = [(len(at), kind) for at, kind in mounts if os.path.commonpath([at, os.path.realpath(folder)]) == at]
    return max(inside, key=lambda it: it[0])[1]


def calls_of(command, folder):
    """The writes and syncs of a run, in order, each with what it was given and gave."""
    clear(folder)
    traced = ["strace", "-f", "-xx", "-s", "65536", "-e", f"trace={CALLS}", "-o", "calls", *command]
    subprocess.run(traced, cwd=folder, stdin=subprocess.DEVNULL, stdout=subprocess.DEVNULL, check=True)
    with open(os.path.join(folder, "calls"), encoding="ascii") as it:
        return [call.groups() for call in map(CALL.match, it) if call]


def compare_calls(commands, folders):
    program, in_c = (calls_of(commands[name], folders[name]) for name in ("program", "C"))
    if program != in_c:
        at = next((at for at, both in enumerate(zip(program, in_c)) if both[0] != both[1]), min(len(program), len(in_c)))
        print(f"bench: the calls differ from {at} on: {program[at : at + 2]}, in C {in_c[at : at + 2]}")
        return 1
    counts = collections.Counter(name for name, _ in program)
    print(f"the same {len(program)} writes and syncs by both: {', '.join(f'{n} {name}' for name, n in sorted(counts.items()))}")
    return 0


def times_of(commands, folders, fault_of, least, most, seconds):
    """The times of the commands, which take turns: so many at least, and then up to so many within these seconds. Each turn
    begins with the command with which the one before ended. A run that left something wrong ends the program."""
    times, begun, names = {name: [] for name in commands}, time.monotonic(), list(commands)
    while len(times[names[0]]) < least or len(times[names[0]]) < most and time.monotonic() - begun < seconds:
        for name in names:
            taken, wrote = ran(commands[name], folders[name])
            times[name].append(taken)
            if fault := fault_of(folders[name], wrote):
                sys.exit(f"bench: {fault} by {name}")
        names.reverse()
    return times


def tell_times(times):
    """Prints the median and the spread of each command's times, and answers the medians."""
    medians = {name: statistics.median(it) for name, it in times.items()}
    for name, it in times.items():
        spread = f"least {min(it) * 1000:.0f} ms, most {max(it) * 1000:.0f} ms"
        print(f"{name}: median of {len(it)} runs {medians[name] * 1000:.0f} ms, {spread}")
    return medians


def tell_ratios(times, medians):
    """Prints the ratios of times to those of C, of the program and of C itself."""
    for one in ("program", "C again"):
        print(f"{one} / C: {medians[one] / medians['C']:.2f}, of the least times {min(times[one]) / min(times['C']):.2f}")


def compare_times(most, commands, folders, kept):
    """Times the commands in turn, five times and then up to so many times within two minutes."""

    def fault_of(folder, _):
        return None if left(folder, RESTART) == kept else "another restart file"

    times = times_of(commands, folders, fault_of, 5, most, SECONDS)
    tell_ratios(times, tell_times(times))
    return 0


def main():
    mode, scratch, *paths = sys.argv[1:]
    study, program, in_c = map(os.path.abspath, paths)
    scratch = os.path.join(scratch, "calls" if mode == "--calls" else "times")
    commands = {"program": [program, "-i", study], "C": journal_of(in_c), "C again": journal_of(in_c)}
    kept = file_of(study)
    folders = lay(scratch, commands, kept)
    if mode == "--calls":
        return compare_calls(commands, folders)
    print(f"{os.path.basename(study)}: a restart file of {len(kept)} bytes on {kind_of(scratch)}")
    return compare_times(int(mode), commands, folders, kept)


if __name__ == "__main__":
    sys.exit(main())
