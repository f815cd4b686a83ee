#!/usr/bin/env python3
"""Goes on with a restart file that has all attempts of a study, and reads the same file with Python, in turn, and prints the
ratio of their times; then goes on with two that have as many other records too as there is room for.

    resume.py RUNS SCRATCH STUDY PROGRAM PYTHON_PROGRAM
"""
import os
import statistics
import sys

from measure import in_turn, left, peak_of, ran, tell
from records import entries_of, file_of, filled
from study import ONE, text_of


def table_of(entries):
    """The table of a study all of whose points gave values at once."""
    lines = ["%eval_id interface x1 x2 obj_fn\n"]
    for at, (point, _, values) in enumerate(entries):
        lines.append(f"{at + 1} NO_ID {' '.join(map(text_of, point + values))}\n")
    return "".join(lines).encode("ascii")


def fault_of(command, folder, name, kept, table):
    """What is wrong with a run that finds all its attempts in a file."""
    _, (said, status, written) = ran(command, folder)
    if status or written != table:
        return f"another table or status: {said.decode().strip()}"
    return None if left(folder, name) == kept else f"{name} isn't as it was"


def write(folder, name, data):
    with open(os.path.join(folder, name), "wb") as it:
        it.write(data)


def go_on_with_full(runs, folder, command, entries, kept, table):
    """Goes on with files as long as they may be, whose other records have values, or are of attempts that failed."""
    for value, said in ((ONE, "values"), (None, "failed")):
        full, more = filled(kept, value)
        write(folder, "full.rst", full)
        if fault := fault_of(command, folder, "full.rst", full, table):
            return fault
        print(f"gone on with {entries} records and {more} more ({said}), {len(full)} bytes, which stay as they are")
        times = in_turn(runs, {"program": command}, {"program": folder})
        tell("program", times["program"], peak_of(command, folder))
    return None


def go_on(runs, folder, commands, entries, kept, table):
    """Goes on with the restart file of a study, and has Python read it."""
    write(folder, "kept.rst", kept)
    if fault := fault_of(commands["program"], folder, "kept.rst", kept, table):
        return fault
    print(f"gone on with {entries} records, {len(kept)} bytes, which stay as they are")
    times = in_turn(runs, commands, dict.fromkeys(commands, folder))
    for name, command in commands.items():
        tell(name, times[name], peak_of(command, folder))
    print(f"Python / program: {statistics.median(times['Python']) / statistics.median(times['program']):.2f}")
    return None


def main():
    runs, scratch, *paths = sys.argv[1:]
    study, program, in_python = map(os.path.abspath, paths)
    folder = os.path.join(scratch, "resume")
    os.mkdir(folder)
    kept = file_of(study)
    entries, _ = entries_of(kept)
    count, table = len(entries), table_of(entries)
    commands = {"program": [program, "-i", study, "-r", "kept.rst"], "Python": [sys.executable, in_python, "kept.rst"]}
    fault = go_on(int(runs), folder, commands, count, kept, table)
    fault = fault or go_on_with_full(int(runs), folder, [program, "-i", study, "-r", "full.rst"], count, kept, table)
    if fault:
        print(f"bench: {fault}")
        return 1
    return 0


if __name__ == "__main__":
    sys.exit(main())
