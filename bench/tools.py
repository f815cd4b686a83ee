#!/usr/bin/env python3
"""Makes the evaluations of a study with the program, and without it by xargs, by GNU parallel and by a loop in Python, in turn,
and prints the ratios of their times.

    tools.py MOST_RUNS SCRATCH STUDY PROGRAM CHILD TOOL LOOP

First each makes some evaluations over a child that keeps its parameters files, which have to be the same by all.
"""
import os
import re
import shutil
import subprocess
import sys

from attempts import lay
from children import always_one, outcome_of, text_at
from journal import kind_of, tell_times, times_of
from measure import left, ran
from study import Study
from texts import written

# How many evaluations keep their parameters, and the child that does so.
FEW = 100
KEEPS = "#!/bin/sh\ncat -- \"$1\" >>kept\necho '1 f' >\"$2\"\n"
# Seconds for the runs that are timed, and how many turns there are at least.
SECONDS, LEAST = 25, 2


def has_parallel():
    """Whether the command parallel is that of GNU, and not another one of this name."""
    if not shutil.which("parallel"):
        return False
    said = subprocess.run(["parallel", "--version"], stdin=subprocess.DEVNULL, stdout=subprocess.PIPE, stderr=subprocess.DEVNULL)
    return said.stdout.startswith(b"GNU parallel")


def commands_of(study, program, tool, loop):
    """The commands that make the evaluations of the study at a path, which stands in their folders as study.in."""
    read = Study(study)
    numbers = [*read.numbers("initial_point"), *read.numbers("step_vector")]
    words = [str(read.numbers("num_steps", 1)[0] + 1), *(format(it, "f") for it in numbers)]
    commands = {"program": [program, "-i", "study.in"]}
    commands |= {name: [tool, name, *words] for name in ("xargs", "parallel") if name == "xargs" or has_parallel()}
    return commands | {"Python": [sys.executable, loop, "study.in"]}


def compare_parameters(scratch, text, *programs):
    """Compares the parameters files that all write, byte for byte."""
    os.makedirs(scratch)
    few, keeps = os.path.join(scratch, "few.in"), os.path.join(scratch, "keeps")
    written(scratch, "few.in", re.sub(r"(num_steps = )\d+", rf"\g<1>{FEW - 1}", text))
    written(scratch, "keeps", KEEPS)
    os.chmod(keeps, 0o755)
    commands = commands_of(few, *programs)
    folders = lay(scratch, commands, keeps, text_at(few))
    kept = {}
    for name, command in commands.items():
        ran(command, folders[name])
        kept[name] = left(folders[name], "kept")
        if kept[name] != kept["program"]:
            sys.exit(f"bench: other parameters files by {name}")
    print(f"the same {len(kept['program'])} bytes of {FEW} parameters files by {', '.join(kept)}")


def compare_times(most, scratch, study, child, *programs):
    """Times all, which have to write the same table and to end well."""
    commands = commands_of(study, *programs)
    folders = lay(scratch, commands, child, text_at(study))
    _, (_, status, table) = outcome_of(study, always_one)
    rows = table.count(b"\n") - 1
    print(f"{os.path.basename(study)}: {rows} evaluations by each, on {kind_of(scratch)}")

    def fault_of(folder, wrote):
        return None if wrote[1:] == (status, table) else "another table or status"

    medians = tell_times(times_of(commands, folders, fault_of, LEAST, most, SECONDS))
    for name in commands:
        if name != "program":
            print(f"{name} / program: {medians[name] / medians['program']:.2f}")


def main():
    most, *paths = sys.argv[1:]
    scratch, study, program, child, tool, loop = map(os.path.abspath, paths)
    if not has_parallel():
        print("bench: GNU parallel isn't on this machine, so it is left out", file=sys.stderr)
    compare_parameters(os.path.join(scratch, "tools-kept"), text_at(study), program, tool, loop)
    compare_times(int(most), os.path.join(scratch, "tools-timed"), study, child, program, tool, loop)
    return 0


if __name__ == "__main__":
    sys.exit(main())
