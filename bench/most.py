#!/usr/bin/env python3
"""Runs once a study of as many evaluations as there may be, over a simulation that fails at every other one, checks what it
leaves, and prints how long it took and how much memory.

    most.py SCRATCH STUDY PROGRAM FAILING
"""
import itertools
import os
import shutil
import sys

from attempts import lay
from children import fault_in, outcome_of, text_at
from journal import kind_of
from measure import TIME, ran
from study import ONE, Study


def every_other():
    """The values of the points in their order, where every other one has none."""
    values = itertools.cycle((ONE, None))
    return lambda *_: next(values)


def told(said):
    """The peak memory that the tool wrote down, where it is there."""
    if not os.path.exists(said):
        return f"peak memory not measured, since there is no {TIME}"
    with open(said, encoding="ascii") as it:
        return f"peak memory {int(it.read())} KiB"


def main():
    scratch, study, program, failing = map(os.path.abspath, sys.argv[1:])
    scratch = os.path.join(scratch, "most")
    folder = lay(scratch, ["program"], failing, text_at(study))["program"]
    kept, expected = outcome_of(study, every_other(), Study(study).numbers("recover", 1)[0])
    said, command = os.path.join(scratch, "peak"), [program, "-i", "study.in"]
    measured = [TIME, "-f", "%M", "-o", said, *command] if shutil.which(TIME) else command
    taken, wrote = ran(measured, folder)
    if fault := fault_in(folder, wrote, kept, expected):
        print(f"bench: {fault}")
        return 1
    rows = expected[2].count(b"\n") - 1
    print(f"{os.path.basename(study)}: {rows} evaluations, half of which fail, on {kind_of(scratch)}")
    print(f"the {len(kept)} bytes of restart file and {len(expected[2])} of table that they are to be")
    print(f"program: one run {taken:.1f} s, {taken / rows * 1e6:.0f} microseconds an evaluation, {told(said)}")
    return 0


if __name__ == "__main__":
    sys.exit(main())
