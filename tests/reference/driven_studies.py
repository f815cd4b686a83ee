#!/usr/bin/env python3
"""Runs examples with children, and compares them with `direct`.

    driven_studies.py PROGRAM [SIMDRIVER]

The worked study, examples/vector.in, is run with `fork` and each driver of examples/drivers, and where SIMDRIVER is given with
that program, `dk_simdriver` of this project, which drives the other examples too. What a run prints, its status, its table and
its restart file have to be those of the same study with `direct`: of a run that begins, also over an empty file, of one that
goes on with the finished file, and of one that goes on with that of `direct`. The first two start the driver once for each
attempt, one after another, and the others don't start it.

PROGRAM may be the second reading, dakota.py. Each driver ends with a line. The exit status is 1 where anything differs. It is
no part of the gate.
"""
import argparse
import collections
import os
import re
import sys
import tempfile

from kill import run
from kill_rounds import RESTART, STUDY, others_in, read, write
from manual import EXAMPLES, RUN
from restart import judge, shape_of
from simulation import report
from study import read_study

DRIVER, STARTER, STARTS = "driver", "starter.sh", "starts"
# Tells of a start, and becomes the driver.
SCRIPT = b'echo "$*" >>starts\nexec "$@"\n'
BEGUN, RESUMED = ["-i", STUDY], ["-i", STUDY, "-r", RESTART]

# A driver's name, its program, its words, and the examples that it drives.
Driver = collections.namedtuple("Driver", "name path words examples")
# What a run does: its end, and the files that it leaves.
Done = collections.namedtuple("Done", "ran files")


def all_drivers(simdriver):
    drivers = [Driver(it, os.path.join(EXAMPLES, "drivers", it), "", ["vector.in"]) for it in ("rosenbrock.sh", "rosenbrock.py")]
    return drivers + ([Driver("dk_simdriver", simdriver, " rosenbrock", [*RUN])] if simdriver else [])


def with_fork(text, driver):
    """The text of an example with a driver in the place of `direct`."""
    text = text.replace(b"'rosenbrock'", b"'sh %s ./%s%s'" % (STARTER.encode(), DRIVER.encode(), driver.words.encode()))
    return re.sub(rb"^ +direct$", b"    fork", text, flags=re.M)


def done(program, words, folder):
    """Runs a study, or goes on with it."""
    ran = run(program, words, folder)
    return Done(ran, others_in(folder, (STUDY, DRIVER, STARTER, STARTS)))


def in_folder(program, words, text, restart=None, driver=None):
    """Runs a study in a folder of its own, over a restart file if any, and answers the lines of the starts too."""
    with tempfile.TemporaryDirectory() as folder:
        write(folder, STUDY, text)
        if restart is not None:
            write(folder, RESTART, restart)
        if driver:
            write(folder, STARTER, SCRIPT)
            os.symlink(driver.path, os.path.join(folder, DRIVER))
        return done(program, words, folder), (read(folder, STARTS) or b"").splitlines()


def faults_of_example(program, driver, name):
    """What is wrong with an example that is run with a driver."""
    text = read(EXAMPLES, name)
    direct, _ = in_folder(program, BEGUN, text)
    finished = direct.files[RESTART]
    forked = with_fork(text, driver)
    count = len(judge(finished, shape_of(read_study(forked)))[0].entries)
    line = f"./{DRIVER}{driver.words} params.in results.out".encode()
    cases = [("begun", BEGUN, None, count), ("over an empty file", RESUMED, b"", count)]
    first, _ = in_folder(program, BEGUN, forked, None, driver)
    cases += [("gone on with", RESUMED, first.files.get(RESTART), 0), ("over the file of direct", RESUMED, finished, 0)]
    for what, words, restart, wanted in cases:
        found, starts = in_folder(program, words, forked, restart, driver)
        if found != direct:
            yield f"{name} {what}: {found}, and not {direct}"
        if starts != [line] * wanted:
            yield f"{name} {what}: {len(starts)} starts, {starts[:3]}, and not {wanted} of {line}"


def main():
    parser = argparse.ArgumentParser(description=__doc__.split("\n")[0])
    parser.add_argument("program", type=os.path.abspath)
    parser.add_argument("simdriver", nargs="?", type=os.path.abspath)
    arguments = parser.parse_args()
    wrong = 0
    for driver in all_drivers(arguments.simdriver):
        faults = [it for name in driver.examples for it in faults_of_example(arguments.program, driver, name)]
        wrong += report(f"{driver.name}: {len(driver.examples)} examples", faults)
    return 1 if wrong else 0


if __name__ == "__main__":
    sys.exit(main())
