#!/usr/bin/env python3
"""Writes parameters files, runs simulations over them, and reads what they leave.

    simulation.py [SIMDRIVER] [--points N] [--seed S]

Parameters files of points by chance are written in both forms and read again, whole and without one of their lines, and
those that the manual and FORMATS.md show are compared. Over files of the standard form run the drivers of
examples/drivers and, where SIMDRIVER is given, that program, `dk_simdriver` of this project; their values are compared
with those of the reference. Files of the other form are given to `aprepro`, where that is installed. Then come results
files, from a table and by chance, with what each comes to.

Each part ends with a line. The exit status is 1 where anything differs. It is no part of the gate.
"""
import argparse
import os
import random
import shutil
import sys
import tempfile

import drivers
from decimals import text_of
from parameters import TAGS, NoParameters, Parameters, parameters_text, read_parameters
from results import read_results
from results_texts import FAILURES, VALUES, results_text
from simulation_points import drawn_parameters

ROOT = os.path.dirname(os.path.dirname(os.path.dirname(os.path.abspath(__file__))))
SHOWN = Parameters(["x1", "x2"], [(5, -1), (5, -1)], ["obj_fn"], 2)


def report(part, faults):
    """Ends a part with its line, behind those of what is wrong."""
    for fault in faults:
        print(fault)
    print(f"{part}, {len(faults)} differ", flush=True)
    return len(faults)


def read_again(text, form):
    try:
        return read_parameters(text, form)
    except NoParameters:
        return None


def faults_of_written(source, files):
    """Of parameters files that are written and read again, and then without one of their lines."""
    for parameters in files:
        for form in TAGS:
            text = parameters_text(parameters, form)
            lines = text.splitlines(keepends=True)
            del lines[source.randrange(len(lines))]
            if read_again(text, form) != parameters:
                yield f"a file of the {form} form isn't read again: {text!r}"
            if read_again(b"".join(lines), form) is not None:
                yield f"a file of the {form} form is read without one of its lines: {lines}"


def faults_of_shown():
    """Of the parameters files that the manuals show."""
    for name in ("docs/MANUAL.md", "docs/FORMATS.md"):
        with open(os.path.join(ROOT, name), encoding="utf-8") as it:
            manual = it.read()
        for form in TAGS:
            if f"```\n{parameters_text(SHOWN, form).decode()}```\n" not in manual:
                yield f"{name} doesn't show the file of the {form} form"


def shown_values(values):
    return None if values is None else [text_of(it) for it in values]


def faults_of_table():
    """Of the reading of results files of the table."""
    for text, wanted in VALUES:
        wanted = wanted.split()
        found = shown_values(read_results(text, len(wanted)))
        if found != wanted:
            yield f"{text[:60]!r}: {found}, and not {wanted}"
    for text, count in FAILURES:
        found = shown_values(read_results(text, count))
        if found is not None:
            yield f"{text[:60]!r} of {count}: {found}, and no failure"


def faults_of_chance(texts):
    for text, count, wanted in texts:
        found = read_results(text, count)
        if found != wanted:
            yield f"{text!r} of {count}: {shown_values(found)}, and not {shown_values(wanted)}"


def read_arguments():
    parser = argparse.ArgumentParser(description=__doc__.split("\n")[0])
    parser.add_argument("simdriver", nargs="?", type=os.path.abspath)
    parser.add_argument("--points", type=int, default=200)
    parser.add_argument("--seed", type=int, default=1)
    return parser.parse_args()


def driver_parts(arguments, folder):
    """Runs each driver over files of its own, and answers how much was wrong."""
    wrong = 0
    for driver in drivers.all_drivers(ROOT, arguments.simdriver, shutil.which("aprepro")):
        if driver.command is None:
            print(f"{driver.name}: skipped, {driver.why}", flush=True)
            continue
        source = random.Random(f"{arguments.seed} {driver.name}")
        counts, faults = drivers.driven(driver, source, arguments.points, folder)
        wrong += report(f"{driver.name}: {counts}", faults)
    return wrong


def main():
    arguments = read_arguments()
    source, count = random.Random(f"{arguments.seed} files"), arguments.points
    files = [SHOWN, *(drawn_parameters(source) for _ in range(count))]
    wrong = report(f"parameters: {len(files)} files in {len(TAGS)} forms", [*faults_of_written(source, files)])
    wrong += report("shown: 2 files in 2 manuals", [*faults_of_shown()])
    with tempfile.TemporaryDirectory() as folder:
        wrong += driver_parts(arguments, folder)
    wrong += report(f"results: {len(VALUES)} texts with values, {len(FAILURES)} failures", [*faults_of_table()])
    texts = [results_text(source) for _ in range(20 * count)]
    failures = sum(wanted is None for _, _, wanted in texts)
    wrong += report(f"by chance: {len(texts) - failures} texts with values, {failures} failures", [*faults_of_chance(texts)])
    return 1 if wrong else 0


if __name__ == "__main__":
    sys.exit(main())
