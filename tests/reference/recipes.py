#!/usr/bin/env python3
"""Runs the recipes of examples/recipes/, each that can run on this machine, and compares what comes out: recipes.py [PROGRAM].

The table goes into gnuplot, whose picture is compared with beam.svg, and into pandas and R, whose output is compared with
what the manual shows; it is the one that stands beside first/beam.in. With PROGRAM, or `dakota` of this project where that was
built, come the studies whose driver hands its work to Slurm. Programs of the folder slurm/ stand in for srun and sbatch; no
real Slurm runs anything.

Each recipe has a line, also where it is skipped. The exit status is 1 where anything differs. It is no part of the gate.
"""
import os
import re
import shutil
import subprocess
import sys

from copies import EXAMPLES, ROOT, copied, done, files_in, read

FOLDER = "examples/first"
SLURM = os.path.join(ROOT, "tests/reference/slurm")
NOTES, TABLE, PICTURE = "notes", "beam.dat", "beam.svg"
VERSION = re.compile(rb"<desc>.*</desc>")
POINT = re.compile(rb"<use [^>]*href='#gpPt")
# The words of each call of a stand-in.
CALLS = {
    "srun": "srun --ntasks=1 ./beam.sh params.in results.out\n",
    "sbatch": "sbatch --wait --open-mode=append --output=jobs.log ./beam.sh params.in results.out\n",
}


class Skipped(Exception):
    """A recipe can't run, for this reason."""


def found(name):
    """A program of this machine."""
    if not shutil.which(name):
        raise Skipped(f"{name} isn't there")
    return name


def pandas_python():
    """A Python that has pandas: the one that runs this, or the system's."""
    for python in (sys.executable, "/usr/bin/python3"):
        if os.path.exists(python) and subprocess.run([python, "-c", "import pandas"], capture_output=True).returncode == 0:
            return python
    raise Skipped("no Python here has pandas")


def with_table(words):
    """What a command prints in the folder of the table, and the files that it makes there."""
    with copied([]) as top:
        shutil.copy(os.path.join(EXAMPLES, "first/beam.table"), os.path.join(top, FOLDER, TABLE))
        before = files_in(top, FOLDER)
        run = done(top, FOLDER, words)
        made = {name: it for name, it in files_in(top, FOLDER).items() if name not in before}
    return run.returncode, (run.stdout + run.stderr).decode(), made


def faults_of_picture():
    """Of the picture. Another version of gnuplot draws other bytes, and as many points."""
    status, text, made = with_table([found("gnuplot"), "../recipes/beam.gp"])
    picture, wanted = made.get(PICTURE, b""), read(os.path.join(EXAMPLES, "recipes", PICTURE))
    if status or text or {*made} != {PICTURE}:
        yield f"status {status}, {text!r}, files {sorted(made)}"
    elif VERSION.findall(picture) == VERSION.findall(wanted) and picture != wanted:
        yield f"{PICTURE} is another picture"
    elif len(POINT.findall(picture)) != len(POINT.findall(wanted)):
        yield f"{PICTURE} has {len(POINT.findall(picture))} points"


def faults_of_output(command, *words):
    """Of a command whose output the manual shows."""
    status, text, made = with_table([*words])
    if status or made:
        yield f"status {status}, {text!r}, files {sorted(made)}"
    elif f"```\n$ {command}\n{text}```\n" not in read(os.path.join(ROOT, "docs/MANUAL.md")).decode():
        yield f"the manual doesn't show what it prints, {text!r}"


def faults_of_pandas():
    yield from faults_of_output("python3 ../recipes/beam.py", pandas_python(), "../recipes/beam.py")


def faults_of_r():
    yield from faults_of_output("Rscript ../recipes/beam.R", found("Rscript"), "../recipes/beam.R")


def program():
    """The words that start the program."""
    if len(sys.argv) > 1:
        return [os.path.abspath(sys.argv[1])]
    if os.path.exists(os.path.join(ROOT, "crates/dakota/out/dakota")):
        return [os.path.join(ROOT, "dakota")]
    raise Skipped("the program isn't built, and none is given")


def faults_of_jobs(name):
    """Of a study whose driver hands its work to a stand-in of this name."""
    table, summary = (read(os.path.join(EXAMPLES, f"first/beam.{it}")) for it in ("table", "summary"))
    with copied(program()) as top:
        notes = os.path.join(top, NOTES)
        run = done(top, FOLDER, ["dakota", "-i", f"../recipes/{name}.in"], SLURM, NOTES=notes)
        files = files_in(top, FOLDER)
        calls = read(notes).decode() if os.path.exists(notes) else ""
    if (run.returncode, run.stdout, files.get(TABLE)) != (0, summary, table):
        yield f"status {run.returncode}, {run.stdout}, {run.stderr}, table {files.get(TABLE)}"
    if calls != 6 * CALLS[name]:
        yield f"{name} is called so: {calls!r}"


def faults_of_srun():
    return faults_of_jobs("srun")


def faults_of_sbatch():
    return faults_of_jobs("sbatch")


RECIPES = [
    ("gnuplot", faults_of_picture),
    ("pandas", faults_of_pandas),
    ("R", faults_of_r),
    ("srun", faults_of_srun),
    ("sbatch", faults_of_sbatch),
]


def main():
    ran = skipped = wrong = 0
    for name, faults_of in RECIPES:
        try:
            faults = [*faults_of()]
        except Skipped as why:
            skipped += 1
            print(f"{name}: skipped, {why}", flush=True)
            continue
        ran, wrong = ran + 1, wrong + bool(faults)
        print(f"{name}: {'; '.join(faults) or 'as it is to be'}", flush=True)
    print(f"recipes: {ran} ran, {skipped} skipped, {wrong} differ")
    return 1 if wrong else 0


if __name__ == "__main__":
    sys.exit(main())
