#!/usr/bin/env python3
"""Runs a study with several programs in turn, checks that all write the same, and prints ratios of their times.

    measure.py RUNS SCRATCH STUDY PROGRAM PYTHON_PROGRAM [C_PROGRAM JOURNAL]

The program keeps a restart file too, which the others don't. JOURNAL makes the same one in C, and nothing else.
"""
import os
import shutil
import statistics
import subprocess
import sys
import time

from records import file_of

TIME = "/usr/bin/time"
RESTART = "dakota.rst"
KEPT = "kept.rst"


def left(folder, name):
    """The bytes of a file in a folder; none where there is no such file."""
    try:
        with open(os.path.join(folder, name), "rb") as it:
            return it.read()
    except FileNotFoundError:
        return None


def clear(folder):
    """Takes away the restart file of the run before, which the next one would keep under another name."""
    if os.path.exists(os.path.join(folder, RESTART)):
        os.remove(os.path.join(folder, RESTART))


def ran(command, folder):
    """The wall time of a run in a folder, and what it wrote: standard output, the status, and the table."""
    clear(folder)
    begun = time.perf_counter()
    done = subprocess.run(command, cwd=folder, stdin=subprocess.DEVNULL, stdout=subprocess.PIPE)
    return time.perf_counter() - begun, (done.stdout, done.returncode, left(folder, "t.dat"))


def peak_of(command, folder):
    """The most memory that a run had, in KiB; none where the tool is missing."""
    if not shutil.which(TIME):
        return None
    clear(folder)
    said = os.path.join(os.path.abspath(folder), "peak")
    measured = [TIME, "-f", "%M", "-o", said, *command]
    if subprocess.run(measured, cwd=folder, stdin=subprocess.DEVNULL, stdout=subprocess.DEVNULL).returncode:
        return None
    with open(said, encoding="ascii") as it:
        return int(it.read())


def in_turn(runs, commands, folders):
    """The wall times of so many runs of each command, which take turns."""
    times = {name: [] for name in commands}
    for _ in range(runs):
        for name, command in commands.items():
            times[name].append(ran(command, folders[name])[0])
    return times


def tell(name, times, peak):
    """Prints a program's times and peak memory."""
    memory = f"peak memory not measured, since there is no {TIME}" if peak is None else f"peak memory {peak} KiB"
    median, least = statistics.median(times) * 1000, min(times) * 1000
    print(f"{name}: median of {len(times)} runs {median:.1f} ms, least {least:.1f} ms, {memory}")


def lay(scratch, commands, kept):
    """Makes a folder for each command, and the restart file of which JOURNAL takes the bytes."""
    folders = {name: os.path.join(scratch, f"of-{name}") for name in commands}
    for folder in folders.values():
        os.makedirs(folder)
    with open(os.path.join(scratch, KEPT), "wb") as it:
        it.write(kept)
    return folders


def journal_of(in_c):
    """The command that makes the restart file anew."""
    return [in_c, os.path.join(os.pardir, KEPT), RESTART]


def difference(wrote, folders, kept):
    """What a program wrote otherwise than the first one, or a restart file that isn't the one that a run leaves."""
    for name, texts in wrote.items():
        if name != "journal" and texts != wrote["program"]:
            return f"another table, summary or status by {name}"
        if name in ("program", "journal") and left(folders[name], RESTART) != kept:
            return f"another restart file by {name}"
    return "not the status 0" if wrote["program"][1] else None


def main():
    runs, scratch, *paths = sys.argv[1:]
    study, program, in_python, *in_c = map(os.path.abspath, paths)
    commands = {"program": [program, "-i", study], "Python": [sys.executable, in_python, study]}
    if in_c:
        commands |= {"C": [in_c[0], study], "journal": journal_of(in_c[1])}
    kept = file_of(study)
    folders = lay(os.path.join(scratch, os.path.basename(study)), commands, kept)
    wrote = {name: ran(command, folders[name])[1] for name, command in commands.items()}
    if fault := difference(wrote, folders, kept):
        print(f"bench: {fault}")
        return 1
    rows = wrote["program"][2].count(b"\n") - 1
    print(f"{os.path.basename(study)}: {rows} rows, the same {len(wrote['program'][2])} bytes of table by all")
    times = in_turn(int(runs), commands, folders)
    for name, command in commands.items():
        tell(name, times[name], peak_of(command, folders[name]))
    medians = {name: statistics.median(it) for name, it in times.items()}
    print(f"program: {medians['program'] / rows * 1e6:.2f} microseconds a row")
    print(f"Python / program: {medians['Python'] / medians['program']:.2f}")
    if in_c:
        print(f"program / C: {medians['program'] / medians['C']:.2f}")
        print(f"program / (C and journal): {medians['program'] / (medians['C'] + medians['journal']):.2f}")
    return 0


if __name__ == "__main__":
    sys.exit(main())
