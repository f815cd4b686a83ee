#!/usr/bin/env python3
"""Runs studies with children by chance, whose driver keeps each parameters file and leaves a results file that was generated.

    generated_files.py PROGRAM [--evaluations N] [--rows R] [--stops N] [--seed S] [--keep FOLDER]

The studies are lists of points, mostly with R rows each, and compass searches of at most R rows, which goes by what their
children leave, until they come to N evaluations. Their numbers, labels, forms, names of files and tags are by chance, and so
is what a child leaves: good and bad results files, none, and too long ones. By a second reading in Python it is known which
bytes each parameters file has to have, how the driver is called, and which values each row gets, or that it fails and is
recovered. So are the table, the summary, the restart file, what children print, and which files are left.

Then come runs that stop with status 8 at some evaluation: a folder stands in the place of the results file or of the parameters file,
or the driver is gone. They stop so again when they are resumed, and once that is mended they end as if nothing had been.

PROGRAM may be the second reading, dakota.py. Scratch folders are made under TMPDIR. With --keep, the folders of what differs
are kept there. Each part ends with a line. The exit status is 1 where anything differs. It is no part of the gate.
"""
import argparse
import collections
import os
import random
import shutil
import subprocess
import sys
import tempfile

from children import names_of, text_of_row
from dakota import summary, table
from generated_studies import DRIVER, LEFT, SCRIPT, SEEN, generated
from kill import command_of
from kill_rounds import RESTART, STUDY, TABLE, others_in, read, write
from restart import file_bytes, shape_of
from simulation import report

# What a command prints on standard output and on standard error, and its status.
Ran = collections.namedtuple("Ran", "said told status")
SECONDS = 600


def run(program, folder, resumed=False):
    """Runs the study of a folder, or goes on with it. No child is to see the program's own input."""
    words = ["-i", STUDY, *(["-r", RESTART] if resumed else [])]
    done = subprocess.run(command_of(program, words), cwd=folder, input=b"input\n", capture_output=True, timeout=SECONDS)
    return Ran(done.stdout, done.stderr, done.returncode)


def lay_driver(folder):
    write(folder, DRIVER, SCRIPT)
    os.chmod(os.path.join(folder, DRIVER), 0o755)


def lay_left(folder, study, call):
    """Lays the results file that a call is to leave, if any."""
    if study.files[call - 1] is not None:
        write(folder, f"{LEFT}/{call}", study.files[call - 1])


def names_at(study, call):
    """The names of the parameters file and the results file of a call."""
    return names_of(study.parts.interface, study.numbers[call - 1])


def lay(folder, study):
    """Makes the study, its driver, what this one leaves, and stale files in the places of all attempts' own."""
    for name in (SEEN, LEFT, "sub"):
        os.mkdir(os.path.join(folder, name))
    write(folder, STUDY, study.text)
    write(folder, f"{SEEN}/calls", b"0\n")
    lay_driver(folder)
    for call in range(1, len(study.files) + 1):
        lay_left(folder, study, call)
        for name in map(bytes.decode, names_at(study, call)):
            write(folder, name, b"77 stale\n" * len(study.parts.responses.labels))


def parameters_at(study, call):
    """The bytes of the parameters file of a call."""
    return text_of_row(study.parts, study.numbers[call - 1], study.entries[call - 1].point)


def words_of(study, call):
    """What the driver is to tell of its words: those behind the script's name, and the names of the two files."""
    words = study.parts.interface.driver.split()
    named = [at for at, it in enumerate(words) if it.endswith(DRIVER.encode())]
    return b"".join(it + b"\n" for it in [*words[named[0] + 1 :], *names_at(study, call)])


def printed(calls):
    """What these calls print."""
    return b"".join(b"%d is printed\n%d is told\n" % (it, it) for it in calls)


def saved(study):
    """The files of attempts that stand in the end."""
    files = {}
    if "file_save" in study.parts.interface.options:
        for call, content in enumerate(study.files, 1):
            parameters, results = map(bytes.decode, names_at(study, call))
            files[parameters] = parameters_at(study, call)
            files[results] = content
    return {name: content for name, content in files.items() if content is not None}


def differ(what, found, wanted):
    """A line where the bytes of two files, which may be none, differ."""
    if found == wanted:
        return
    if found is None or wanted is None:
        yield f"{what} is there" if wanted is None else f"{what} isn't there"
        return
    at = next((it for it, (a, b) in enumerate(zip(found, wanted)) if a != b), min(len(found), len(wanted)))
    yield f"{what}: from byte {at} {found[at : at + 80]!r}, and not {wanted[at : at + 80]!r}"


def faults_of_calls(folder, study, calls):
    """What is wrong with the parameters files and the words that the driver saw at these calls."""
    for call in calls:
        yield from differ(f"call {call}, parameters", read(folder, f"{SEEN}/{call}"), parameters_at(study, call))
        yield from differ(f"call {call}, words", read(folder, f"{SEEN}/{call}.words"), words_of(study, call))
    if read(folder, f"{SEEN}/calls") != b"%d\n" % calls[-1]:
        yield f"{read(folder, f'{SEEN}/calls')} calls, and not {calls[-1]}"


def files_beside(folder):
    """The files of a folder that no run needs: those of attempts."""
    others = others_in(folder, (STUDY, TABLE, RESTART, DRIVER, SEEN, LEFT, "sub"))
    others.update((f"sub/{name}", content) for name, content in others_in(os.path.join(folder, "sub"), ()).items())
    return others


def faults_of_end(folder, study, ran, first):
    """What is wrong with a study that is done, whose last run made the attempts from this one on."""
    count = len(study.entries)
    if ran.status != 0:
        yield f"status {ran.status}"
    yield from differ("standard output", ran.said, summary(study.parts, study.rows, study.ending).encode())
    yield from differ("standard error", ran.told, printed(range(first, count + 1)))
    wanted = table(study.parts, study.rows).encode() if study.parts.table is not None else None
    yield from differ("the table", read(folder, TABLE), wanted)
    yield from differ("the restart file", read(folder, RESTART), file_bytes(shape_of(study.parts), study.entries))
    yield from faults_of_calls(folder, study, range(1, count + 1))
    beside, kept = files_beside(folder), saved(study)
    for name in sorted({*beside, *kept}):
        yield from differ(f"file {name}", beside.get(name), kept.get(name))
    if os.listdir(os.path.join(folder, LEFT)):
        yield f"results files were left out: {sorted(os.listdir(os.path.join(folder, LEFT)))[:5]}"


def faults_of_study(program, study, folder):
    """What is wrong with a run that nothing stops, and with one that finds all attempts made."""
    lay(folder, study)
    yield from faults_of_end(folder, study, run(program, folder), 1)
    for fault in faults_of_end(folder, study, run(program, folder, resumed=True), len(study.entries) + 1):
        yield f"resumed: {fault}"


# Runs that stop with status 8


class Stop:
    """A run that stops at a call, since something isn't as the program needs it."""

    def __init__(self, program, study, folder, call):
        self.program, self.study, self.folder, self.call = program, study, folder, call
        self.parameters, self.results = map(bytes.decode, names_at(study, call))

    def make(self, name):
        os.mkdir(os.path.join(self.folder, name))

    def again(self):
        """Has the driver do its call once more."""
        write(self.folder, f"{SEEN}/calls", b"%d\n" % (self.call - 1))
        lay_left(self.folder, self.study, self.call)

    def faults_of_run(self, what, step, calls, entries, resumed):
        """Of a run that is to stop at a step, after these calls, with so many entries in its restart file."""
        ran = run(self.program, self.folder, resumed)
        if ran != Ran(b"dakota: bench 0 failed at %s\n" % step.encode(), printed(calls), 8):
            yield f"{what}: {ran}, and not status 8 at {step}"
        wanted = file_bytes(shape_of(self.study.parts), self.study.entries[:entries])
        yield from differ(f"{what}: the restart file", read(self.folder, RESTART), wanted)
        if read(self.folder, TABLE) is not None:
            yield f"{what}: a table"

    def faults(self, first, second, entries, mend):
        """Of runs that stop at a first and a second step, and of one that doesn't, once that is mended."""
        yield from self.faults_of_run("stopped", first, range(1, self.call + 1), entries, False)
        yield from self.faults_of_run("stopped again", second, (), entries, True)
        mend()
        ran = run(self.program, self.folder, True)
        for fault in faults_of_end(self.folder, self.study, ran, entries + 1):
            yield f"mended: {fault}"

    def remove(self, name):
        shutil.rmtree(os.path.join(self.folder, name), ignore_errors=True)
        self.again()

    def at_results(self):
        """A folder in the place of the results file."""
        lay(self.folder, self.study)
        if self.study.files[self.call - 1] is not None:
            os.remove(os.path.join(self.folder, f"{LEFT}/{self.call}"))
        self.make(f"{LEFT}/{self.call}")
        return self.faults("fetch", "clear", self.call - 1, lambda: self.remove(self.results))

    def at_parameters(self):
        """A folder in the place of the parameters file, of a study that doesn't save its files."""
        lay(self.folder, self.study)
        self.make(f"{LEFT}/{self.call}.in")
        return self.faults("clear after", "lay", self.call - 1, lambda: self.remove(self.parameters))

    def at_driver(self):
        """A driver that is gone from the next call on."""
        lay(self.folder, self.study)
        write(self.folder, f"{LEFT}/{self.call}.gone", b"")
        return self.faults("run", "run", self.call, lambda: lay_driver(self.folder))


def stop_by_chance(source, program, folder):
    """The name of a way to stop, the study, and what is wrong then."""
    study = None
    while study is None or len(study.files) < 2:
        study = generated(source, source.randrange(2, 9), ["./driver.sh", "./driver.sh a -b"])
    stop = Stop(program, study, folder, source.randrange(1, len(study.files)))
    ways = [stop.at_results, stop.at_driver]
    if "file_save" not in study.parts.interface.options:
        ways += [stop.at_parameters] * 2
    way = source.choice(ways)
    return way.__name__.replace("_", " "), study, way()


# The parts


def in_folder(arguments, scratch, name, act):
    """Has a check act in a folder of its own, and answers what is wrong."""
    folder = os.path.join(scratch, name)
    os.mkdir(folder)
    faults = [f"{name} of seed {arguments.seed}: {it}" for it in act(folder)]
    if faults and arguments.keep:
        shutil.copytree(folder, os.path.join(arguments.keep, name), symlinks=True, dirs_exist_ok=True)
    shutil.rmtree(folder)
    return faults


def generated_part(arguments, scratch):
    """Runs studies until they come to so many evaluations."""
    studies, count, failed, faults = 0, 0, 0, []
    while count < arguments.evaluations:
        study = generated(random.Random(f"{arguments.seed} generated {studies}"), arguments.rows)
        faults += in_folder(arguments, scratch, f"generated-{studies}", lambda it: faults_of_study(arguments.program, study, it))
        studies, count = studies + 1, count + len(study.entries)
        failed += sum(it.said is None for it in study.entries)
    return report(f"generated: {studies} studies, {count} evaluations, {failed} failures", faults)


def stops_part(arguments, scratch):
    """Runs studies that stop."""
    counts, faults = collections.Counter(), []
    for number in range(arguments.stops):

        def act(folder):
            way, _, wrong = stop_by_chance(random.Random(f"{arguments.seed} stop {number}"), arguments.program, folder)
            counts[way] += 1
            return wrong

        faults += in_folder(arguments, scratch, f"stop-{number}", act)
    told = ", ".join(f"{count} {it}" for it, count in sorted(counts.items()))
    return report(f"stops: {arguments.stops} studies, {told}", faults)


def read_arguments():
    parser = argparse.ArgumentParser(description=__doc__.split("\n")[0])
    parser.add_argument("program", type=os.path.abspath)
    parser.add_argument("--evaluations", type=int, default=20000)
    parser.add_argument("--rows", type=int, default=200)
    parser.add_argument("--stops", type=int, default=100)
    parser.add_argument("--seed", type=int, default=1)
    parser.add_argument("--keep", type=os.path.abspath)
    return parser.parse_args()


def main():
    arguments = read_arguments()
    if arguments.keep:
        os.makedirs(arguments.keep, exist_ok=True)
    with tempfile.TemporaryDirectory() as scratch:
        wrong = generated_part(arguments, scratch)
        wrong += stops_part(arguments, scratch)
    return 1 if wrong else 0


if __name__ == "__main__":
    sys.exit(main())
