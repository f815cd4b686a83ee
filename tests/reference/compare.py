#!/usr/bin/env python3
"""Runs the program and the reference on studies and command lines from a seed, and compares what both do.

    compare.py PROGRAM REFERENCE [--cases N] [--seed S] [--jobs J] [--keep FOLDER]
    compare.py --alone REFERENCE [--cases N] [--seed S] [--jobs J]

Each study is checked, and run where it is accepted; some of the others are run too. Many runs name their restart file, by
-w or -r, and many begin with a file there: one that holds some or all of the study's attempts, or others, whole, cut or
spoiled, one of another study, an empty one, or one that is no restart file. Most studies with children (`fork`) have a driver
that stands in the folder, and others one that can't be started or leaves nothing; those that may start more than some
hundred children that run are left out. Each command runs in two scratch folders that begin alike. Compared are standard
output, the exit status, and the files that are in the folder then, restart files and older ones among them, byte for byte.
Nothing may come on standard error but what children print, and no file may be made or changed by a check, or where the
status is 2 to 6. With --keep, the folders of a case that differs are kept there, with a file `words`. With
--alone, only the reference runs. Scratch folders are made under TMPDIR; in a folder in memory a run takes less time.

At the end it is told how many cases had each status and each kind of refusal, at which steps benches failed, and how often
each method ended how under which rule for failures, with children (`forked`) or without; under `recover` without children also
whether none, some or all of the points failed; and how runs over a restart file that was there ended. The exit status is 1
where a case differs.
"""
import argparse
import collections
import concurrent.futures
import os
import random
import re
import shutil
import subprocess
import sys
import tempfile

import plain_driver
from contents import content_of
from dakota import attempt_of, evaluate
from form_texts import form_text
from restart import Shape, file_bytes, shape_of
from restart_file import Journal
from run_texts import run_text
from study import Refused, read_study
from study_texts import whole_study_text

SECONDS = 120
STUDY_NAMES = [b"s.in", b"s.in", b"s.in", b"a b.in", "größe.in".encode(), b"'t.dat'", b"new\nline", b"sub/s.in", b"./s.in", b"t.dat"]
NO_STUDIES = [b"none", b"sub", b"sub/none", b"s.in/x", b".", b" ", b"n" * 300, b"\xc3\xa9.in"]
RESTART_NAMES = [b"dakota.rst"] * 4 + [b"x.rst"] * 4 + [b"sub/x.rst", "größe.rst".encode(), b"a b", b"t.dat", b"./t.dat"]
NO_RESTARTS = [b"sub", b"none/x.rst", b"sub/", b".", b"s.in", b"./s.in", b"n" * 300, b"n" * 253, b"t.dat/x"]
READ_OPTIONS = (b"-r", b"-read_restart")
MOST_EVALUATIONS = 3000
MOST_CHILDREN = 300
LONELY_WORDS = ([b"--help"], [b"--version"])


# Cases


def study_of(text):
    """The study of a text, or none where it is refused."""
    try:
        return read_study(text)
    except Refused:
        return None


def is_forked(study):
    return study is not None and not study.interface.is_direct


def starts_many(study):
    """Whether a run may start too many children."""
    rule, given = study.interface.rule
    return study.limit + (given if rule == "retry" else 0) > MOST_CHILDREN


def is_left_out(study):
    return is_forked(study) and study.interface.driver.split()[0] == b"sh" and starts_many(study)


def shape_and_entries(study):
    """The labels of a study, and the attempts that it makes, with the driver of generated studies where it has children; none
    where there may be too many. For a text that is refused these are another study's."""
    journal = Journal()
    if study is None:
        return Shape(["x1", "x2"], ["obj_fn"]), []
    if study.limit <= (MOST_CHILDREN if is_forked(study) else MOST_EVALUATIONS):
        evaluate(study, journal, plain_driver.said if is_forked(study) else attempt_of)
    return shape_of(study), journal.book.entries


def restart_content(random, study):
    """The bytes of a restart file for a study."""
    shape, entries = shape_and_entries(study)
    if len(shape.variables) > 10:
        return file_bytes(shape, [])
    if random.random() < 0.05:
        shape = Shape(["x1", "x2"], ["obj_fn"])
    content, _ = content_of(random, shape, entries)
    return content


class Case:
    """A folder as it is before a command, and the commands: the words of each."""

    def __init__(self, random):
        name = random.choice(STUDY_NAMES)
        (study_text,) = random.choices([form_text, run_text, whole_study_text], [20, 35, 45])
        text = study_text(random)
        self.study = study_of(text)
        self.files, self.folders = {name: text, plain_driver.NAME.encode(): plain_driver.SCRIPT}, [b"sub"]
        self.check, self.run = self.right_words(random, name)
        self.is_run_anyhow = random.random() < 0.2
        chance = random.random()
        if chance < 0.07:
            self.check, self.run = self.wrong_words(random, name), None
        elif chance < 0.085:
            self.check, self.run = self.right_words(random, random.choice(NO_STUDIES))
            self.files.pop(self.run[1], None)
        elif chance < 0.1 and name != b"t.dat":
            self.folders.append(b"t.dat")
        older = random.choice([b"t.dat", b"t.dat", b"dakota_tabular.dat", b"a b.dat"])
        if random.random() < 0.2 and older not in self.folders:
            self.files.setdefault(older, random.choice([b"", b"before\n", b"x" * 100000]))
        self.is_resumed = False
        if self.run and random.random() < 0.6:
            self.name_restart(random)

    def name_restart(self, random):
        """Has a run name its restart file, mostly, and lays one there."""
        name = random.choice(RESTART_NAMES if random.random() < 0.9 else NO_RESTARTS)
        is_read = random.random() < 0.6
        options = READ_OPTIONS if is_read else (b"-w", b"-write_restart")
        if is_read or name != b"dakota.rst" or random.random() < 0.3:
            restart = [random.choice(options), name]
            self.run = random.choice([self.run + restart, restart + self.run])
        if name not in NO_RESTARTS and os.path.normpath(name) not in self.folders and random.random() < (0.9 if is_read else 0.5):
            self.files.setdefault(name, restart_content(random, self.study))
            self.is_resumed = is_read
        for end in (b".old", b".old2", b".old3"):
            if random.random() < 0.15 and name not in NO_RESTARTS:
                self.files[name + end] = b"kept"

    @staticmethod
    def right_words(random, name):
        """The words of a check and of a run."""
        run = [random.choice([b"-i", b"-i", b"-input"]), name]
        return random.choice([[b"-check", *run], [*run, b"-check"]]), run

    @staticmethod
    def wrong_words(random, name):
        """Words that are mostly wrong."""
        if random.random() < 0.5:
            some = [b"-i", b"-i", b"-input", b"-check", b"-check", b"-r", b"-read_restart", b"-w", b"-write_restart"]
            some += [name, name, name, b"", b"-x", b"--help", b"--version", b"-Check", b"check"]
            words = random.choices(some, k=random.randrange(8))
            return words if words not in LONELY_WORDS else []
        return random.choice(
            [
                [],
                [b""],
                [b"", name],
                [b"-i"],
                [b"-i", b""],
                [b"-i", b"-"],
                [b"-i", b"-i"],
                [b"-i", b"--help"],
                [b"-i", b"-" + name],
                [b"-i", name, name],
                [b"-i", name, b""],
                [b"-i", name, b"-i"],
                [b"-i", name, b"-o", b"out"],
                [b"-i", b"-r"],
                [b"-i", name, b"-r"],
                [b"-i", name, b"-r", b"x"],
                [b"-i", name, b"-r", b"x", b"-w", b"y"],
                [b"-w", b"y", b"-read_restart", b"x", b"-i"],
                [b"-r", b"x", b"-read_restart", b"y", b"-i", name],
                [b"-write_restart", b"", b"-i", name],
                [b"-check", b"-r", b"x", b"-i", name],
                [b"-r", b"x", b"-check", b"-i", name],
                [b"-i", name, b"-check", b"-w"],
                [b"-i", b"", name],
                [b"-i", b"-x", b"y"],
                [b"-I", name],
                [b"-i ", name],
                [b" -i", name],
                [b"-ii", name],
                [b"-", name],
                [b"--i", name],
                [b"-Input", name],
                [b"-inputs", name],
                [b"-check"],
                [b"-check", b"-i"],
                [b"-i", b"-check"],
                [b"-i", b"-check", name],
                [b"-check", name, b"-i"],
                [b"-check", b"-check", b"-i", name],
                [b"-i", name, b"-input", name],
                [b"-check", b"-i", name, b"--help"],
                [b"--help", b"--help"],
                [b"--version", b"-i", name],
                [b"-check", b"\xff", b"-i", name],
                [b"-i" + name],
                [b"-i=" + name],
                [name],
                [name, b"-i"],
                [b"\xff", name],
                [b"-i", b"\xff\xfe"],
                [b"-i", name, b"\xc3"],
                [b"-i", b"\xed\xa0\x80"],
                [b"-i", b"-\xff"],
            ]
        )

    def lay(self, folder):
        """Makes the files in an empty folder."""
        for it in self.folders:
            os.mkdir(os.path.join(folder, it))
        for name, text in self.files.items():
            with open(os.path.join(folder, name), "wb") as it:
                it.write(text)


def found(folder):
    """The files of a folder, and their bytes."""
    files = {}
    for at, folders, names in os.walk(folder):
        for name in folders:
            files[os.path.relpath(os.path.join(at, name), folder)] = None
        for name in names:
            with open(os.path.join(at, name), "rb") as it:
                files[os.path.relpath(os.path.join(at, name), folder)] = it.read()
    return files


# Commands


def ran(program, case, words, folder):
    """What a command of the case prints, its status, and the files that are there before and after it."""
    case.lay(folder)
    before = found(folder)
    command = [sys.executable, "-S", program] if program.endswith(".py") else [program]
    done = subprocess.run(command + words, cwd=folder, stdin=subprocess.DEVNULL, capture_output=True, timeout=SECONDS)
    return done.stdout, done.returncode, before, found(folder), done.stderr


def shown(text, most=300):
    return repr(text if len(text) <= most else text[:most] + b"..")


def faults(words, ours, theirs):
    """What is wrong with two runs of a command."""
    (said, status, before, after, errors), (their_said, their_status, _, their_after, their_errors) = ours, theirs
    wrong = []
    if status != their_status:
        wrong.append(f"status {status}, and {their_status} by the reference")
    if said != their_said:
        wrong.append(f"standard output {shown(said)}, and {shown(their_said)} by the reference")
    for name in sorted({*after, *their_after}):
        if after.get(name, b"absent") != their_after.get(name, b"absent"):
            one, other = after.get(name) or b"", their_after.get(name) or b""
            at = next((it for it, (a, b) in enumerate(zip(one, other)) if a != b), min(len(one), len(other)))
            wrong.append(f"file {name}: from byte {at} {shown(one[at:at + 80])}, and {shown(other[at:at + 80])} by the reference")
    if (status in range(2, 7) or b"-check" in words) and after != before:
        wrong.append(f"files changed under status {status}")
    if errors != their_errors:
        wrong.append(f"standard error {shown(errors)}, and {shown(their_errors)} by the reference")
    return wrong


def failures(study):
    """How many points of a study without children fail: none, some or all."""
    journal = Journal()
    evaluate(study, journal)
    values = [it.said for it in journal.book.entries]
    return "none" if None not in values else "some" if any(values) else "all"


def kinds_of(said, case):
    """What the text that a command prints says of the study, in short."""
    refused = re.match(rb"dakota: study refused: (\w+) at bytes", said)
    if refused:
        yield refused[1].decode()
    if said.startswith(b"study accepted"):
        yield "accepted"
    restart = re.match(rb"dakota: restart refused: (\w+)", said)
    if restart:
        yield f"restart {restart[1].decode()}"
    bench = re.match(rb"dakota: bench 0 failed at (.*)", said)
    if bench:
        yield f"bench failed at {bench[1].decode()}"
    ended = re.match(rb"<<<<< Study (finished|aborted): (\w+).*\n.*, (\d+) duplicate", said)
    if ended:
        study, is_direct = case.study, not is_forked(case.study)
        name = study.method.name.split("_")[0] + (" to a final point" if "final_point" in study.method.values else "")
        name = name if is_direct else f"forked {name}"
        rule, _ = study.interface.rule
        told = f", {failures(study)} failed" if rule == "recover" and is_direct else ""
        word = ended[2].decode()
        how = {"complete": "finished", "evaluation": "aborted"}.get(word, f"ended by {word}")
        yield f"{name} {how} under {rule}{told}"
        if ended[3] != b"0":
            yield f"{name} with duplicates"
        if case.is_resumed and any(it in case.run for it in READ_OPTIONS):
            yield f"resumed and {ended[1].decode()}"


def compared(case, words, folders, arguments):
    """Runs a command with both programs, and returns what the reference did, and what is wrong."""
    theirs = ran(arguments.reference, case, words, folders[1])
    wrong = ["standard error by the reference"] if theirs[4] and not is_forked(case.study) else []
    if arguments.program:
        wrong = faults(words, ran(arguments.program, case, words, folders[0]), theirs)
    return theirs, wrong


def keep(case, words, folders, number, arguments):
    """Keeps the folders of a command, the case as it was, and its words."""
    for folder in folders:
        shutil.copytree(folder, os.path.join(os.fsencode(arguments.keep), os.path.basename(folder)), dirs_exist_ok=True)
    case_folder = os.path.join(arguments.keep, f"{number}-{'check' if words is case.check else 'run'}")
    os.makedirs(case_folder, exist_ok=True)
    case.lay(os.fsencode(tempfile.mkdtemp(dir=case_folder)))
    with open(f"{case_folder}/words", "wb") as it:
        it.write(b"\0".join(words))


def tried(number, arguments, scratch):
    """Goes through the commands of a case, and returns the statuses, the kinds, and what is wrong with which words."""
    case = Case(random.Random(f"{arguments.seed} {number}"))
    statuses, kinds, all_wrong = set(), set(), []
    for words in (case.check, case.run):
        if words is None or (words is case.run and statuses != {0} and not case.is_run_anyhow):
            continue
        if words is case.run and is_left_out(case.study):
            kinds.add("left out")
            continue
        folders = [os.fsencode(tempfile.mkdtemp(prefix=f"{number}-{it}-", dir=scratch)) for it in ("program", "reference")]
        try:
            (said, status, *_), wrong = compared(case, words, folders, arguments)
            statuses.add(status)
            kinds.update(kinds_of(said, case))
        except subprocess.TimeoutExpired as late:
            wrong = [f"no end within {SECONDS} seconds: {late.cmd[0]}"]
        all_wrong += [(words, it) for it in wrong]
        if wrong and arguments.keep:
            keep(case, words, folders, number, arguments)
        for folder in folders:
            shutil.rmtree(folder)
    return number, statuses, kinds, all_wrong


def read_arguments():
    parser = argparse.ArgumentParser(description=__doc__.split("\n")[0])
    parser.add_argument("program", type=os.path.abspath, nargs="?")
    parser.add_argument("reference", type=os.path.abspath)
    parser.add_argument("--alone", action="store_true")
    parser.add_argument("--cases", type=int, default=3000)
    parser.add_argument("--seed", type=int, default=1)
    parser.add_argument("--jobs", type=int, default=os.cpu_count())
    parser.add_argument("--keep", type=os.path.abspath)
    arguments = parser.parse_args()
    if arguments.alone == bool(arguments.program):
        parser.error("either a program and the reference, or --alone and the reference")
    return arguments


def counted(counts):
    return ", ".join(f"{it} {count}" for it, count in sorted(counts.items(), key=lambda it: str(it[0])))


def main():
    arguments = read_arguments()
    all_statuses, all_kinds, different = collections.Counter(), collections.Counter(), 0
    with tempfile.TemporaryDirectory() as scratch, concurrent.futures.ThreadPoolExecutor(arguments.jobs) as pool:
        for number, statuses, kinds, wrong in pool.map(lambda it: tried(it, arguments, scratch), range(arguments.cases)):
            all_statuses.update(statuses)
            all_kinds.update(kinds)
            different += bool(wrong)
            for words, it in wrong:
                print(f"case {number} of seed {arguments.seed}, words {words}: {it}", flush=True)
    print(f"statuses: {counted(all_statuses)}")
    print(f"kinds: {counted(all_kinds)}")
    print(f"{arguments.cases} cases: {different} differ")
    return 1 if different else 0


if __name__ == "__main__":
    sys.exit(main())
