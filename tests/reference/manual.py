#!/usr/bin/env python3
"""Checks that the manual has an entry for each keyword and each refused word of the program's table, and the examples of
examples/, by the second reading and by the program: manual.py [PROGRAM].

Each example is accepted by `-check` with the line that stands here. Each ends with the table and the summary that stand
beside it, NAME.table and NAME.summary, which were written by the second reading, and well but for one that is aborted.
longer.in alone is run by resume.sh, which ends with the line that stands here.

The program leaves a restart file of the size that stands here, and a run that goes on with it ends alike, leaves it as it
is, and takes its values from it. What the manual says of copies, of a file that is cut and of its refusals is checked too.

Studies over a simulation are run by the program in a copy of their folder, and so are the commands over the examples that
README.md and the manual show, with what they print. Files that these show are those of examples/. How a simulation is started
and its two files are named, what results files come to, and how a run ends where an evaluation can't be made, is checked in
runs. examples/recipes/ is run by recipes.py.

PROGRAM is `dakota` of this project if left out, where that was built; else the second reading alone is checked. It is no
part of the gate.
"""
import os
import re
import subprocess
import sys
import tempfile

import child_calls
import child_files
import forked
import shown
from copies import EXAMPLES, ROOT, names_under, read, write

ACCEPTED = {
    "vector.in": (2, 1, 3),
    "list.in": (2, 1, 5),
    "centered.in": (2, 1, 7),
    "grid.in": (2, 1, 81),
    "final.in": (2, 1, 11),
    "recover.in": (2, 1, 4),
    "retry.in": (2, 1, 2),
    "compass.in": (2, 1, 1000),
    "longer.in": (2, 1, 10201),
}
# The bytes of the restart file of each example that is run.
RUN = {
    "vector.in": 27 + 3 * 60,
    "list.in": 22 + 4 * 60,
    "centered.in": 27 + 7 * 60,
    "grid.in": 34 + 81 * 60,
    "final.in": 27 + 11 * 60,
    "recover.in": 27 + 2 * 60 + 2 * 42,
    "retry.in": 27 + 60 + 3 * 42,
    "compass.in": 27 + 9 * 60,
}
ABORTED = {"retry.in"}
RESTART = "dakota.rst"
RESUMED = b"resumed: the table, the summary and the restart file are those of the run that nobody stopped"


def table():
    """Each word of the table of words as it is spelled, what it is, and for a keyword its block."""
    with open(os.path.join(ROOT, "crates/dk_grammar/specs/Table.antt"), encoding="utf-8") as it:
        source = it.read()
    for word in re.findall(r'opens block\.\w+ \(codes "(\w+)"\)', source):
        yield word, "Opens", ""
    for block, word in re.findall(r'keyword block\.(\w+) \(codes "(\w+)"\)', source):
        yield word, "Keyword", block.lower()
    for name, meaning in (("refused_table", "Refused"), ("mode_table", "Mode")):
        rows = re.search(rf"^{name} =(.*?)\[\]", source, re.M | re.S).group(1)
        for word in re.findall(r'codes "(\w+)"', rows):
            yield word, meaning, ""


def faults_of_manual():
    with open(os.path.join(ROOT, "docs/MANUAL.md"), encoding="utf-8") as it:
        manual = it.read()
    sections = {name: text for name, text in re.findall(r"^## (\w+)\n(.*?)(?=^## |\Z)", manual, re.S | re.M)}
    refused = re.search(r"^## Words of Dakota that are refused\n(.*?)(?=^## )", manual, re.S | re.M).group(1)
    for word, meaning, block in table():
        if meaning == "Keyword" and not re.search(rf"^\*\*`{word}`\*\*|, \*\*`{word}`\*\*", sections.get(block, ""), re.M):
            yield f"no entry for {word} of {block}"
        if meaning == "Opens" and word not in sections:
            yield f"no section for the block {word}"
        if meaning == "Refused" and f"`{word}`" not in refused:
            yield f"{word} isn't told as refused"
        if meaning == "Mode" and f"`{word}`" not in sections["method"]:
            yield f"{word} isn't told as a word of output"


def ran(program, *words, files=()):
    """The status of a command, what it prints, and the bytes of the files that stand in its folder then. It begins with
    these files in a folder of its own."""
    with tempfile.TemporaryDirectory() as folder:
        for name, content in dict(files).items():
            write(os.path.join(folder, name), content)
        done = subprocess.run([*program, *words], cwd=folder, stdin=subprocess.DEVNULL, stdout=subprocess.PIPE)
        return done.returncode, done.stdout, {it: read(os.path.join(folder, it)) for it in os.listdir(folder)}


def wanted_of(name):
    """What a run of an example is to do."""
    front = os.path.join(EXAMPLES, name.removesuffix(".in"))
    table = re.search(rb"""tabular_data_file = ['"](.*?)['"]""", read(f"{front}.in")).group(1).decode()
    return int(name in ABORTED), read(f"{front}.summary"), {table: read(f"{front}.table")}


def names_of_examples():
    """The files of examples/ and its folders that have a line here or in forked.py."""
    fronts = {it.removesuffix(".in") for it in RUN} | {*forked.RUN.values()}
    results = {it + end for it in fronts for end in (".table", ".summary")}
    return {"resume.sh", *ACCEPTED, *forked.ACCEPTED, *forked.OTHERS, *results}


def faults_of_files():
    wanted = names_of_examples()
    for name in sorted(wanted ^ {*names_under(EXAMPLES)}):
        yield f"examples/{name} isn't there" if name in wanted else f"examples/{name} has no line here"


def told_apart(command, told, wanted):
    """How what a command did differs from what it is to do: its status, what it prints, and its files."""
    for part, one, other in zip(("status", "standard output", "files"), told, wanted):
        if one != other:
            yield f"{command}: {part} {one}, and not {other}"


def faults_of_examples(program):
    """Of examples that are checked and run, by the second reading or by the program. Their restart files are left out."""
    for name, counts in {**ACCEPTED, **forked.ACCEPTED}.items():
        study = os.path.join(EXAMPLES, name)
        line = "study accepted: variables {}, responses {}, evaluations at most {}\n".format(*counts)
        yield from told_apart(f"{program} -check {name}", ran(program, "-check", "-i", study), (0, line.encode(), {}))
        if name in RUN:
            status, printed, files = ran(program, "-i", study)
            files.pop(RESTART, None)
            yield from told_apart(f"{program} {name}", (status, printed, files), wanted_of(name))


def faults_of_restarts(program):
    """Of the restart file that each example leaves, and of runs that go on with it."""
    for name, size in RUN.items():
        study = os.path.join(EXAMPLES, name)
        status, printed, files = ran(program, "-i", study)
        if len(files.get(RESTART, b"")) != size:
            yield f"{name}: the restart file has {len(files.get(RESTART, b''))} bytes, and not {size}"
            continue
        resumed = ran(program, "-i", study, "-r", RESTART, files={RESTART: files[RESTART]})
        yield from told_apart(f"{name} with -r", resumed, (status, printed, files))
        again = ran(program, "-i", study, files=files)
        yield from told_apart(f"{name} again", again, (status, printed, {**files, f"{RESTART}.old": files[RESTART]}))


def faults_of_changed_files(program):
    """Of runs of vector.in with restart files that are changed, cut, mended, or none of its own."""
    study = os.path.join(EXAMPLES, "vector.in")
    whole = ran(program, "-i", study)[2][RESTART]
    other = ran(program, "-i", os.path.join(EXAMPLES, "grid.in"))[2][RESTART]
    table = read(os.path.join(EXAMPLES, "vector.table"))
    # The value 1 of the first record, as 3.
    changed = whole[:68] + b"\3" + whole[69:]
    cases = [
        ("with another value", changed, changed, 0, table.replace(b" 0 0 1\n", b" 0 0 3\n")),
        ("empty", b"", whole, 0, table),
        ("with a zero byte at its front", b"\0" + 10 * b"\xff", whole, 0, table),
        ("cut to its first record, and mended", whole[:86] + b"\0", whole, 0, table),
        ("cut", whole[:100], b"Damaged (offset 86)", 5, None),
        ("without its end", whole[:206], b"Damaged (offset 206)", 5, None),
        ("cut in its labels", whole[:20], b"NotARestart", 5, None),
        ("of another study", other, b"OtherShape", 5, None),
        ("not there", None, b"dakota: restart file failed\n", 6, None),
    ]
    for what, before, after, status, left in cases:
        files = {} if before is None else {RESTART: before}
        told, printed, made = ran(program, "-i", study, "-r", RESTART, files=files)
        if status == 0:
            yield from told_apart(f"a restart file {what}", (told, made), (status, {RESTART: after, "t.dat": left}))
        else:
            line = after if status == 6 else b"dakota: restart refused: " + after + b"\n"
            if (told, printed) != (status, line) or made != files:
                yield f"a restart file {what}: status {told}, {printed}, or its files aren't as they were"


def faults_of_script(program):
    """Of the script that stops a run and goes on with it."""
    script = os.path.join(EXAMPLES, "resume.sh")
    done = subprocess.run([script, *program], stdin=subprocess.DEVNULL, stdout=subprocess.PIPE, stderr=subprocess.STDOUT)
    if done.returncode != 0 or done.stdout.splitlines()[-1:] != [RESUMED]:
        yield f"resume.sh: status {done.returncode}, {done.stdout.decode(errors='replace')}"


def programs():
    """The commands that are checked: the second reading, and the program where it is there."""
    yield [sys.executable, "-S", os.path.join(ROOT, "tests/reference/dakota.py")]
    if len(sys.argv) > 1:
        yield [os.path.abspath(sys.argv[1])]
    elif os.path.exists(os.path.join(ROOT, "crates/dakota/out/dakota")):
        yield [os.path.join(ROOT, "dakota")]


# What is checked of the program alone.
OF_PROGRAM = (
    faults_of_restarts,
    faults_of_changed_files,
    faults_of_script,
    forked.faults_of_runs,
    child_calls.faults_of_start,
    child_calls.faults_of_steps,
    child_calls.faults_of_way_on,
    child_files.faults_of_names,
    child_files.faults_of_results,
    shown.faults_of_sessions,
)


def main():
    commands = [*programs()]
    faults = [*faults_of_manual(), *faults_of_files(), *shown.faults_of_shown_files()]
    if not faults:
        faults = [fault for it in commands for fault in faults_of_examples(it)]
        for check in OF_PROGRAM:
            faults += [fault for it in commands[1:] for fault in check(it)]
    for fault in faults:
        print(f"manual: {fault}")
    by = "by the program and the second reading" if len(commands) > 1 else "by the second reading alone"
    examples, commands = len({**ACCEPTED, **forked.ACCEPTED}), sum(len(it) for _, it in shown.sessions())
    counts = f"{len([*table()])} words, {examples} examples, {len(shown.shown_files())} files and {commands} commands shown"
    print(f"manual: {counts}, {by}, {len(faults)} faults")
    return 1 if faults else 0


if __name__ == "__main__":
    sys.exit(main())
