"""The studies of examples/ whose points are evaluated by a simulation: what a run prints, writes, keeps and leaves."""
import os
import re

from copies import EXAMPLES, copied, done, files_in, read
from decimals import number_of, text_of
from parameters import Parameters, parameters_text
from restart import Entry, RestartRefused, file_bytes, judge, shape_of
from study import read_study

RESTART = "dakota.rst"
# Each study, with the variables, the responses and the evaluations that it is accepted with.
ACCEPTED = {
    "first/beam.in": (1, 1, 6),
    "first/saved.in": (1, 1, 6),
    "first/wide.in": (1, 1, 5),
    "flaky/flaky.in": (1, 1, 6),
    "drivers/rosenbrock.in": (2, 1, 3),
    "recipes/srun.in": (1, 1, 6),
    "recipes/sbatch.in": (1, 1, 6),
}
# Those that are run here, with the front of the names of their table and summary. The recipes have a script of their own.
RUN = {
    "first/beam.in": "first/beam",
    "first/saved.in": "first/beam",
    "first/wide.in": "first/wide",
    "flaky/flaky.in": "first/beam",
    "drivers/rosenbrock.in": "vector",
}
# The files of their folders that are neither a study, a table nor a summary.
OTHERS = {
    "first/beam.sh",
    "flaky/flaky.sh",
    "drivers/rosenbrock.py",
    "drivers/rosenbrock.sh",
    "recipes/beam.gp",
    "recipes/beam.svg",
    "recipes/beam.py",
    "recipes/beam.R",
}
# The attempt that ends a study.
FAILED = {"first/wide.in": [Entry(((1, 2),), 1, None)]}
# Whose attempts fail by chance.
CHANCE = {"flaky/flaky.in"}
# Whose evaluations leave their files.
SAVED = {"first/saved.in"}


def rows_of(front):
    """The numbers of each row of the table of an example."""
    lines = read(os.path.join(EXAMPLES, f"{front}.table")).splitlines()[1:]
    return [tuple(map(number_of, line.split()[2:])) for line in lines]


def kept_entries(name, content):
    """The entries of a restart file, those of chance left out, and those that are wanted."""
    study = read_study(read(os.path.join(EXAMPLES, name)))
    count = len(study.variables.labels)
    wanted = [Entry(row[:count], 1, row[count:]) for row in rows_of(RUN[name])] + FAILED.get(name, [])
    try:
        entries = judge(content, shape_of(study))[0].entries
    except RestartRefused as refused:
        return refused, wanted
    if name in CHANCE:
        return [it._replace(attempt=1) for it in entries if it.said], wanted
    return file_bytes(shape_of(study), entries) == content and entries, wanted


def table_name(name):
    """The name of a study's table, where it has one."""
    found = re.search(rb"tabular_data_file = '(.*?)'", read(os.path.join(EXAMPLES, name)))
    return found and found[1].decode()


def left_files(name):
    """The table of a run, and the files of its evaluations where these are saved."""
    files = {}
    if table_name(name):
        files[table_name(name)] = read(os.path.join(EXAMPLES, f"{RUN[name]}.table"))
    if name in SAVED:
        for row, (width, deflection) in enumerate(rows_of(RUN[name]), 1):
            files[f"point.{row}"] = parameters_text(Parameters(["width"], [width], ["deflection"], row), "standard")
            files[f"value.{row}"] = f"{text_of(deflection)} deflection\n".encode()
    return files


def told(run):
    return run.returncode, run.stdout


def faults_of_first_run(name, folder, top, before, wanted):
    """Of a run of an example in a copy that has these files before."""
    run = done(top, folder, ["dakota", "-i", os.path.basename(name)])
    files = files_in(top, folder)
    entries, kept = kept_entries(name, files.pop(RESTART, b""))
    if told(run) != wanted:
        yield f"{name}: {told(run)}, {run.stderr}, and not {wanted}"
    if files != {**before, **left_files(name)}:
        yield f"{name}: it leaves {sorted(files)} or other bytes, and not {sorted({**before, **left_files(name)})}"
    if entries != kept:
        yield f"{name}: the restart file has {entries}, and not {kept}"


def faults_of_run(program, name):
    """Of a run of an example, and of one that goes on with its restart file and has no driver any more."""
    folder = os.path.join("examples", os.path.dirname(name))
    wanted = int(name in FAILED), read(os.path.join(EXAMPLES, f"{RUN[name]}.summary"))
    with copied(program) as top:
        before = files_in(top, folder)
        yield from faults_of_first_run(name, folder, top, before, wanted)
        for driver in (it for it in before if it.endswith((".sh", ".py"))):
            os.remove(os.path.join(top, folder, driver))
        files = files_in(top, folder)
        again = done(top, folder, ["dakota", "-i", os.path.basename(name), "-r", RESTART])
        if told(again) != wanted or files_in(top, folder) != files:
            yield f"{name} with -r: {told(again)}, or its files aren't as they were"


def faults_of_runs(program):
    for name in RUN:
        yield from faults_of_run(program, name)
