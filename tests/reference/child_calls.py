"""How a run starts a simulation: what this is given, where its output goes, and the line and status where an evaluation
can't be made."""
import os

from copies import EXAMPLES, copied, done, files_in, read, write, write_script

FOLDER = "examples/first"
STUDY = read(os.path.join(EXAMPLES, "first/beam.in"))
RESTART = "dakota.rst"
# The bytes of a restart file of this study without a record, and those of a record.
EMPTY, RECORD = 31, 42

# Notes what it is given, prints, leaves a value, and ends in another way each time.
NOTING = """#!/bin/sh
printf '%s|' "$@" "$PWD" "$NOTED" "$(cat)" >>noted
echo printed
echo printed >&2
echo 1 >"$4"
[ "$(wc -c <noted)" -lt 200 ] || kill -KILL $$
exit 1
"""
VALUE = '#!/bin/sh\necho 1 >"$2"\n'
# What is done before a run, by a shell, its driver, further words of its interface, and the step that fails.
FAILING = [
    ("mkdir results.out", VALUE, "", "clear"),
    ("mkdir params.in", VALUE, "", "lay"),
    (":", VALUE, "parameters_file = 'none/point'", "lay"),
    ("rm beam.sh", VALUE, "", "run"),
    ("chmod -x beam.sh", VALUE, "", "run"),
    (":", "#!/none\n", "", "run"),
    (":", '#!/bin/sh\nmkdir "$2"\n', "", "fetch"),
    (":", '#!/bin/sh\necho 1 >"$2"\nrm "$1"\nmkdir "$1"\n', "", "clear after"),
]


def lay(top, driver, words, more=""):
    """Puts a driver in the place of the example's, and writes a study with further words of its interface."""
    write_script(os.path.join(top, FOLDER, "beam.sh"), driver)
    study = STUDY.replace(b"./beam.sh", f"./beam.sh{more}".encode()).replace(b"fork\n", f"fork {words}\n".encode())
    write(os.path.join(top, FOLDER, "changed.in"), study)


def faults_of_start(program):
    """Of the words, the folder, the environment and the standard input of a driver, and of what it prints."""
    with copied(program) as top:
        lay(top, NOTING, "", "  a   $b$ ")
        run = done(top, FOLDER, ["dakota", "-i", "changed.in"], NOTED="an environment")
        noted = files_in(top, FOLDER).get("noted", b"").decode()
        where = os.path.join(os.path.realpath(top), FOLDER)
    wanted = f"a|$b$|params.in|results.out|{where}|an environment||"
    if noted != 6 * wanted:
        yield f"a driver is given {noted!r}, and not {6 * wanted!r}"
    if run.returncode or b"printed" in run.stdout or run.stderr != 12 * b"printed\n":
        yield f"a driver prints to standard output {run.stdout}, and to standard error {run.stderr}; status {run.returncode}"


def faults_of_steps(program):
    """Of evaluations that can't be made, under `recover`."""
    for prepare, driver, words, step in FAILING:
        with copied(program) as top:
            lay(top, driver, f"{words} failure_capture recover = 5")
            done(top, FOLDER, ["sh", "-c", prepare])
            run = done(top, FOLDER, ["dakota", "-i", "changed.in"])
            kept = len(read(os.path.join(top, FOLDER, RESTART)))
            has_table = os.path.exists(os.path.join(top, FOLDER, "beam.dat"))
        line = f"dakota: bench 0 failed at {step}\n".encode()
        if (run.returncode, run.stdout, run.stderr, kept, has_table) != (8, line, b"", EMPTY, False):
            yield f"{prepare}, {driver!r}, {words}: {run.returncode}, {run.stdout}, {run.stderr}, {kept}, and not {line}"


def faults_of_way_on(program):
    """Of a run whose driver is gone after two evaluations, and of one that goes on when it is back."""
    with copied(program) as top:
        lay(top, '#!/bin/sh\necho 1 >"$2"\necho >>calls\n[ "$(wc -l <calls)" -lt 2 ] || rm beam.sh\n', "")
        first = done(top, FOLDER, ["dakota", "-i", "changed.in"])
        kept = len(read(os.path.join(top, FOLDER, RESTART)))
        lay(top, '#!/bin/sh\necho 2 >"$2"\necho >>calls\n', "")
        second = done(top, FOLDER, ["dakota", "-i", "changed.in", "-r", RESTART])
        files = files_in(top, FOLDER)
    values = [line.split()[-1] for line in files.get("beam.dat", b"").splitlines()[1:]]
    found = (first.returncode, kept, second.returncode, values, len(files["calls"]))
    wanted = (8, EMPTY + 2 * RECORD, 0, 2 * [b"1"] + 4 * [b"2"], 6)
    if found != wanted or {"params.in", "results.out"} & {*files}:
        yield f"a driver that goes and comes: {found}, and not {wanted}, or files of an evaluation are left"
