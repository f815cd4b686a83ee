"""The two files of an evaluation by a simulation, in runs: their names, what the parameters file says, and what results
files come to."""
import os
import re

from copies import EXAMPLES, copied, done, files_in, read, write, write_script
from parameters import Parameters, parameters_text
from results_texts import FAILURES, VALUES

FOLDER = "examples/first"
STUDY = "first/beam.in"
# What a run leaves besides.
OTHERS = {"dakota.rst", "beam.dat"}
# The last evaluation of the study.
ROWS, LAST = 6, Parameters(["width"], [(8, 1)], ["deflection"], 6)
# The names of an evaluation's files, with and without its number.
PLAIN, TAGGED = "{0}", "{0}.{1}"
# Words of an interface, the names that are left, if any, and the form of the parameters files.
NAMED = [
    ("file_save", PLAIN, "standard"),
    ("file_save file_tag", TAGGED, "standard"),
    ("file_save asynchronous evaluation_concurrency = 1", PLAIN, "standard"),
    ("file_save asynchronous evaluation_concurrency = 2", TAGGED, "standard"),
    ("file_save asynchronous", TAGGED, "standard"),
    ("file_save file_tag aprepro", TAGGED, "aprepro"),
    ("file_save parameters_file = 'in put' results_file = 'out-put'", PLAIN, "standard"),
    ("file_tag", None, "standard"),
    ("asynchronous", None, "standard"),
]
RECOVERED = "-77"


def bases_of(words):
    """The names of the two files without an evaluation's number."""
    found = [re.search(rf"{it} = '(.*?)'", words) for it in ("parameters_file", "results_file")]
    return [it[1] if it else default for it, default in zip(found, ("params.in", "results.out"))]


def left_by(program, words):
    """A run of the study with these words behind `fork`, by a simulation that always has a value; and what it leaves."""
    study = read(os.path.join(EXAMPLES, STUDY)).replace(b"    fork\n", f"    fork {words}\n".encode())
    with copied(program) as top:
        write(os.path.join(top, FOLDER, "named.in"), study)
        write_script(os.path.join(top, FOLDER, "beam.sh"), '#!/bin/sh\necho 1 >"$2"\n')
        before = {*files_in(top, FOLDER)}
        run = done(top, FOLDER, ["dakota", "-i", "named.in"])
        return run, {name: it for name, it in files_in(top, FOLDER).items() if name not in before | OTHERS}


def faults_of_names(program):
    for words, form, written in NAMED:
        run, left = left_by(program, words)
        bases = bases_of(words)
        wanted = {form.format(base, row) for base in bases for row in range(1, ROWS + 1)} if form else set()
        if run.returncode or {*left} != wanted:
            yield f"fork {words}: status {run.returncode}, {run.stdout}, it leaves {sorted(left)}, and not {sorted(wanted)}"
        elif form and left[form.format(bases[0], ROWS)] != parameters_text(LAST, written):
            yield f"fork {words}: the last parameters file is another one"


def copying_study(count, size):
    """A study of so many points, whose driver copies a results file for each that has one."""
    return f"""environment tabular_data tabular_data_file = 'copied.dat'
method list_parameter_study list_of_points = {" ".join(map(str, range(1, size + 1)))}
variables continuous_design = 1
interface analysis_drivers = './copy.sh' fork file_tag failure_capture recover = {count}*{RECOVERED}
responses response_functions = {count}
"""


def outcomes(program, count, texts):
    """The values in the table for each results file, where attempts that failed are recovered."""
    with copied(program) as top:
        for row, text in enumerate(texts, 1):
            if text is not None:
                write(os.path.join(top, f"case.{row}"), text)
        write_script(os.path.join(top, "copy.sh"), '#!/bin/sh\n[ ! -e "case.${2##*.}" ] || cp "case.${2##*.}" "$2"\n')
        write(os.path.join(top, "copied.in"), copying_study(count, len(texts)).encode())
        run = done(top, ".", ["dakota", "-i", "copied.in"])
        if run.returncode:
            return [run.stdout] * len(texts)
        return [line.split()[3:] for line in read(os.path.join(top, "copied.dat")).decode().splitlines()[1:]]


def faults_of_results(program):
    for count in (1, 2, 3):
        cases = [(text, wanted.split()) for text, wanted in VALUES if len(wanted.split()) == count]
        cases += [(text, count * [RECOVERED]) for text, responses in FAILURES if responses == count]
        for (text, wanted), found in zip(cases, outcomes(program, count, [text for text, _ in cases])):
            if found != wanted:
                yield f"the results file {text and text[:60]!r} of {count} comes to {found}, and not {wanted}"
