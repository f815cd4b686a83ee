#!/usr/bin/env python3
"""A second reading of the rules, for comparison with the proved program: the same command line, restart file, children, table
and summary."""
import collections
import functools
import itertools
import os
import sys

from children import BenchFailed, attempt_by_child
from decimals import decimal_of, is_less, rosenbrock, text_of
from restart import Entry, Full, RestartRefused, shape_of
from restart_file import FileJournal, is_same_file, older_files, opened
from search import searched
from study import TEXT_LIMIT, Refused, read_study

# The points of a study, each as a list of whole numbers of its unit


def quotient(a, b):
    """a / b rounded to the nearest whole number, ties away from zero; b is above zero."""
    whole, rest = divmod(abs(a), b)
    if 2 * rest >= b:
        whole += 1
    return -whole if a < 0 else whole


def between(first, last, part, parts):
    """The number that lies `part` of so many parts behind the first one, on the way to the last."""
    return first + quotient(part * (last - first), parts)


def points_by_step(initial, step, num_steps):
    for i in range(num_steps + 1):
        yield [it + i * by for it, by in zip(initial, step)]


def points_to_final(initial, final, num_steps):
    yield initial
    for i in range(1, num_steps + 1):
        yield [between(*ends, i, num_steps) for ends in zip(initial, final)]


def listed_points(numbers, n):
    for place in range(0, len(numbers), n):
        yield numbers[place : place + n]


def centered_points(center, step, counts):
    yield center
    for j, count in enumerate(counts):
        for o in [*range(-count, 0), *range(1, count + 1)]:
            yield [*center[:j], center[j] + o * step[j], *center[j + 1 :]]


def grid_points(lower, upper, partitions):
    # In a product the last one varies fastest, so it is taken backwards.
    axes = [[between(low, high, k, p) for k in range(p + 1)] for low, high, p in zip(lower, upper, partitions)]
    for backwards in itertools.product(*reversed(axes)):
        yield [*reversed(backwards)]


def points_of(study):
    """Those of a study whose points are known from the beginning."""
    (name, values), (_, initial, lower, upper) = study.method, study.variables
    if name == "list_parameter_study":
        return listed_points(values["list_of_points"], len(initial))
    if name == "centered_parameter_study":
        return centered_points(initial, values["step_vector"], values["steps_per_variable"])
    if name == "multidim_parameter_study":
        return grid_points(lower, upper, values["partitions"])
    if "final_point" in values:
        return points_to_final(initial, values["final_point"], values["num_steps"])
    return points_by_step(initial, values["step_vector"], values["num_steps"])


def at_once(points):
    """Points that are one batch. Their values don't matter."""
    yield [*points]
    return "complete"


def batches_of(study):
    """The points of a study in batches, each of which is to be answered with the first values of its points; in the end comes
    the word for why it finished."""
    if study.method.name == "compass_search":
        return searched(study.variables, study.method)
    return at_once(points_of(study))


# A run

# How a study ended: why it finished, or how many attempts the point had that has no values.
Ending = collections.namedtuple("Ending", "why attempts", defaults=(None, None))


def attempt_of(study, row, point, attempt, kept=()):
    """What an attempt says of a row's point: its values, or none where it failed. Nobody is told its number. No child's file
    takes the place of one that is kept."""
    if not study.interface.is_direct:
        return attempt_by_child(study, row, point, kept)
    value = rosenbrock(*point)
    return None if value is None else (value,)


def under_rule(rule, given, say):
    """The values of a point under a rule for failures, or none; and how many attempts were looked at, each of which says
    its values or none."""
    most = 1 + given if rule == "retry" else 1
    for attempt in range(1, most + 1):
        said = say(attempt)
        if said is not None:
            return said, attempt
    return tuple(given) if rule == "recover" else None, most


class Run:
    """The rows of a study so far, each a point and its values. An attempt is made, and appended to the journal, where that doesn't
    have it."""

    def __init__(self, study, journal, make):
        self.study, self.journal, self.make, self.rows = study, journal, make, []

    def said(self, point, attempt):
        """What an attempt says of the point of the next row."""
        said = self.journal.book.said
        if attempt > len(said.get(point, [])):
            self.journal.append(Entry(point, attempt, self.make(self.study, len(self.rows) + 1, point, attempt)))
        return said[point][attempt - 1]

    def evaluated(self, batch):
        """Adds a row for each point, up to the first one without values; how many attempts this one had, or none."""
        for units in batch:
            point = tuple(decimal_of(it, self.study.unit) for it in units)
            values, attempts = under_rule(*self.study.interface.rule, functools.partial(self.said, point))
            if values is None:
                return attempts
            self.rows.append((*point, *values))
        return None

    def end(self):
        """Evaluates batch after batch, and tells how that ended."""
        batches, first, answers = batches_of(self.study), len(self.study.variables.labels), None
        while True:
            try:
                batch = batches.send(answers)
            except StopIteration as finished:
                return Ending(why=finished.value)
            attempts = self.evaluated(batch)
            if attempts is not None:
                return Ending(attempts=attempts)
            answers = [row[first] for row in self.rows[-len(batch) :]]


def evaluate(study, journal, make=attempt_of):
    """The rows up to the first point without values, and how the study ended."""
    run = Run(study, journal, make)
    ending = run.end()
    return run.rows, ending


def table(study, rows):
    lines = [" ".join(["%eval_id interface", *study.variables.labels, *study.responses.labels])]
    lines += [" ".join([str(at), "NO_ID", *map(text_of, row)]) for at, row in enumerate(rows, 1)]
    return "".join(f"{it}\n" for it in lines)


def best_lines(study, rows):
    """The lines of the best row, where there is one."""
    labels = study.variables.labels + study.responses.labels
    if not rows or not study.responses.are_objectives or len(study.responses.labels) > 1:
        return []
    best = 0
    for at, row in enumerate(rows):
        if is_less(row[-1], rows[best][-1]):
            best = at
    *parameters, value = [f"{label} = {text_of(it)}" for label, it in zip(labels, rows[best])]
    return [
        f"Best evaluation: {best + 1}",
        f"Best parameters: {', '.join(parameters)}",
        f"Best objective function: {value}",
    ]


def summary(study, rows, ending):
    why, attempts = ending
    ended = f"finished: {why}" if why else f"aborted: evaluation {len(rows) + 1} failed, attempts {attempts}"
    fresh = len({row[: len(study.variables.labels)] for row in rows})
    lines = [
        f"Study {ended}",
        f"Function evaluation summary: {len(rows)} total ({fresh} new, {len(rows) - fresh} duplicate)",
        *best_lines(study, rows),
    ]
    return "".join(f"<<<<< {it}\n" for it in lines)


# The command line


class Misused(Exception):
    """The words are wrong at this place, counted from 1."""

    def __init__(self, place):
        super().__init__(place)
        self.place = place


OPTIONS = {
    "-i": "input",
    "-input": "input",
    "-r": "read",
    "-read_restart": "read",
    "-w": "write",
    "-write_restart": "write",
    "-check": "check",
}

# Of these only one may stand.
APART = {"read", "write", "check"}


def read_words(words):
    """The files by their options, and whether the study is only checked."""
    try:
        words = [os.fsencode(it).decode() for it in words]
    except UnicodeDecodeError:
        raise Misused(1) from None
    files, found, rest = {}, set(), list(enumerate(words, 1))
    while rest:
        place, word = rest.pop(0)
        option = OPTIONS.get(word)
        if option is None or option in found or (option in APART and APART & found):
            raise Misused(place)
        found.add(option)
        if option == "check":
            continue
        if not rest:
            raise Misused(place + 1)
        place, files[option] = rest.pop(0)
        if not files[option] or files[option].startswith("-"):
            raise Misused(place)
    if "input" not in files:
        raise Misused(len(words) + 1)
    return files, "check" in found


def refusal(kind, start=0, end=0):
    return f"dakota: study refused: {kind} at bytes {start}..{end}\n", 3


def write_table(name, others, text):
    """Writes the table's file, but not in the place of one of the others."""
    if any(is_same_file(it, name) for it in others):
        raise OSError("the table's file is another's")
    with open(name, "wb") as it:
        it.write(text.encode())


def read_text(name):
    """The study of a file, or the line of what is wrong with it and the status."""
    try:
        with open(name, "rb") as it:
            return read_study(it.read(TEXT_LIMIT + 1)), None
    except (OSError, ValueError):
        return None, ("dakota: study not readable\n", 4)
    except Refused as refused:
        return None, refusal(*refused.fault)


def run_study(study, name, restart, is_fresh):
    """Evaluates a study over its restart file, and writes its table."""
    try:
        with opened(restart, is_fresh, name) as file:
            make = functools.partial(attempt_of, kept=(name, restart, *older_files(restart)))
            rows, ending = evaluate(study, FileJournal(file, shape_of(study), is_fresh), make)
    except RestartRefused as refused:
        return f"dakota: restart refused: {refused}\n", 5
    except OSError:
        return "dakota: restart file failed\n", 6
    except Full as full:
        return f"dakota: restart file full (length {full})\n", 7
    except BenchFailed as step:
        return f"dakota: bench 0 failed at {step}\n", 8
    try:
        if study.table is not None:
            write_table(study.table.decode(), (name, restart, *older_files(restart)), table(study, rows))
    except OSError:
        return "dakota: table not written\n", 9
    return summary(study, rows, ending), 0 if ending.why else 1


def run(words):
    """The text for standard output, and the exit status."""
    try:
        files, is_check = read_words(words)
    except Misused as fault:
        return f"dakota: usage: word {fault.place}\n", 2
    study, refused = read_text(files["input"])
    if refused:
        return refused
    if is_check:
        counts = len(study.variables.labels), len(study.responses.labels), study.limit
        return "study accepted: variables {}, responses {}, evaluations at most {}\n".format(*counts), 0
    restart = files.get("read") or files.get("write", "dakota.rst")
    return run_study(study, files["input"], restart, "read" not in files)


def main():
    said, status = run(sys.argv[1:])
    sys.stdout.buffer.write(said.encode())
    sys.stdout.flush()
    return status


if __name__ == "__main__":
    sys.exit(main())
