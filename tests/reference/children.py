"""An attempt with a child: the names and bytes of its two files, its start, and what it leaves."""
import os
import subprocess

from parameters import Parameters, parameters_text
from restart_file import is_same_file
from results import MOST_BYTES, read_results


class BenchFailed(Exception):
    """The bench failed at this step of an attempt."""


def names_of(interface, row):
    """The names of a row's parameters file and results file."""
    is_tagged = "file_tag" in interface.options or interface.concurrency > 1
    end = b".%d" % row if is_tagged else b""
    return interface.parameters_file + end, interface.results_file + end


def text_of_row(study, row, point):
    """The bytes of a row's parameters file."""
    parameters = Parameters(study.variables.labels, point, study.responses.labels, row)
    return parameters_text(parameters, "aprepro" if "aprepro" in study.interface.options else "standard")


def refuse(name, kept):
    """Fails for a name that leads to one of the files that are kept."""
    if any(is_same_file(it, name) for it in kept):
        raise OSError("the file is kept")


def clear(name, kept=()):
    refuse(name, kept)
    try:
        os.remove(name)
    except FileNotFoundError:
        pass


def lay(name, text, kept):
    clear(name, kept)
    with open(name, "xb") as it:
        it.write(text)


def start(driver, names):
    """Starts the driver's words with the names behind them, and waits for its end."""
    subprocess.run([*driver.split(), *names], stdin=subprocess.DEVNULL, stdout=2, check=False)


def fetch(name):
    """A front of a file, one byte longer than results may be, or none where there is no file."""
    try:
        with open(name, "rb") as it:
            return it.read(MOST_BYTES + 1)
    except FileNotFoundError:
        return None


def do(step, call, *arguments):
    """Makes one call of the bench."""
    try:
        return call(*arguments)
    except OSError:
        raise BenchFailed(step) from None


def attempt_by_child(study, row, point, kept=()):
    """What a child says of a row's point: its values, or none where it failed. Files that are kept are none of its two."""
    interface, (parameters, results) = study.interface, names_of(study.interface, row)
    do("clear", clear, results, kept)
    do("lay", lay, parameters, text_of_row(study, row, point), kept)
    do("run", start, interface.driver, (parameters, results))
    content = do("fetch", fetch, results)
    if "file_save" not in interface.options:
        for name in (results, parameters):
            do("clear after", clear, name)
    values = read_results(content, len(study.responses.labels))
    return None if values is None else tuple(values)
