"""A copy of examples/ in a temporary folder, in which a program runs as a reader runs it."""
import contextlib
import os
import shlex
import shutil
import subprocess
import tempfile

ROOT = os.path.dirname(os.path.dirname(os.path.dirname(os.path.abspath(__file__))))
EXAMPLES = os.path.join(ROOT, "examples")
# What a reader's own runs have left in the examples' folders.
LEFT = shutil.ignore_patterns("*.dat", "*.rst", "*.rst.old*")
# The longest that a command may take, in seconds.
LONGEST = 120


def read(path):
    with open(path, "rb") as it:
        return it.read()


def write(path, content):
    with open(path, "wb") as it:
        it.write(content)


def write_script(path, text):
    write(path, text.encode())
    os.chmod(path, 0o755)


def names_under(folder):
    """The files of a folder and its folders, by their paths from it, but for what runs have left."""
    for where, _, names in os.walk(folder):
        for name in {*names} - LEFT(where, names):
            yield os.path.relpath(os.path.join(where, name), folder)


@contextlib.contextmanager
def copied(program):
    """A folder that has the examples, the crates, and the program, a list of words, as `dakota`."""
    with tempfile.TemporaryDirectory() as top:
        shutil.copytree(EXAMPLES, os.path.join(top, "examples"), ignore=LEFT)
        os.symlink(os.path.join(ROOT, "crates"), os.path.join(top, "crates"))
        write_script(os.path.join(top, "dakota"), f'#!/bin/sh\nexec {shlex.join(program)} "$@"\n')
        yield top


def done(top, folder, words, *paths, **more):
    """A command that was run in a folder of a copy, with the copy's top and these folders at the front of its path."""
    path = os.pathsep.join([top, *paths, os.environ["PATH"]])
    environment, where = {**os.environ, "PATH": path, **more}, os.path.join(top, folder)
    return subprocess.run(
        words, cwd=where, env=environment, stdin=subprocess.DEVNULL, capture_output=True, timeout=LONGEST
    )


def files_in(top, folder):
    """The bytes of each file of a folder."""
    where = os.path.join(top, folder)
    return {name: read(os.path.join(where, name)) for name in os.listdir(where)}
