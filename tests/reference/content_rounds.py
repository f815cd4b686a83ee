"""Contents of restart files by chance, opened by the program and by the second reading."""
import collections
import os
import random
import tempfile

import dakota
from contents import content_of
from kill import Ran, run
from kill_rounds import STUDY, read, write
from restart import shape_of

RESTART = "x.rst"
WORDS = ["-i", STUDY, "-r", RESTART]
MOST_ENTRIES = 40


def lay(folder, study, content):
    """A folder with a study and a restart file and nothing else."""
    for name in os.listdir(folder):
        os.remove(os.path.join(folder, name))
    write(folder, STUDY, study.text)
    write(folder, RESTART, content)


def left_in(folder):
    """The files of a folder."""
    return {it: read(folder, it) for it in sorted(os.listdir(folder))}


def by_reference(folder):
    """What the second reading does in a folder."""
    home = os.getcwd()
    os.chdir(folder)
    try:
        said, status = dakota.run(WORDS)
    finally:
        os.chdir(home)
    return Ran(said.encode(), status)


def faults_of(ours, theirs, content):
    """What is wrong with a run and its files, beside those of the second reading."""
    (ran, files), (their_ran, their_files) = ours, theirs
    if ran != their_ran:
        yield f"status {ran.status}, {ran.said!r}, and {their_ran} by the reference"
    for name in sorted({*files, *their_files}):
        if files.get(name) != their_files.get(name):
            yield f"another file {name} than by the reference"
    if ran.status in (5, 6) and files.get(RESTART) != content:
        yield "a file that is refused has changed"


def kind_of(ran):
    if ran.status == 5:
        return ran.said.split()[3].decode()
    return {0: "finished", 1: "aborted"}.get(ran.status, f"status {ran.status}")


def opened_by_both(program, study, content, scratch):
    """What the program and the second reading do with a content, and which files they leave."""
    with tempfile.TemporaryDirectory(dir=scratch) as folder:
        lay(folder, study, content)
        ran = run(program, WORDS, folder)
        ours = ran, left_in(folder)
        lay(folder, study, content)
        return ours, (by_reference(folder), left_in(folder))


class ContentRounds:
    """All contents of a seed."""

    def __init__(self, program, studies, seed, scratch, keep):
        self.program, self.seed, self.scratch, self.keep = program, seed, scratch, keep
        self.studies = [it for it in studies if len(it.entries) <= MOST_ENTRIES]

    def __call__(self, number):
        """The kind of the answer, and what is wrong."""
        source = random.Random(f"{self.seed} content {number}")
        study = source.choice(self.studies)
        content, done = content_of(source, shape_of(study.parts), study.entries)
        ours, theirs = opened_by_both(self.program, study, content, self.scratch)
        wrong = [*faults_of(ours, theirs, content)]
        if wrong and self.keep:
            folder = os.path.join(self.keep, f"content-{number}")
            os.makedirs(folder, exist_ok=True)
            lay(folder, study, content)
        shown = content.hex() if len(content) < 200 else f"{len(content)} bytes"
        front = f"content {number} of seed {self.seed}, {' '.join(done)}, {shown}"
        return collections.Counter([kind_of(theirs[0])]), [f"{front}: {it}" for it in wrong]
