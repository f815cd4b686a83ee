"""Rounds in which a run is killed up to five times, resumed each time, and compared with a run that wasn't interrupted."""
import collections
import os
import random
import shutil
import tempfile
import time

import dakota
from kill import Traced, killed_after, killed_at_stop, run, stops_of
from restart import CLOSED, RestartRefused, file_bytes, header_bytes, judge, record_bytes, shape_of

STUDY, TABLE, RESTART, OLDER = "s.in", "t.dat", "dakota.rst", ".old"
MOST_KILLS = 5
KILLED = -9

# What a run that isn't interrupted does: its end, its table, its restart file, what else is in its folder then, and how many
# seconds it takes. If it is traced, the stops up to the restart file, and to the end; the stops of a run that finds all
# attempts made; and whether all these runs end alike.
Whole = collections.namedtuple("Whole", "ran table content others seconds first_stops stops resumed_stops are_alike")


def read(folder, name):
    """The bytes of a file, or none where it isn't there."""
    try:
        with open(os.path.join(folder, name), "rb") as it:
            return it.read()
    except FileNotFoundError:
        return None


def write(folder, name, content):
    with open(os.path.join(folder, name), "wb") as it:
        it.write(content)


def others_in(folder, names):
    """What stands in a folder beside files of these names: the bytes of the files, and none for a folder."""
    others = {*os.listdir(folder)} - {*names}
    return {it: None if os.path.isdir(os.path.join(folder, it)) else read(folder, it) for it in others}


def lay(folder, study):
    """Makes a study's file, and those that stand beside it."""
    for name, content in {STUDY: study.text, **study.beside}.items():
        os.makedirs(os.path.dirname(os.path.join(folder, name)), exist_ok=True)
        write(folder, name, content)


def traced_from_file(program, words, folder, name):
    """How many stops a command has up to the one at which it has made a file, how many it has, and what it does."""
    traced = Traced(program, words, folder)
    while traced.go(1) and read(folder, name) is None:
        pass
    first = traced.stops
    if traced.is_there():
        traced.go()
    return first, traced.stops, traced.end()


def whole_of(program, study, folder, traces):
    """What the program does with a study in an empty folder."""
    lay(folder, study)
    start = time.monotonic()
    ran = run(program, ["-i", STUDY], folder)
    seconds = time.monotonic() - start
    table, content, others = read(folder, TABLE), read(folder, RESTART), others_in(folder, (STUDY, TABLE, RESTART))
    if not traces:
        return Whole(ran, table, content, others, seconds, 0, 0, 0, True)
    resumed_stops, again = stops_of(program, ["-i", STUDY, "-r", RESTART], folder)
    are_kept = read(folder, RESTART) == content
    os.rename(os.path.join(folder, RESTART), os.path.join(folder, "kept"))
    lay(folder, study)
    first_stops, stops, anew = traced_from_file(program, ["-i", STUDY], folder, RESTART)
    are_alike = ran == again == anew and are_kept and (read(folder, RESTART), read(folder, TABLE)) == (content, table)
    return Whole(ran, table, content, others, seconds, first_stops, stops, resumed_stops, are_alike)


def faults_of_whole(study, whole):
    """What is wrong with a run that isn't interrupted."""
    if whole.ran.status != (0 if study.ending.why else 1):
        yield f"status {whole.ran.status}, {whole.ran.said!r}"
    if whole.ran.said != dakota.summary(study.parts, study.rows, study.ending).encode():
        yield f"standard output {whole.ran.said!r}"
    if whole.table != (None if study.parts.table is None else dakota.table(study.parts, study.rows).encode()):
        yield "another table than by the second reading"
    if whole.content != file_bytes(shape_of(study.parts), study.entries):
        yield "the restart file isn't that of the study's attempts"
    if not whole.are_alike:
        yield "three runs aren't alike"


def is_front_with_tail(content, shape, entries, count):
    """Whether a file has so many of these entries, and else nothing but a front of what is written next."""
    if not content:
        return count == 0
    if content[:1] == CLOSED:
        kept, following = CLOSED, header_bytes(shape) + CLOSED
    else:
        kept = file_bytes(shape, entries[:count])
        following = record_bytes(entries[count]) + CLOSED if count < len(entries) else b""
    return content.startswith(kept) and following.startswith(content[len(kept) :])


class Round:
    """A folder with a study, and perhaps an older file at the name of its restart file."""

    kind = "kill"

    def __init__(self, rounds, number):
        self.rounds, self.random = rounds, random.Random(f"{rounds.seed} {self.kind} {number}")
        at = number % len(rounds.studies)
        self.study, self.whole = rounds.studies[at], rounds.wholes[at]
        self.shape, self.kept, self.wrong, self.counts = shape_of(self.study.parts), 0, [], collections.Counter()
        self.folder = tempfile.mkdtemp(prefix=f"{self.kind}-{number}-", dir=rounds.scratch)
        self.name = self.random.choice([RESTART, "runs.rst"])
        self.older = None
        if self.random.random() < 0.3:
            other = self.random.choice(rounds.wholes).content
            self.older = self.random.choice([b"before", other[: self.random.randrange(1, len(other))], other[:-1] + b"\0\0"])
            write(self.folder, self.name, self.older)
        lay(self.folder, self.study)

    def words(self):
        """Those of a run that goes on, or of a first one where there is no file of this study's yet."""
        found = read(self.folder, self.name)
        if found is not None and found != self.older:
            return ["-i", STUDY, "-r", self.name]
        return ["-i", STUDY] if self.name == RESTART else ["-w", self.name, "-i", STUDY]

    def killed(self, words):
        """Runs the program up to a moment by chance."""
        left = 1 - self.kept / max(1, len(self.study.entries)) if "-r" in words else 1
        if self.rounds.traces and self.random.random() < 0.7:
            self.counts["at system calls"] += 1
            whole, first = self.whole, self.whole.first_stops
            last = whole.resumed_stops + left * (whole.stops - whole.resumed_stops)
            at = self.random.randint(first if self.random.random() < 0.9 else 1, max(first, int(last)))
            return killed_at_stop(self.rounds.program, words, self.folder, at)
        self.counts["by time"] += 1
        return killed_after(self.rounds.program, words, self.folder, self.random.uniform(0, 1.1e6 * self.whole.seconds))

    def ended(self, words):
        """Runs the program to its end."""
        return run(self.rounds.program, words, self.folder)

    def check_file(self):
        """Looks at the restart file as a kill left it."""
        content = read(self.folder, self.name)
        if self.older is not None and self.older not in (content, read(self.folder, self.name + OLDER)):
            self.wrong.append("the older file is lost")
        if content is None or content == self.older:
            content = b""
        try:
            book, _ = judge(content, self.shape)
        except RestartRefused as refused:
            self.wrong.append(f"a kill left a file that is refused: {refused}")
            return
        count = len(book.entries)
        if book.entries != self.study.entries[:count]:
            self.wrong.append("a kill left other entries")
        elif not is_front_with_tail(content, self.shape, self.study.entries, count):
            self.wrong.append(f"a kill left other bytes behind {count} entries")
        if count < self.kept:
            self.wrong.append(f"a kill left {count} entries of {self.kept}")
        self.kept = count
        self.counts["within an append"] += content[:1] != CLOSED and len(content) > len(file_bytes(self.shape, book.entries))
        self.counts["before the first append"] += count == 0

    def check_texts(self, ran):
        """Looks at the texts that a kill left."""
        table = read(self.folder, TABLE)
        if not self.whole.ran.said.startswith(ran.said):
            self.wrong.append(f"a kill left standard output {ran.said!r}")
        if table and not self.whole.table.startswith(table):
            self.wrong.append("a kill left another table")

    def check_end(self, ran):
        """Compares a run that wasn't killed with one that never was interrupted."""
        if ran != self.whole.ran:
            self.wrong.append(f"status {ran.status}, {ran.said!r}, and not {self.whole.ran}")
        if read(self.folder, TABLE) != self.whole.table:
            self.wrong.append("another table")
        if read(self.folder, self.name) != self.whole.content:
            self.wrong.append("another restart file")
        if read(self.folder, self.name + OLDER) != self.older:
            self.wrong.append("the older file isn't kept")
        others = others_in(self.folder, (STUDY, TABLE, self.name, self.name + OLDER))
        if others != self.whole.others:
            self.wrong.append(f"other files {sorted(others)}, or other bytes in them")

    def go(self):
        for _ in range(self.random.randint(1, MOST_KILLS)):
            ran = self.killed(self.words())
            if ran.status == KILLED:
                self.counts["kills"] += 1
                self.check_file()
                self.check_texts(ran)
            else:
                self.counts["ended before"] += 1
                self.check_end(ran)
                self.kept = len(self.study.entries)
        self.check_end(self.ended(self.words()))


class KillRounds:
    """All rounds of a seed."""

    round = Round

    def __init__(self, program, studies, seed, traces, scratch, keep):
        self.program, self.studies, self.seed, self.traces = program, studies, seed, traces
        self.scratch, self.keep, self.wholes, self.wrong = scratch, keep, [], []
        for at, study in enumerate(studies):
            with tempfile.TemporaryDirectory(dir=scratch) as folder:
                whole = whole_of(program, study, folder, traces)
                faults = [*faults_of_whole(study, whole), *self.more_faults(study, folder)]
            self.wholes.append(whole)
            self.wrong.append([f"study {at}, {study.text!r}: {it}" for it in faults])

    def more_faults(self, study, folder):
        """What else is wrong with the runs of a study that aren't interrupted."""
        return ()

    def __call__(self, number):
        """What was done in a round, and what is wrong."""
        it = self.round(self, number)
        it.go()
        if it.wrong and self.keep:
            shutil.copytree(it.folder, os.path.join(self.keep, os.path.basename(it.folder)), dirs_exist_ok=True)
        shutil.rmtree(it.folder)
        front = f"{it.kind} round {number} of seed {self.seed}, study {number % len(self.studies)}"
        return it.counts, [f"{front}: {fault}" for fault in it.wrong]
