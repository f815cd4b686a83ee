"""What a run does where the outside refuses: a disk that is full, folders that are absent or read-only, a restart file
that another run has, or that is the study or the table. Each has its status, and nothing is lost."""
import fcntl
import os
import random
import shutil
import signal
import subprocess
import tempfile
from array import array

from crash_studies import named_table
from kill import Ran, Traced, run, with_size_limit
from kill_rounds import RESTART, STUDY, TABLE, is_front_with_tail, read, write
from order import can_tell, faults_of_order
from restart import CLOSED, SIZE_LIMIT, Entry, RestartRefused, file_bytes, judge, record_bytes, shape_of

FRESH, RESUMED = ["-i", STUDY], ["-i", STUDY, "-r", RESTART]
FAILED = Ran(b"dakota: restart file failed\n", 6)
NO_TABLE = Ran(b"dakota: table not written\n", 9)
PAGE, PAGES = 4096, 40


class Skipped(Exception):
    """This can't be had here."""


def files_in(folder):
    """The bytes of the files of a folder, those in folders within too."""
    files = {}
    for at, _, names in os.walk(folder):
        for name in names:
            path = os.path.relpath(os.path.join(at, name), folder)
            files[path] = read(folder, path)
    return files


class Scene:
    """A folder with a study, what the program does there when nothing is in its way, and what was found wrong."""

    def __init__(self, program, study, whole, folder):
        self.program, self.study, self.whole, self.folder = program, study, whole, folder
        self.runs, self.wrong = 0, []
        write(folder, STUDY, study.text)

    def run(self, words, prepare=None):
        self.runs += 1
        return run(self.program, words, self.folder, prepare)

    def expect(self, ran, wanted, what):
        if ran != wanted:
            self.wrong.append(f"{what}: status {ran.status}, {ran.said!r}, and not {wanted.status}, {wanted.said!r}")

    def expect_failed(self, words, what):
        """The restart file fails, and all files are as they were."""
        before = files_in(self.folder)
        self.expect(self.run(words), FAILED, what)
        if files_in(self.folder) != before:
            self.wrong.append(f"{what}: files have changed")

    def expect_whole(self, words, what):
        """All comes out as if nothing had been in the way."""
        self.expect(self.run(words), self.whole.ran, what)
        self.expect_kept(what)
        if read(self.folder, TABLE) != self.whole.table:
            self.wrong.append(f"{what}: another table")

    def expect_kept(self, what):
        if read(self.folder, RESTART) != self.whole.content:
            self.wrong.append(f"{what}: another restart file")

    def expect_front(self, what):
        """The restart file has a front of the study's entries, and else nothing but a front of the next one."""
        content, shape = read(self.folder, RESTART) or b"", shape_of(self.study.parts)
        try:
            count = len(judge(content, shape)[0].entries)
        except RestartRefused as refused:
            self.wrong.append(f"{what}: the restart file is refused: {refused}")
            return
        if not is_front_with_tail(content, shape, self.study.entries, count):
            self.wrong.append(f"{what}: the restart file has other bytes behind {count} entries")

    def expect_short(self, ran, room, table_room, what):
        """A run with room for a restart file of so many bytes, and then for a table of so many."""
        if room < len(self.whole.content):
            self.expect(ran, FAILED, what)
            self.expect_front(what)
        else:
            table = self.whole.table
            is_short = table is not None and table_room < len(table)
            self.expect(ran, NO_TABLE if is_short else self.whole.ran, what)
            self.expect_kept(what)


class Mounted:
    """A small file system in memory, which needs the right to mount one."""

    def __init__(self, folder):
        self.folder = folder

    def __enter__(self):
        self.do(["mount", "-t", "tmpfs", "-o", f"size={PAGE * PAGES}", "tmpfs", self.folder])
        return self

    def __exit__(self, *_):
        subprocess.run(["umount", self.folder], capture_output=True)

    def read_only(self):
        self.do(["mount", "-o", "remount,ro", self.folder])

    def do(self, command):
        try:
            done = subprocess.run(command, capture_output=True)
        except FileNotFoundError:
            raise Skipped(f"there is no {command[0]}") from None
        if done.returncode:
            [said, *_] = done.stderr.decode(errors="replace").splitlines() or [""]
            raise Skipped(said)


class Guarded:
    """A folder that may be made read-only for who isn't root."""

    def __init__(self, folder):
        self.folder = folder

    def __enter__(self):
        return self

    def __exit__(self, *_):
        os.chmod(self.folder, 0o755)

    def read_only(self):
        for name in os.listdir(self.folder):
            os.chmod(os.path.join(self.folder, name), 0o444)
        os.chmod(self.folder, 0o555)


def filled(folder, pages):
    """Fills a small file system up to so many pages that are left, and answers the name of the file that does."""
    path = os.path.join(folder, "filler")
    with open(path, "wb", buffering=0) as it:
        try:
            while True:
                it.write(bytes(PAGE))
        except OSError:
            it.truncate(it.tell() // PAGE * PAGE - pages * PAGE)
    return path


def pages_of(content):
    return -(-len(content or b"") // PAGE)


class Outside:
    """The studies, and what the program does with each in an empty folder."""

    def __init__(self, program, studies, wholes, seed, scratch, keep, traces):
        self.program, self.studies, self.wholes, self.seed = program, studies, wholes, seed
        self.scratch, self.keep, self.traces = scratch, keep, traces

    def scene(self, folder, at=0):
        return Scene(self.program, self.studies[at], self.wholes[at], folder)

    def apart(self, act, count, *arguments):
        """Lets a part act in so many folders, and answers how many runs there were and what is wrong in each folder."""
        runs, wrong = 0, []
        for number in range(count):
            folder = tempfile.mkdtemp(prefix=f"{act.__name__}-{number}-", dir=self.scratch)
            source = random.Random(f"{self.seed} {act.__name__} {number}")
            scene = act(folder, source, *arguments)
            runs += scene.runs
            wrong.append([f"{act.__name__} {number} of seed {self.seed}: {it}" for it in scene.wrong])
            if scene.wrong and self.keep:
                shutil.copytree(folder, os.path.join(self.keep, os.path.basename(folder)), symlinks=True, dirs_exist_ok=True)
            shutil.rmtree(folder)
        return runs, wrong

    def order(self, folder, source):
        """The order of writes and syncs, where a debugger tells it; of a fresh run, or of one that goes on."""
        if not (self.traces and can_tell()):
            raise Skipped("commands can't be traced")
        if self.program.endswith(".py"):
            raise Skipped("the second reading doesn't sync")
        scene = self.scene(folder, source.randrange(len(self.studies)))
        scene.runs += 1
        count = source.choice([None, source.randrange(len(scene.study.entries) + 1)])
        scene.wrong += [f"over {count} entries: {it}" for it in faults_of_order(self.program, scene.study, folder, count)]
        return scene

    # Where there is no room

    def size_limit(self, folder, source):
        """A limit on the size of each file, of which the program is told or by which it is killed."""
        scene = self.scene(folder, source.randrange(len(self.studies)))
        most = max(len(scene.whole.content), len(scene.whole.table or b"")) + 10
        size, is_told = source.choice([source.randrange(100), source.randrange(most)]), source.random() < 0.6
        ran = scene.run(FRESH, with_size_limit(size, is_told))
        if ran.status == -signal.SIGXFSZ and not is_told:
            scene.expect_front(f"killed at {size} bytes")
        else:
            scene.expect_short(ran, size, size, f"with {size} bytes")
        scene.expect_whole(RESUMED, f"resumed after {size} bytes")
        return scene

    def full_disk(self, folder, source):
        """A disk that is full before the restart file or the table is whole. Half of them fill up while a run is resumed."""
        with Mounted(folder):
            scene = self.scene(folder, source.randrange(len(self.studies)))
            needed = pages_of(scene.whole.content)
            pages = source.randrange(needed + pages_of(scene.whole.table) + 1)
            what, words = f"with {pages} pages", FRESH
            if source.random() < 0.5:
                half = file_bytes(shape_of(scene.study.parts), scene.study.entries[: len(scene.study.entries) // 2])
                write(folder, RESTART, half)
                words, needed = RESUMED, needed - pages_of(half)
            filler = filled(folder, pages)
            room = len(scene.whole.content) if pages >= needed else 0
            scene.expect_short(scene.run(words), room, (pages - needed) * PAGE, what)
            os.remove(filler)
            scene.expect_whole(RESUMED, f"resumed {what}")
        return scene

    # Folders

    def read_only(self, folder, source):
        """A folder in which nothing may be made or changed, and a table that may not stand there."""
        inner = os.path.join(folder, "inner")
        os.mkdir(inner)
        scene = self.scene(folder)
        with Guarded(inner) if os.geteuid() else Mounted(inner) as guarded:
            for name, content in ((STUDY, scene.study.text), (RESTART, scene.whole.content)):
                write(inner, name, content)
            guarded.read_only()
            for words in (["-w", "inner/new.rst"], ["-w", f"inner/{RESTART}"], ["-r", f"inner/{RESTART}"]):
                scene.expect_failed([*FRESH, *words], f"words {words}")
            self.expect_lost_table(scene, b"inner/t.dat")
        return scene

    def absent(self, folder, source):
        """A folder that isn't there, or is a file, or is the restart file."""
        scene = self.scene(folder)
        for words in (["-w", "none/x.rst"], ["-r", "none/x.rst"], ["-r", "none"], ["-w", "s.in/x"], ["-w", "."], ["-r", "."]):
            scene.expect_failed([*FRESH, *words], f"words {words}")
        self.expect_lost_table(scene, b"none/t.dat")
        return scene

    def expect_lost_table(self, scene, name):
        """A table that can't be begun, and the same study once its table can be; no attempt is lost or made again."""
        write(scene.folder, STUDY, named_table(scene.study.text, name))
        for words in (FRESH, RESUMED):
            scene.expect(scene.run(words), NO_TABLE, f"table {name}, words {words}")
            scene.expect_kept(f"table {name}, words {words}")
        write(scene.folder, STUDY, scene.study.text)
        scene.expect_whole(RESUMED, f"resumed after the table {name}")

    # The same file twice

    def held(self, folder, source):
        """A restart file that another run has."""
        scene = self.scene(folder)
        for content in (scene.whole.content, b""):
            write(folder, RESTART, content)
            with open(os.path.join(folder, RESTART), "rb") as it:
                fcntl.flock(it, fcntl.LOCK_EX)
                for words in (FRESH, RESUMED, [*FRESH, "-w", f"./{RESTART}"]):
                    scene.expect_failed(words, f"held, words {words}")
        scene.expect_whole(RESUMED, "held no more")
        return scene

    def second_run(self, folder, source):
        """A second run over the restart file of one that stands still in the midst of it, which then goes on to its end."""
        if not self.traces:
            raise Skipped("commands can't be traced")
        scene = self.scene(folder, source.randrange(len(self.studies)))
        if source.random() < 0.5:
            write(folder, RESTART, b"older")
        first = Traced(self.program, FRESH, folder)
        first.go(source.randint(1, scene.whole.stops))
        while first.is_there() and read(folder, RESTART) in (None, b"", b"older"):
            first.go(1)
        # Shortly before its end it has closed the file.
        if first.is_there() and first.has_open(os.path.join(folder, RESTART)):
            for words in (FRESH, RESUMED):
                scene.expect_failed(words, f"second at stop {first.stops}, words {words}")
        if first.is_there():
            first.go()
        scene.expect(first.end(), scene.whole.ran, "first of two runs")
        scene.expect_whole(RESUMED, "after two runs")
        return scene

    def own_study(self, folder, source):
        """A restart file that is the study itself, by any path."""
        scene = self.scene(folder)
        os.link(os.path.join(folder, STUDY), os.path.join(folder, "hard"))
        os.symlink(STUDY, os.path.join(folder, "soft"))
        for name in (STUDY, f"./{STUDY}", f"../{os.path.basename(folder)}/{STUDY}", "hard", "soft"):
            for option in ("-w", "-r"):
                scene.expect_failed([*FRESH, option, name], f"words {option} {name}")
        return scene

    def own_table(self, folder, source):
        """A table that is the restart file, by any path."""
        scene = self.scene(folder)
        os.symlink(RESTART, os.path.join(folder, "soft"))
        for name in (b"dakota.rst", b"./dakota.rst", b"soft"):
            self.expect_lost_table(scene, name)
            os.remove(os.path.join(folder, RESTART))
        write(folder, RESTART, b"")
        os.link(os.path.join(folder, RESTART), os.path.join(folder, "hard"))
        self.expect_lost_table(scene, b"hard")
        return scene

    def older_table(self, folder, source):
        """A table in the place of an older restart file, by any path: none of them is lost."""
        scene = self.scene(folder)
        scene.expect_whole(FRESH, "the first run")
        for name in (b"dakota.rst.old", b"./dakota.rst.old2", b"soft"):
            write(folder, STUDY, named_table(scene.study.text, name))
            scene.expect(scene.run(FRESH), NO_TABLE, f"table {name}")
            if name == b"./dakota.rst.old2":
                os.symlink(f"{RESTART}.old2", os.path.join(folder, "soft"))
        for name in (RESTART, f"{RESTART}.old", f"{RESTART}.old2", f"{RESTART}.old3"):
            if read(folder, name) != scene.whole.content:
                scene.wrong.append(f"{name} has changed")
        return scene

    # Sizes

    def sizes(self, folder, source):
        """Files of the most bytes and more, and one that has no room for a record."""
        scene = self.scene(folder)
        for size, wanted in (
            (SIZE_LIMIT + 1, Ran(b"dakota: restart refused: TooLarge (length %d)\n" % (SIZE_LIMIT + 1), 5)),
            (2**40, Ran(b"dakota: restart refused: TooLarge (length %d)\n" % 2**40, 5)),
            (SIZE_LIMIT, scene.whole.ran),
        ):
            write(folder, RESTART, b"")
            os.truncate(os.path.join(folder, RESTART), size)
            scene.expect(scene.run(RESUMED), wanted, f"{size} zero bytes")
            if os.path.getsize(os.path.join(folder, RESTART)) != size:
                scene.wrong.append(f"{size} zero bytes: another size")
        content, length = full_file(scene.study)
        write(folder, RESTART, content)
        wanted = Ran(b"dakota: restart file full (length %d)\n" % length, 7)
        scene.expect(scene.run(RESUMED), wanted, f"a file of {len(content)} bytes")
        if read(folder, RESTART) != content:
            scene.wrong.append("a full file has changed")
        os.remove(os.path.join(folder, RESTART))
        return scene


def full_file(study):
    """A file of attempts at one point that isn't the study's, all failed, as many as it may have; and how long it would
    be with the study's first record."""
    front = file_bytes(shape_of(study.parts), [])[:-1]
    entry = Entry(((9, 3), (9, 3)), 1, None)
    record = b"\1" + record_bytes(entry)
    count = (SIZE_LIMIT - len(front) - 1) // len(record)
    records = bytearray(record * count)
    attempts = array("I", range(1, count + 1)).tobytes()
    for it in range(4):
        records[len(record) - 5 + it :: len(record)] = attempts[it::4]
    content = front + bytes(records) + CLOSED
    return content, len(content) + 1 + len(record_bytes(study.entries[0]))

