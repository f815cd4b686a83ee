"""The restart file of a run on the disk: how it is opened, begun anew beside an older one, locked, and grown.

Nothing is synced: a run of this program may be killed, but not its machine.
"""
import contextlib
import fcntl
import itertools
import os
import stat

from restart import Book, check_size, judge, writes_of_birth, writes_of_entry


def is_at(path, found):
    """Whether a path leads to the file of which this was found."""
    try:
        return os.path.samestat(os.stat(path), found)
    except OSError:
        return False


def is_same_file(one, other):
    """Whether two paths are one, or lead to one file."""
    try:
        return one == other or is_at(other, os.stat(one))
    except OSError:
        return False


def locked(file, path, study):
    """The open file, once it is locked: a plain one, not the study's, that stands at the path still."""
    try:
        found = os.fstat(file)
        if not stat.S_ISREG(found.st_mode) or is_at(study, found):
            raise OSError("no file for a restart")
        fcntl.flock(file, fcntl.LOCK_EX | fcntl.LOCK_NB)
        if not is_at(path, found):
            raise OSError("the file was renamed")
    except OSError:
        os.close(file)
        raise
    return file


def existing(path, study):
    return locked(os.open(path, os.O_RDWR | os.O_CLOEXEC), path, study)


def made(path, study):
    return locked(os.open(path, os.O_RDWR | os.O_CLOEXEC | os.O_CREAT | os.O_EXCL, 0o666), path, study)


def older_names(path):
    """The names under which older files are kept, one behind the other."""
    return (f"{path}.old{number if number > 1 else ''}" for number in itertools.count(1))


def older_files(path):
    """The older files that are kept, up to the first name that leads to none."""
    return itertools.takewhile(os.path.exists, older_names(path))


def free_name(path):
    """The first of the older names at which nothing stands."""
    return next(name for name in older_names(path) if not os.path.lexists(name))


def begun(path, study):
    """An empty file. One that has bytes is kept under another name, and locked until the new one is made."""
    try:
        older = existing(path, study)
    except FileNotFoundError:
        return made(path, study)
    if os.fstat(older).st_size == 0:
        return older
    try:
        os.rename(path, free_name(path))
        return made(path, study)
    finally:
        os.close(older)


@contextlib.contextmanager
def opened(path, is_fresh, study):
    """The restart file at a path, for the study at another, as long as it is open."""
    if path == study:
        raise OSError("the study's own file")
    file = begun(path, study) if is_fresh else existing(path, study)
    try:
        yield file
    finally:
        os.close(file)


class Journal:
    """The entries of a run, in memory alone."""

    def __init__(self):
        self.book = Book()

    def append(self, entry):
        self.book.add(entry)


class FileJournal(Journal):
    """The entries of a run, each of which is in its restart file before it counts."""

    def __init__(self, file, shape, is_fresh):
        """Takes over an open file, or begins it; one whose bytes are refused is as it was."""
        size = os.fstat(file).st_size
        check_size(size, is_fresh)
        content = os.pread(file, size, 0)
        self.file, (self.book, self.end) = file, judge(content, shape, is_fresh)
        if self.end is None:
            writes, self.end = writes_of_birth(size, shape)
            self.write(writes)

    def write(self, writes):
        for place, piece in writes:
            # A call may write a front of the piece.
            while piece:
                count = os.pwrite(self.file, piece, place)
                place, piece = place + count, piece[count:]

    def append(self, entry):
        writes, end = writes_of_entry(self.end, entry)
        self.write(writes)
        self.end = end
        super().append(entry)
