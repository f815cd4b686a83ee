"""The restart file, read and written a second time by docs/FORMATS.md: its bytes, what they stand for, why some are
refused, and in which order they are written.

A shape is the labels of the variables and those of the responses. An entry is an attempt that was made: its point, its
number, and what it said, which is its values, or none where it failed. Files are handled in bytes alone.
"""
import collections
import re

from decimals import decimal_of

MAGIC = b"DKRSTv1\n"
SIZE_LIMIT = 2**28
LABEL = re.compile(rb"[A-Za-z_][!-~]{0,254}")
MANTISSA_BYTES, EXPONENT_BYTES = 16, 2
DECIMAL_BYTES = MANTISSA_BYTES + EXPONENT_BYTES
CLOSED, OPEN = b"\0", b"\1"

Shape = collections.namedtuple("Shape", "variables responses")
Entry = collections.namedtuple("Entry", "point attempt said")


class RestartRefused(Exception):
    """The file is refused, by this text."""


class Full(Exception):
    """With the next record the file would have more bytes than it may, this many."""


class NoPayload(Exception):
    """No payload stands here."""


def shape_of(study):
    return Shape(study.variables.labels, study.responses.labels)


class Book:
    """The entries of a file in their order, and what the attempts of each point said."""

    def __init__(self, entries=()):
        self.entries, self.said = [], {}
        for it in entries:
            self.add(it)

    def can_take(self, entry):
        """Whether an entry is the next attempt of its point, which has no values yet."""
        said = self.said.get(entry.point, [])
        return entry.attempt == len(said) + 1 and said[-1:] in ([], [None])

    def add(self, entry):
        assert self.can_take(entry)
        self.entries.append(entry)
        self.said.setdefault(entry.point, []).append(entry.said)


# Bytes of what is written


def whole_bytes(number, count, signed=False):
    return number.to_bytes(count, "little", signed=signed)


def decimal_bytes(decimal):
    mantissa, exponent = decimal
    return whole_bytes(mantissa, MANTISSA_BYTES, True) + whole_bytes(exponent, EXPONENT_BYTES, True)


def header_bytes(shape):
    """The header's payload."""
    pieces = [MAGIC]
    for labels in shape:
        pieces.append(whole_bytes(len(labels), 2))
        pieces += [whole_bytes(len(it), 1) + it for it in map(str.encode, labels)]
    return b"".join(pieces)


def record_bytes(entry):
    """The payload of an entry's record."""
    said = b"\0" if entry.said is None else b"\1" + b"".join(map(decimal_bytes, entry.said))
    return b"".join(map(decimal_bytes, entry.point)) + whole_bytes(entry.attempt, 4) + said


def file_bytes(shape, entries):
    """The file that holds these entries, and nothing behind its end gate."""
    return b"".join(OPEN + it for it in [header_bytes(shape), *map(record_bytes, entries)]) + CLOSED


# The order of writes. Each is a place and the bytes that are written there, and is synced before the next.


def opened_by(gate, payload):
    """The writes of a payload behind a closed gate, with a closed gate behind it, and of the gate."""
    return [(gate + 1, payload + CLOSED), (gate, OPEN)]


def writes_of_birth(size, shape):
    """How a file of so many bytes that was never begun is begun, and where its end gate stands then."""
    payload = header_bytes(shape)
    first = [(0, CLOSED)] if size <= 1 else []
    return first + opened_by(0, payload), 1 + len(payload)


def writes_of_entry(end, entry):
    """How an entry is appended at an end gate, and where the end gate stands then."""
    payload = record_bytes(entry)
    if end + 2 + len(payload) > SIZE_LIMIT:
        raise Full(end + 2 + len(payload))
    return opened_by(end, payload), end + 1 + len(payload)


def written(content, writes):
    """The bytes of a file once these writes are done."""
    content = bytearray(content)
    for place, piece in writes:
        content[place : place + len(piece)] = piece
    return bytes(content)


# Bytes that are read


class Cursor:
    """A place in the bytes of a file, from which pieces are taken."""

    def __init__(self, content, place):
        self.content, self.place = content, place

    def take(self, count):
        piece = self.content[self.place : self.place + count]
        if len(piece) < count:
            raise NoPayload
        self.place += count
        return piece

    def whole(self, count, signed=False):
        return int.from_bytes(self.take(count), "little", signed=signed)

    def decimal(self):
        pair = self.whole(MANTISSA_BYTES, True), self.whole(EXPONENT_BYTES, True)
        if decimal_of(*pair) != pair:
            raise NoPayload
        return pair

    def decimals(self, count):
        return tuple(self.decimal() for _ in range(count))


def read_labels(cursor):
    count = cursor.whole(2)
    if not 1 <= count <= 100:
        raise NoPayload
    labels = [cursor.take(cursor.whole(1)) for _ in range(count)]
    if len(set(labels)) < count or not all(map(LABEL.fullmatch, labels)):
        raise NoPayload
    return [it.decode() for it in labels]


def read_header(cursor):
    if cursor.take(len(MAGIC)) != MAGIC:
        raise NoPayload
    return Shape(read_labels(cursor), read_labels(cursor))


def read_record(cursor, shape):
    point, attempt, kind = cursor.decimals(len(shape.variables)), cursor.whole(4), cursor.whole(1)
    if attempt == 0 or kind > 1:
        raise NoPayload
    return Entry(point, attempt, cursor.decimals(len(shape.responses)) if kind else None)


def read_next(cursor, shape, book):
    """The entry at an open gate, where it can come next."""
    gate = cursor.place
    try:
        cursor.take(1)
        entry = read_record(cursor, shape)
    except NoPayload:
        raise RestartRefused(f"Damaged (offset {gate})") from None
    if not book.can_take(entry):
        raise RestartRefused(f"Damaged (offset {gate})")
    return entry


def is_unborn(content):
    """Whether a file was never begun, so that it stands for no entries."""
    return len(content) <= 1 or content[:1] == CLOSED


def read_file(content, shape):
    """The book of a file that was begun, and where its end gate stands."""
    cursor, book = Cursor(content, 1), Book()
    try:
        stored = read_header(cursor)
    except NoPayload:
        raise RestartRefused("NotARestart") from None
    if stored != shape:
        raise RestartRefused("OtherShape")
    while content[cursor.place : cursor.place + 1] != CLOSED:
        book.add(read_next(cursor, shape, book))
    return book, cursor.place


def check_size(size, is_fresh):
    if size > SIZE_LIMIT:
        raise RestartRefused(f"TooLarge (length {size})")
    if is_fresh and size:
        raise RestartRefused(f"NotEmpty (length {size})")


def judge(content, shape, is_fresh=False):
    """The book that a file stands for, and where its end gate stands, which is nowhere where it was never begun."""
    check_size(len(content), is_fresh)
    return (Book(), None) if is_unborn(content) else read_file(content, shape)
