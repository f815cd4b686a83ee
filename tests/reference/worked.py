"""Restart files that are worked out by hand, byte by byte, for the study of docs/MANUAL.md with its three points; and runs of
compass searches that are worked out by hand."""
import tempfile

import worked_searches
from content_rounds import faults_of, opened_by_both
from kill import Ran, run
from kill_rounds import STUDY, TABLE, read, write
from restart import Entry, RestartRefused, Shape, file_bytes, judge, written, writes_of_birth, writes_of_entry

SHAPE = Shape(["x1", "x2"], ["obj_fn"])
EMPTY = bytes.fromhex("01 44 4b 52 53 54 76 31 0a 02 00 02 78 31 02 78 32 01 00 06 6f 62 6a 5f 66 6e 00")
ZERO, HALF, ONE = bytes(18), b"\5" + bytes(15) + b"\xff\xff", b"\1" + bytes(17)
VALUE = b"\x41" + bytes(15) + b"\xff\xff"
FIRST = b"\1" + ZERO + ZERO + b"\1\0\0\0" + b"\1" + ONE
SECOND = b"\1" + HALF + HALF + b"\1\0\0\0" + b"\1" + VALUE
THIRD = b"\1" + ONE + ONE + b"\1\0\0\0" + b"\1" + ZERO
WHOLE = EMPTY[:-1] + FIRST + SECOND + THIRD + b"\0"
FAILED = b"\1" + ONE + ONE + b"\1\0\0\0" + b"\0"
ENTRIES = [
    Entry(((0, 0), (0, 0)), 1, ((1, 0),)),
    Entry(((5, -1), (5, -1)), 1, ((65, -1),)),
    Entry(((1, 0), (1, 0)), 1, ((0, 0),)),
]


def with_byte(content, at, byte):
    return content[:at] + bytes([byte]) + content[at + 1 :]


# A content, and how many entries it stands for or its refusal.
FILES = [
    (EMPTY, 0),
    (WHOLE, 3),
    (b"", 0),
    (b"\0", 0),
    (b"x", 0),
    (b"\1", 0),
    (b"\0" + b"\xff" * 10, 0),
    (with_byte(WHOLE, 0, 0), 0),
    (with_byte(WHOLE, 0, 9), 3),
    (WHOLE[:87] + b"\xff" * 59, "Damaged (offset 86)"),
    (with_byte(WHOLE[:87], 86, 0) + b"\xff" * 59, 1),
    (with_byte(with_byte(WHOLE, 86, 0), 146, 0), 1),
    (with_byte(with_byte(WHOLE, 86, 7), 146, 0), 2),
    (b"hello", "NotARestart"),
    (b"\1\0", "NotARestart"),
    (WHOLE[:25], "NotARestart"),
    (WHOLE[:26], "Damaged (offset 26)"),
    (WHOLE.replace(b"x1", b"y1"), "OtherShape"),
    (WHOLE.replace(b"x1", b"x2"), "NotARestart"),
    (WHOLE.replace(b"x1", b"1x"), "NotARestart"),
    (with_byte(WHOLE, 67, 9), "Damaged (offset 26)"),
    (WHOLE[:100], "Damaged (offset 86)"),
    (WHOLE[:86], "Damaged (offset 86)"),
    (WHOLE[:87], "Damaged (offset 86)"),
    (WHOLE[:206], "Damaged (offset 206)"),
    (EMPTY[:-1] + FIRST + FIRST + THIRD + b"\0", "Damaged (offset 86)"),
    (EMPTY[:-1] + FAILED + THIRD + b"\0", "Damaged (offset 68)"),
    (EMPTY[:-1] + FAILED + b"\0", 1),
    (EMPTY[:-1] + FIRST + SECOND + b"\0" + THIRD[1:], 2),
]


def faults_of_writing():
    """What is wrong with the bytes that are written, and with the order of writes."""
    if file_bytes(SHAPE, []) != EMPTY or file_bytes(SHAPE, ENTRIES) != WHOLE:
        yield "other bytes are written"
    writes, end = writes_of_birth(0, SHAPE)
    for entry in ENTRIES:
        more, end = writes_of_entry(end, entry)
        writes += more
    if [it for it, _ in writes] != [0, 1, 0, 27, 26, 87, 86, 147, 146] or end != 206:
        yield "another order of writes"
    for count in range(len(writes) + 1):
        content = written(b"", writes[:count])
        found = len(judge(content, SHAPE)[0].entries)
        if found != max(0, (count - 3) // 2):
            yield f"{found} entries after {count} writes"


def judged(content):
    try:
        return len(judge(content, SHAPE)[0].entries)
    except RestartRefused as refused:
        return str(refused)


def faults_of_file(program, study, content, verdict, scratch):
    """What the second reading and the program do wrong with a file."""
    if judged(content) != verdict:
        yield f"{judged(content)} by the second reading, and not {verdict}"
    ours, theirs = opened_by_both(program, study, content, scratch)
    yield from faults_of(ours, theirs, content)
    if isinstance(verdict, str) and ours[0] != Ran(f"dakota: restart refused: {verdict}\n".encode(), 5):
        yield f"status {ours[0].status}, {ours[0].said!r}, and not {verdict}"


def faults_of_search(program, case, folder):
    """What the program does wrong with a compass search, and with one that finds all its attempts made."""
    write(folder, STUDY, worked_searches.text_of(case))
    for words in (["-i", STUDY], ["-i", STUDY, "-r", "dakota.rst"]):
        ran = run(program, words, folder)
        if ran.status != 0:
            yield f"compass search {case.method} {case.variables}: status {ran.status}"
        yield from worked_searches.faults_of(case, ran.said.decode(), (read(folder, TABLE) or b"").decode())


def faults_of_worked(program, study, scratch):
    """What is wrong with the writing, and then with each file and each compass search."""
    yield [*faults_of_writing()]
    for content, verdict in FILES:
        yield [f"worked file {content.hex()}: {it}" for it in faults_of_file(program, study, content, verdict, scratch)]
    for case in worked_searches.CASES:
        with tempfile.TemporaryDirectory(dir=scratch) as folder:
            yield [*faults_of_search(program, case, folder)]
