"""The order in which a run writes its restart file, has the system write it down, and begins what stands outside of it, as
a debugger sees it: what a kill can't show, since the system keeps what was written."""
import ctypes
import os
import platform

from kill import Traced, trace
from kill_rounds import RESTART, STUDY, TABLE, write
from restart import file_bytes, shape_of, writes_of_birth, writes_of_entry

CALL_INFO = 0x420E
ENTRY = 1
# Of x86_64.
WRITE, PWRITE, FSYNC, FDATASYNC, OPENAT, FTRUNCATE = 1, 18, 74, 75, 257, 77


class CallInfo(ctypes.Structure):
    """A system call as the debugger tells it before it is made."""

    _fields_ = [
        ("kind", ctypes.c_uint8),
        ("padding", ctypes.c_uint8 * 3),
        ("architecture", ctypes.c_uint32),
        ("instruction", ctypes.c_uint64),
        ("stack", ctypes.c_uint64),
        ("number", ctypes.c_uint64),
        ("arguments", ctypes.c_uint64 * 6),
    ]


def can_tell():
    return platform.machine() == "x86_64"


def call_of(traced):
    """The number and the arguments of the call before which a command stands, or none."""
    info = CallInfo()
    trace(CALL_INFO, traced.pid, ctypes.byref(info), ctypes.sizeof(info))
    return (info.number, [*info.arguments]) if info.kind == ENTRY else None


def bytes_at(traced, place, count):
    with open(f"/proc/{traced.pid}/mem", "rb", buffering=0) as it:
        it.seek(place)
        return it.read(count)


def name_at(traced, place):
    name = bytes_at(traced, place, 64)
    return name[: name.find(b"\0")].decode(errors="replace")


def told(traced, folder):
    """What the next call does with the restart file, its folder, the table or standard output, or none."""
    number, arguments = call_of(traced) or (None, None)
    if number == OPENAT:
        return ("begins the table",) if name_at(traced, arguments[1]) == TABLE else None
    if number not in (WRITE, PWRITE, FSYNC, FDATASYNC, FTRUNCATE):
        return None
    if number == WRITE and arguments[0] == 1:
        return ("prints",)
    path = traced.path_of(arguments[0])
    if path == os.path.join(folder, RESTART):
        if number == PWRITE:
            return "writes", arguments[3], bytes_at(traced, arguments[1], arguments[2])
        return ("syncs",) if number in (FSYNC, FDATASYNC) else (f"makes call {number}",)
    return ("syncs the folder",) if path == folder and number == FSYNC else None


def calls_of(program, words, folder):
    """What a run does one after another."""
    traced, calls = Traced(program, words, folder), []
    while traced.go(1):
        calls.append(told(traced, folder))
    traced.end()
    return [it for it in calls if it]


def wanted_of(study, count):
    """What a run is to do over a file that has so many of the study's entries, or over none."""
    shape = shape_of(study.parts)
    writes, end = writes_of_birth(0, shape) if count is None else ([], len(file_bytes(shape, study.entries[:count])) - 1)
    for entry in study.entries[count or 0 :]:
        more, end = writes_of_entry(end, entry)
        writes += more
    wanted = [("syncs the folder",), ("syncs",)]
    for place, piece in writes:
        wanted += [("writes", place, piece), ("syncs",)]
    return wanted + [("begins the table",), ("prints",)]


def faults_of_order(program, study, folder, count):
    """What is wrong with the order in a run, and how many writes it makes."""
    write(folder, STUDY, study.text)
    words = ["-i", STUDY]
    if count is not None:
        write(folder, RESTART, file_bytes(shape_of(study.parts), study.entries[:count]))
        words += ["-r", RESTART]
    calls, wanted = calls_of(program, words, folder), wanted_of(study, count)
    # The summary may be printed in several pieces.
    while calls[-2:] == [("prints",)] * 2:
        calls.pop()
    if calls != wanted:
        at = next((it for it, (one, other) in enumerate(zip(calls, wanted)) if one != other), min(len(calls), len(wanted)))
        yield f"call {at}: {calls[at : at + 3]}, and not {wanted[at : at + 3]}"
