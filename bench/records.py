#!/usr/bin/env python3
"""Restart files by Python's decimal, for comparisons of times: records.py FILE reads one into entries and prints how many it
has; records.py --make STUDY FILE writes the one that a run of the study leaves; records.py --fill FILE MORE writes one with
the records of FILE, and behind them as many of other points, each with the value 1,
as a restart file has room for.

The file that is read has a good header, and its records are checked as they come: each has to be the next attempt of its
point. A study's numbers are read as in study.py.
"""
import struct
import sys
from decimal import Decimal, Inexact, Overflow

from study import HUNDRED, ONE, Study, points_of

MAGIC = b"DKRSTv1\n"
MOST_BYTES = 1 << 28
DECIMAL_SIZE = 18
CLOSED, OPEN = b"\0", b"\1"
FAILED, VALUES = b"\0", b"\1"


def bytes_of(number):
    """A decimal's mantissa, which 10 doesn't divide, and its exponent."""
    sign, digits, exponent = number.normalize().as_tuple() if number else (0, (0,), 0)
    mantissa = int("".join(map(str, digits)))
    return (-mantissa if sign else mantissa).to_bytes(16, "little", signed=True) + exponent.to_bytes(2, "little", signed=True)


def record_of(point, value):
    """The open gate and the payload of a point's first attempt, which failed where there is no value."""
    said = FAILED if value is None else VALUES + bytes_of(value)
    return OPEN + b"".join(map(bytes_of, point)) + (1).to_bytes(4, "little") + said


def header_of(*lists):
    """The open gate and the payload of a header with these lists of labels."""
    parts = [OPEN, MAGIC]
    for labels in lists:
        parts.append(len(labels).to_bytes(2, "little"))
        parts += (bytes([len(label)]) + label for label in labels)
    return b"".join(parts)


def value_at(x1, x2):
    """Rosenbrock's function, or none where a step of it needs more digits than a decimal has."""
    try:
        miss, rest = x2 - x1 * x1, ONE - x1
        return HUNDRED * (miss * miss) + rest * rest
    except (Inexact, Overflow):
        return None


def file_of(path, value_of=value_at):
    """The restart file that a run of the study at a path leaves, whose points have these values or none."""
    study, made, parts, answer = Study(path), {}, [header_of([b"x1", b"x2"], [b"obj_fn"])], None
    recover, points = study.numbers("recover", 1)[0] if study.has("recover") else None, points_of(study)
    while True:
        try:
            point = tuple(points.send(answer))
        except StopIteration:
            break
        if point not in made:
            made[point] = value_of(*point)
            parts.append(record_of(point, made[point]))
        answer = recover if made[point] is None else made[point]
        if answer is None:
            break
    return b"".join(parts) + CLOSED


def filled(data, value):
    """A file with the records of another one of two variables, and behind them as many as there is room for; and how many
    these are. They are of the points of a grid whose first values are whole numbers from 1,000 on, and all have this value,
    or failed where there is none."""
    first, *seconds = (bytes_of(Decimal(at) / 1000) for at in [1_000_000, *range(1, 3001)])
    said = record_of((), value)[len(OPEN) :]
    behind = [second + said for second in seconds]
    count = (MOST_BYTES - len(data)) // len(OPEN + first + behind[0])
    parts, left = [data[:-1]], count
    for at in range(1000, 1000 + count // len(behind) + 1):
        front = OPEN + bytes_of(Decimal(at))
        parts += (front + it for it in behind[:left])
        left -= len(behind[:left])
    return b"".join(parts) + CLOSED, count


def labels_at(data, at):
    """A list of labels, and what stands behind it."""
    labels, at, count = [], at + 2, int.from_bytes(data[at : at + 2], "little")
    for _ in range(count):
        behind = at + 1 + data[at]
        labels.append(data[at + 1 : behind])
        at = behind
    return labels, at


def decimals_of(pieces):
    """The decimals of which these are the lower and upper halves of mantissas, and exponents."""
    halves = iter(pieces)
    return tuple(Decimal(upper << 64 | lower).scaleb(exponent) for lower, upper, exponent in zip(halves, halves, halves))


def entries_of(data):
    """The entries of a file: of each the point, the attempt, and the values or none; and where the end gate stands."""
    variables, at = labels_at(data, len(OPEN + MAGIC))
    responses, at = labels_at(data, at)
    attempted, gave = struct.Struct("<x" + "Qqh" * len(variables) + "IB"), struct.Struct("<" + "Qqh" * len(responses))
    width, entries, due = DECIMAL_SIZE * len(variables), [], {}
    while data[at]:
        *numbers, attempt, kind = attempted.unpack_from(data, at)
        point, values = data[at + 1 : at + 1 + width], None
        if due.get(point, 1) != attempt:
            raise SystemExit(f"damaged at {at}")
        at += attempted.size
        if kind:
            values = decimals_of(gave.unpack_from(data, at))
            at += gave.size
        due[point] = 0 if kind else attempt + 1
        entries.append((decimals_of(numbers), attempt, values))
    return entries, at


def read(path):
    with open(path, "rb") as it:
        return it.read()


def main():
    if sys.argv[1] in ("--make", "--fill"):
        made = file_of(sys.argv[2]) if sys.argv[1] == "--make" else filled(read(sys.argv[2]), ONE)[0]
        with open(sys.argv[3], "wb") as it:
            it.write(made)
    else:
        entries, end = entries_of(read(sys.argv[1]))
        print(f"{len(entries)} entries, the end gate at {end}")


if __name__ == "__main__":
    main()
