"""Contents of restart files by chance: whole ones, with entries that a study makes or others, and cut and spoiled ones."""
from decimals import EXPONENT_LIMIT, MANTISSA_DIGITS, MANTISSA_LIMIT, decimal_of
from number_texts import digits_of
from restart import (
    CLOSED,
    DECIMAL_BYTES,
    EXPONENT_BYTES,
    MAGIC,
    MANTISSA_BYTES,
    OPEN,
    Book,
    Entry,
    Shape,
    file_bytes,
    header_bytes,
    record_bytes,
    whole_bytes,
)

LABELS = ["x1", "x2", "y1", "x", "obj_fn", "_", "z" * 255, "Größe", "", "1x", "a b", "x1 "]


class Pieces:
    """A file in pieces: the header's payload and the records'."""

    def __init__(self, shape, entries):
        self.shape, self.entries = shape, entries
        self.payloads = [header_bytes(shape), *map(record_bytes, entries)]

    def gates(self):
        """Where the gates stand, the end gate too."""
        places = [0]
        for it in self.payloads:
            places.append(places[-1] + 1 + len(it))
        return places

    def content(self):
        return b"".join(OPEN + it for it in self.payloads) + CLOSED


# Entries


def some_decimal(random):
    count = random.choice([1, 1, 2, 16, MANTISSA_DIGITS])
    first = random.choice([0, 0, 1, -1, 33, -7, EXPONENT_LIMIT, -EXPONENT_LIMIT])
    mantissa = random.choice([0, digits_of(random, count)])
    return decimal_of(random.choice([mantissa, -mantissa]), first - count + 1)


def some_decimals(random, count):
    return tuple(some_decimal(random) for _ in range(count))


def fronts(random, shape, entries):
    return entries[: random.choice([0, 1, len(entries), random.randrange(len(entries) + 1)])]


def others(random, shape, entries):
    """Entries of which some aren't what the study makes: other values, more attempts, other points, another order."""
    taken, book = [*fronts(random, shape, entries)], Book()
    for _ in range(random.choice([0, 1, 3, 8])):
        point = some_decimals(random, len(shape.variables))
        if entries and random.random() < 0.7:
            point = random.choice(entries).point
        said = some_decimals(random, len(shape.responses)) if random.random() < 0.5 else None
        taken.insert(random.randrange(len(taken) + 1), Entry(point, 0, said))
    if random.random() < 0.3:
        random.shuffle(taken)
    for it in taken:
        entry = it._replace(attempt=len(book.said.get(it.point, [])) + 1)
        if book.can_take(entry):
            book.add(entry)
    return book.entries


# What spoils a file in pieces


def other_labels(random, pieces):
    variables, responses = (list(it) for it in pieces.shape)
    labels = random.choice([variables, variables, responses])
    change = random.randrange(4)
    if change == 0:
        labels[random.randrange(len(labels))] = random.choice(LABELS)
    elif change == 1:
        labels.insert(random.randrange(len(labels) + 1), random.choice(LABELS))
    elif change == 2:
        labels.pop(random.randrange(len(labels)))
    else:
        labels.reverse()
    pieces.payloads[0] = header_bytes(Shape(variables, responses))


def many_labels(random, pieces):
    count = random.choice([99, 100, 101])
    many = [f"v{it}" for it in range(count)]
    pieces.payloads[0] = header_bytes(random.choice([Shape(many, pieces.shape.responses), Shape(pieces.shape.variables, many)]))


def other_magic(random, pieces):
    wrong = random.choice([b"DKRSTv2\n", b"DKRSTv1\r", b"dkrstv1\n", b"\0" * 8])
    pieces.payloads[0] = wrong + pieces.payloads[0][len(MAGIC) :]


def swapped_records(random, pieces):
    if len(pieces.payloads) > 2:
        one, other = random.sample(range(1, len(pieces.payloads)), 2)
        pieces.payloads[one], pieces.payloads[other] = pieces.payloads[other], pieces.payloads[one]


def repeated_record(random, pieces):
    again = random.choice(pieces.payloads[1:] or pieces.payloads)
    pieces.payloads.insert(random.randrange(1, len(pieces.payloads) + 1), again)


def dropped_record(random, pieces):
    if len(pieces.payloads) > 1:
        pieces.payloads.pop(random.randrange(1, len(pieces.payloads)))


def wrong_pair(random):
    """Mostly a pair that is no decimal."""
    return random.choice(
        [
            (10, -1),
            (-250, 3),
            (0, 1),
            (0, -1),
            (MANTISSA_LIMIT, 0),
            (MANTISSA_LIMIT - 1, 0),
            (1 - MANTISSA_LIMIT, -MANTISSA_DIGITS),
            (MANTISSA_LIMIT + 1, 0),
            (-(2**127), 0),
            (2**127 - 1, 0),
            (1, EXPONENT_LIMIT + 1),
            (12, EXPONENT_LIMIT),
            (12, EXPONENT_LIMIT - 1),
            (1, -EXPONENT_LIMIT - 1),
            (12, -EXPONENT_LIMIT - 1),
            (1, -(2**15)),
        ]
    )


def changed_record(random, pieces, change):
    """Changes a record at a place behind its point."""
    if len(pieces.payloads) > 1:
        at = random.randrange(1, len(pieces.payloads))
        payload = bytearray(pieces.payloads[at])
        change(payload, DECIMAL_BYTES * len(pieces.shape.variables))
        pieces.payloads[at] = bytes(payload)


def other_decimal(random, pieces):
    def change(payload, behind):
        mantissa, exponent = wrong_pair(random)
        place = DECIMAL_BYTES * random.randrange(len(pieces.shape.variables))
        if len(payload) > behind + 5 and random.random() < 0.5:
            place = behind + 5
        pair = whole_bytes(mantissa, MANTISSA_BYTES, True) + whole_bytes(exponent, EXPONENT_BYTES, True)
        payload[place : place + DECIMAL_BYTES] = pair

    changed_record(random, pieces, change)


def other_attempt(random, pieces):
    def change(payload, behind):
        payload[behind : behind + 4] = whole_bytes(random.choice([0, 1, 2, 3, 256, 2**24, 2**32 - 1]), 4)

    changed_record(random, pieces, change)


def other_kind(random, pieces):
    def change(payload, behind):
        payload[behind + 4] = random.choice([0, 1, 2, 255])

    changed_record(random, pieces, change)


def longer_record(random, pieces):
    at = random.randrange(len(pieces.payloads))
    pieces.payloads[at] += bytes(random.choice([1, 18]))


PIECES = [
    other_labels,
    many_labels,
    other_magic,
    swapped_records,
    repeated_record,
    dropped_record,
    other_decimal,
    other_decimal,
    other_attempt,
    other_kind,
    longer_record,
]


# What spoils bytes


def some_bytes(random, count):
    return random.choice([bytes(count), b"\xff" * count, random.randbytes(count)])


def cut(random, content, gates):
    return content[: random.randrange(len(content) + 1)]


def cut_at_gate(random, content, gates):
    return content[: max(0, random.choice(gates) + random.choice([-1, 0, 1]))]


def extended(random, content, gates):
    return content + some_bytes(random, random.choice([1, 2, 30, 200]))


def torn_tail(random, content, gates):
    """A file whose last record isn't written yet, or only in part."""
    gate = random.choice(gates)
    kept = content[gate + 1 :][: random.randrange(90)]
    return content[:gate] + CLOSED + kept + some_bytes(random, random.randrange(60))


def other_gate(random, content, gates):
    """Another byte at a gate."""
    gate = random.choice([0, random.choice(gates), gates[-1]])
    return content[:gate] + random.choice([b"\0", b"\1", b"\2", b"\7", b"\xff"]) + content[gate + 1 :]


def other_bytes(random, content, gates):
    content = bytearray(content)
    for _ in range(random.choice([1, 1, 2, 5])):
        if content:
            content[random.randrange(len(content))] = random.randrange(256)
    return bytes(content)


def flipped_bits(random, content, gates):
    content = bytearray(content)
    for _ in range(random.choice([1, 1, 2, 5])):
        if content:
            content[random.randrange(len(content))] ^= 1 << random.randrange(8)
    return bytes(content)


def filled(random, content, gates):
    """Zeros, or others, in the place of some bytes, as many as a sector or less."""
    start = random.randrange(len(content) + 1)
    count = min(random.choice([1, 8, 60, 512]), len(content) - start)
    return content[:start] + some_bytes(random, count) + content[start + count :]


def moved(random, content, gates):
    """A byte more or less within."""
    at = random.randrange(len(content) + 1)
    return content[:at] + random.choice([b"", random.randbytes(1)]) + content[at + random.choice([0, 1]) :]


def no_file(random, content, gates):
    return random.choice(
        [b"", b"", b"\0", b"\1", b"x", b"hello\n", b"\0" + b"\xff" * 10, bytes(500), OPEN + MAGIC, random.randbytes(random.randrange(300))]
    )


BYTES = [cut, cut, cut_at_gate, extended, torn_tail, torn_tail, other_gate, other_gate, other_bytes, flipped_bits, filled, moved, no_file]


def content_of(random, shape, entries):
    """A content for a study with these labels, which makes these entries; and the names of what was done to it."""
    took = random.choice([fronts, fronts, others])
    done, pieces = [took.__name__], Pieces(shape, took(random, shape, entries))
    chance = random.random()
    if 0.3 < chance < 0.65 or chance > 0.95:
        spoil = random.choice(PIECES)
        spoil(random, pieces)
        done.append(spoil.__name__)
    content = pieces.content()
    if chance > 0.6:
        for spoil in random.choices(BYTES, k=random.choice([1, 1, 1, 2])):
            content = spoil(random, content, [it for it in pieces.gates() if it < len(content)] or [0])
            done.append(spoil.__name__)
    return content, done
