"""Texts of one form of study, by chance: mostly right ones, with numbers at many limits."""
from number_texts import WRONG_COUNTS, WRONG_NUMBERS, digits_of, limit_text, spelled

FORM = (
    "environment tabular_data tabular_data_file = 't.dat' "
    "method vector_parameter_study num_steps = {} step_vector = {} {} "
    "variables continuous_design = 2 initial_point = {} {} descriptors = 'x1' 'x2' "
    "interface analysis_drivers = 'rosenbrock' direct "
    "responses objective_functions = 1 no_gradients no_hessians"
)
TEXT_LIMIT = 1_048_576


def nice(random):
    """Four numbers of few digits."""
    return [(random.choice([0, digits_of(random, random.choice([1, 1, 2, 3]))]), random.randrange(-3, 1)) for _ in range(4)]


def graded(random):
    """Four numbers about as far apart as a unit allows."""
    top = random.choice([0, 0, 5, -5, 400, -372, 372, random.randrange(-372, 401)])
    numbers = []
    for _ in range(4):
        count = random.choice([1, 2, 8, 20, 28, 29, 30])
        first = top - random.choice([0, 0, 1, random.randrange(30)])
        numbers.append((digits_of(random, count), first - count + 1))
    return numbers


def near_abortion(random):
    """Four numbers whose points come to the limit of a value's digits."""
    counts = [6, 7, 8, 8, 9, 17]
    scale = random.randrange(-9, 1)
    return [(digits_of(random, random.choice(counts)), scale + random.choice([0, 0, -1])) for _ in range(4)]


def small_value(random):
    """Points about (1, 1), where the value is very small, or zero."""
    by = random.randrange(1, 17)
    step = random.choice([0, 1, -1])
    return [(0, 0), (step, -by), (1, 0), (10**by + random.choice([0, 1, -1, 3]), -by)]


def great_value(random):
    """Points whose value is very great."""
    by, far = random.randrange(8), random.randrange(17)
    x1 = 1 - 10**by
    return [(0, 0), (random.choice([0, 10**far]), 0), (x1, 0), (x1 * x1 + 10**far, 0)]


def small_numbers(random):
    """Points near zero, which are written with an exponent."""
    return [(digits_of(random, 1), -random.randrange(5, 11)) for _ in range(2)] + [
        (random.choice([0, digits_of(random, 1)]), -random.randrange(5, 11)) for _ in range(2)
    ]


def zeros(random):
    """No step, or none in one direction."""
    numbers = nice(random)
    for at in random.choice([(0,), (1,), (0, 1), (0, 1), (0, 1, 2, 3), (2, 3)]):
        numbers[at] = (0, 0)
    return numbers


FAMILIES = [nice, nice, graded, near_abortion, near_abortion, small_value, great_value, small_numbers, zeros]


def count_text(random):
    """A text of num_steps."""
    steps = random.choice([0, 1, 2, random.randrange(41), random.randrange(41), random.randrange(41)])
    if random.random() < 0.03:
        steps = random.choice([9999, 10000, random.randrange(10001)])
    return "0" * random.choice([0, 0, 0, 0, 1, 30]) + str(steps)


# Texts of studies


def pieces_of(random):
    """The pieces of a study, most often of one that is read."""
    numbers = [spelled(random, *it) for it in random.choice(FAMILIES)(random)]
    count = count_text(random)
    chance = random.random()
    if chance < 0.12:
        numbers[random.randrange(4)] = limit_text(random)
    elif chance < 0.2:
        numbers[random.randrange(4)] = random.choice(WRONG_NUMBERS)
    elif chance < 0.25:
        count = random.choice(WRONG_COUNTS)
    elif chance < 0.27:
        count = "0" * random.choice([100, 5000]) + random.choice(["", "7", "10000", "10001"]) or "0"
    elif chance < 0.29:
        count = "1" * random.choice([6, 100, 5000])
    return FORM.format(count, *numbers).split(" ")


def altered(random, pieces):
    """Pieces that differ in one place, or end early or late."""
    at = random.randrange(len(pieces))
    piece = pieces[at]
    way = random.randrange(9)
    if way == 0:
        del pieces[at]
    elif way == 1:
        pieces.insert(at, random.choice([piece, "0", "=", "no_gradients", "#", "x"]))
    elif way == 2:
        other = random.randrange(len(pieces))
        pieces[at], pieces[other] = pieces[other], piece
    elif way == 3:
        pieces[at] = random.choice([piece.upper(), piece.capitalize(), piece[:-1], piece + piece[-1], piece[1:], f"'{piece}'"])
    elif way == 4:
        del pieces[at:]
    elif way == 5:
        pieces += random.choice([["0"], ["no_hessians"], ["output", "silent"], ["#", "end"], ["\0"]])
    elif way == 6:
        pieces[at] = piece.replace("'", '"').replace("t.dat", "u.dat")
    elif way == 7:
        pieces[at : at + 2] = ["".join(pieces[at : at + 2])]
    else:
        pieces[at] = piece + random.choice(["\x0b", "\x0c", "\0", "\u00a0", "\u0085", "\u2003", "\x1c", ",", "#"])
    return [it for it in pieces if it]


def joined(random, pieces):
    """The pieces between white space of some kind."""
    kinds = random.choice([[" "], ["\n"], ["\t"], ["\r\n"], ["\r"], [" ", "\n"], [" ", "\t", "\n", "\r", "  ", "\n\n", "\r\n", " \t \n"]])
    text = random.choice(["", "", "\n", "  ", "\t\r\n "])
    for piece in pieces:
        text += piece + random.choice(kinds)
    return text if random.random() < 0.6 else text.rstrip()


def padded(random, text):
    """White space somewhere, up to a length about the greatest that is read."""
    wanted = TEXT_LIMIT + random.choice([-1, 0, 0, 1, 1, 4096, TEXT_LIMIT])
    places = [at for at, byte in enumerate(text) if byte in b" \t\r\n"] or [0]
    at = random.choice([0, len(text), random.choice(places)])
    return text[:at] + random.choice([b" ", b"\n", b"\t"]) * max(0, wanted - len(text)) + text[at:]


def form_text(random):
    """The bytes of a study's file."""
    pieces = pieces_of(random)
    if random.random() < 0.12:
        pieces = altered(random, pieces)
    text = joined(random, pieces).encode("utf-8", "surrogatepass")
    chance = random.random()
    if chance < 0.01:
        text = random.choice([b"", b" ", b"\n\n", b"\0", b"\xff\xfe", random.randbytes(300)])
    elif chance < 0.03:
        at = random.randrange(len(text) + 1)
        text = random.choice([text[:at], text[at:], text[:at] + random.randbytes(1) + text[at + 1 :], text + text])
    elif chance < 0.045:
        text = padded(random, text)
    return text
