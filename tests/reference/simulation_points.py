"""Points and labels by chance, for parameters files."""
from decimals import MANTISSA_LIMIT, decimal_of
from parameters import Parameters

FIRST = "abcxyzABCXYZ_"
VISIBLE = "".join(map(chr, range(33, 127)))
# Labels that are spelled as tags are.
LIKE_TAGS = ["variables", "functions", "derivative_variables", "analysis_components", "eval_id", "ASV_1:f", "DVV_2:x", "DAKOTA_VARS"]


def few_digits(random):
    """A number between -2 and 2 with at most eight places behind its point."""
    places = random.choice([0, 1, 1, 2, 3, 7, 8])
    return decimal_of(random.randrange(-2 * 10**places, 2 * 10**places + 1), -places)


def many_digits(random):
    digits = random.choice([9, 15, 16, 17, 28, 33, 34])
    return decimal_of(random.randrange(-(10**digits) + 1, 10**digits), random.choice([0, -digits, 1 - digits]))


def far_away(random):
    """A number of any size that a study may have."""
    exponent = random.choice([400, -400, 200, 99, 100, -99, -100, random.randrange(-400, 401)])
    return decimal_of(random.choice([1, -1, 25, random.randrange(MANTISSA_LIMIT)]), exponent - 33)


def number(random):
    kind = random.choice([few_digits, few_digits, few_digits, many_digits, far_away, lambda _: (0, 0)])
    return kind(random)


def label(random):
    if random.random() < 0.1:
        return random.choice(LIKE_TAGS)
    length = random.choice([0, 1, 3, 10, 254])
    return random.choice(FIRST) + "".join(random.choice(VISIBLE) for _ in range(length))


def labels(random, count):
    """Distinct labels."""
    found = {}
    while len(found) < count:
        found[label(random)] = None
    return [*found]


def evaluation(random):
    return random.choice([1, 2, 10, 99_999, 100_000, random.randrange(1, 100_001)])


def drawn_parameters(random):
    """Any parameters file."""
    count = random.choice([1, 2, 3, 10, 100])
    responses = labels(random, random.choice([1, 1, 2, 100]))
    return Parameters(labels(random, count), [number(random) for _ in range(count)], responses, evaluation(random))


def in_valley(random):
    """A point at the bottom of the valley of Rosenbrock's function, or as near to it as 34 digits are."""
    x1 = few_digits(random) if random.random() < 0.5 else decimal_of(10**19 + random.randrange(-(10**5), 10**5), -19)
    square, exponent = x1[0] ** 2, 2 * x1[1]
    while square >= MANTISSA_LIMIT:
        square, exponent = square // 10, exponent + 1
    return [x1, decimal_of(square, exponent)]


def point(random):
    return in_valley(random) if random.random() < 0.2 else [number(random), number(random)]


def drawn_point(random):
    """A file of two variables of any labels, and one response."""
    return Parameters(labels(random, 2), point(random), labels(random, 1), evaluation(random))


def drawn_among_others(random):
    """A file of x1 and x2 among other variables, in any order, and of some responses."""
    pairs = [*zip(["x1", "x2"], point(random)), *((f"y{place}", number(random)) for place in range(random.randrange(4)))]
    random.shuffle(pairs)
    names, values = map(list, zip(*pairs))
    return Parameters(names, values, labels(random, random.choice([1, 1, 3])), evaluation(random))


def drawn_plain(random):
    """A file of x1 and x2 with few digits, and one response."""
    return Parameters(["x1", "x2"], [few_digits(random), few_digits(random)], ["f"], evaluation(random))
