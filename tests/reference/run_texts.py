"""Texts of studies that run, by chance: of each method and under each rule for failures, with points that are rounded, that
stand twice, or whose attempts fail.

Numbers are whole numbers of one power of ten. A pair of them is a point, or a step.
"""
from form_texts import FAMILIES
from number_texts import digits_of, spelled
from study import RULES
from study_texts import Block, Item, Numbers, Plan, environment, interface, responses, shuffled, starred, whole_text, written

SIZES = [1, 2, 3, 4, 5, 6, 7, 8, 9, 10, 12, 16, 20, 25, 30]
UNIT_DIGITS = 28

# Ways from a first point to a last one, in so many parts for each variable. Each gives an exponent and the two points.


def common(numbers):
    """The least exponent of some numbers (m, e), and the numbers as multiples of its power of ten."""
    exponent = min((e for m, e in numbers if m), default=0)
    return exponent, [m * 10 ** (e - exponent) if m else 0 for m, e in numbers]


def in_halves(random):
    """A step and a start. Every other multiple of the step has a digit more, often one too many for a value."""
    scale = random.randrange(-9, 1)
    steps = [5 * digits_of(random, random.choice(counts)) for counts in ((1, 7, 8, 8), (1, 15, 16, 16))]
    return [(it, scale) for it in steps] + [(random.choice([0, digits_of(random, 1)]), random.choice([0, scale])) for _ in range(2)]


def start_and_step(random):
    exponent, (*step, x1, x2) = common(random.choice([*FAMILIES, *[in_halves] * 4])(random))
    return exponent, [x1, x2], step


def exact(random, parts):
    """A way that goes by whole steps."""
    exponent, first, step = start_and_step(random)
    return exponent, first, [it + max(count, 1) * by for it, count, by in zip(first, parts, step)]


def between_few_digits(random, parts):
    """A way whose points have endless digits where a part is a third or a seventh."""
    exponent, (*first, y1, y2) = common([(random.choice([0, digits_of(random, 1)]), random.randrange(-2, 1)) for _ in range(4)])
    return exponent, first, [y1, y2]


def in_parts(random, parts):
    """A way of which some points have more digits than others, often too many for a value."""
    first, last = ([digits_of(random, random.choice([1, *counts])) for counts in ((6, 7, 8), (6, 8, 15))] for _ in range(2))
    return random.randrange(-9, 1), [random.choice([0, it]) for it in first], last


def with_equal_ends(random, parts):
    exponent, first, last = random.choice([exact, between_few_digits])(random, parts)
    j = random.randrange(2)
    last[j] = first[j]
    return exponent, first, last if random.random() < 0.7 else first


def wide(random, parts):
    """A way between numbers that are as far apart as a unit allows."""
    first, last = ([digits_of(random, random.choice([1, 14, 15, 28, 29])) for _ in range(2)] for _ in range(2))
    return 0, first, last


def far(random, parts):
    """A way from far below to far above, beside points whose value has few digits."""
    by = random.randrange(1, 10) * 10**28
    return 0, [1, 1 - by], [1, 1 + random.choice([by, 0, 10 ** random.randrange(29)])]


def square_way(random, parts):
    """A way that begins and ends at Rosenbrock's valley."""
    far_end = 1 + digits_of(random, random.choice([1, 1, 2])) * 10 ** random.randrange(13)
    return 0, [1, 1], [far_end, far_end * far_end]


def rounded_square(random, parts):
    """A way of few units, of numbers with 29 digits, beside points whose value has few digits."""
    x1 = 1 + random.choice([1, 2, -1, -2]) * 10**14
    x2 = x1 * x1 + random.randrange(-9, 10)
    return 0, [x1, x2], [x1, x2 + random.randrange(-99, 100)]


WAYS = [
    *[exact] * 3,
    *[between_few_digits] * 2,
    *[in_parts] * 5,
    with_equal_ends,
    wide,
    far,
    square_way,
    rounded_square,
]


def few_units(random):
    """A way of few units, and the exponent of the unit."""
    digits = random.choice([1, 1, 2, 3, 5, 7])
    first, last = ([digits_of(random, random.randrange(digits) + 1) for _ in range(2)] for _ in range(2))
    return random.choice([0, 0, -1, -3, random.randrange(-12, 3)]), first, last


def way(random, parts):
    """A way, and whether its exponent is to be that of the unit."""
    is_unit = random.random() < 0.35
    if max(parts) > 100 and random.random() < 0.4:
        is_unit, (exponent, first, last) = False, far(random, parts)
    else:
        exponent, first, last = few_units(random) if is_unit else random.choice(WAYS)(random, parts)
    return exponent, *((last, first) if random.random() < 0.3 else (first, last)), is_unit


# Methods. Each gives its keywords, and those of `variables`.


def number_texts(random, wholes, exponent):
    texts = []
    for at, it in enumerate(wholes):
        is_again = at and it == wholes[at - 1] and random.random() < 0.6
        texts.append(texts[-1] if is_again else spelled(random, it, exponent))
    return starred(random, texts)


def anchor(random):
    """Two numbers of which the first makes the unit 1."""
    return [random.randrange(1, 10) * 10**UNIT_DIGITS, random.randrange(10)]


def bounds(random, point):
    """Bounds about a point, or at it. Points of a study by steps may lie outside."""
    width = random.choice([0, 1, 10])
    return [it - random.choice([0, width]) for it in point], [it + random.choice([0, width]) for it in point]


def bounds_items(random, exponent, lower, upper):
    items = zip(("lower_bounds", "upper_bounds"), (lower, upper))
    return [Item(word, number_texts(random, it, exponent)) for word, it in items if it]


def begun(random, exponent, point, is_unit=False, sides=None):
    """An initial point, and bounds that it lies between; the unit may be that of the numbers, by a bound that is far."""
    lower, upper = sides or (bounds(random, point) if random.random() < 0.3 else (None, None))
    if is_unit:
        far_point = anchor(random)
        if random.random() < 0.5:
            upper = [max(it, by) for it, by in zip(point, far_point)]
        else:
            lower = [min(it, -by) for it, by in zip(point, far_point)]
    items = bounds_items(random, exponent, lower, upper)
    if any(point) or random.random() < 0.5:
        items.append(Item("initial_point", number_texts(random, point, exponent)))
    return items


def steps_of(random):
    if random.random() < 0.03:
        return random.choice([1000, 9999, 10000, random.randrange(10000)])
    return random.choice([0, 1, 2, 3, *SIZES, random.randrange(100)])


def by_step(random):
    exponent, first, step = start_and_step(random)
    items = [Item("num_steps", [whole_text(random, steps_of(random))]), Item("step_vector", number_texts(random, step, exponent))]
    return [Item("vector_parameter_study"), *items], begun(random, exponent, first)


def to_final(random):
    count = steps_of(random)
    exponent, first, last, is_unit = way(random, [count] * 2)
    items = [Item("num_steps", [whole_text(random, count)]), Item("final_point", number_texts(random, last, exponent))]
    return [Item("vector_parameter_study"), *items], begun(random, exponent, first, is_unit)


def centered(random):
    exponent, center, step = start_and_step(random)
    if random.random() < 0.2:
        by = random.choice([12, 15, 17])
        exponent, center, step = exponent - by, [it * 10**by for it in center], [it * 10**by for it in step]
        step[random.randrange(2)] += random.choice([1, -1])
    if random.random() < 0.2:
        step[random.randrange(2)] = 0
    counts = [random.choice([0, 0, 1, 1, 2, 3, random.randrange(20)]) for _ in range(random.choice([1, 2, 2]))]
    if random.random() < 0.02:
        counts[random.randrange(len(counts))] = random.choice([1000, random.randrange(5000)])
    items = [
        Item("step_vector", number_texts(random, step, exponent)),
        Item("steps_per_variable", starred(random, [whole_text(random, it) for it in counts])),
    ]
    return [Item("centered_parameter_study"), *items], begun(random, exponent, center)


def in_a_list(random):
    """Points of which some stand several times, and some may have no value."""
    exponent, start, step = start_and_step(random)
    few = [[it + random.randrange(-3, 4) * by for it, by in zip(start, step)] for _ in range(random.choice([1, 2, 4, 9, 30]))]
    if random.random() < 0.3:
        exponent, few = exponent - 17, [[it * 10**17 for it in point] for point in few]
        few.append([it + random.choice([0, 1, -1]) for it in random.choice(few)])
    count = random.choice([1, 2, 3, random.randrange(1, 40), random.randrange(1, 40), len(few)])
    if random.random() < 0.02:
        count = random.randrange(3000)
    points = random.choices(few, k=count or 1) if random.random() < 0.8 else few
    items = [Item("list_of_points", number_texts(random, [it for point in points for it in point], exponent))]
    others = begun(random, exponent, random.choice(few)) if random.random() < 0.3 else []
    return [Item("list_parameter_study"), *items], others


def in_a_grid(random):
    parts = [random.choice(SIZES) for _ in range(2)]
    if random.random() < 0.02:
        parts = random.choice([[1, 2500], [2500, 1], [60, 40], [random.randrange(1, 100), random.randrange(1, 30)]])
    exponent, first, last, is_unit = way(random, parts)
    lower, upper = zip(*map(sorted, zip(first, last)))
    others = bounds_items(random, exponent, lower, upper)
    initial = anchor(random) if is_unit else random.choice([None, None, lower, [it + 1 for it in upper]])
    if initial:
        others.append(Item("initial_point", number_texts(random, initial, exponent)))
    items = [Item("partitions", starred(random, [whole_text(random, it) for it in parts]))]
    return [Item("multidim_parameter_study"), *items], others


def side(random, point, delta, sign):
    """Bounds on one side of a point: at it, or about a step or some steps away; or none."""
    far = [0, 0, delta // 2, max(0, delta - 1), delta, 3 * delta, delta * random.randrange(20)]
    return [it + sign * random.choice(far) for it in point] if random.random() < 0.4 else None


def threshold_for(random, delta):
    """A threshold that is reached after some halvings, or at once."""
    halved = delta // 2 ** random.choice([0, 1, 1, 2, 3, 4, random.randrange(12), random.randrange(100)])
    return random.choice([max(1, halved)] * 8 + [1, 1, delta + 1, 3 * delta])


def limits(random):
    """How many iterations and evaluations there are at most, where that is written."""
    items = []
    if random.random() < 0.3:
        items.append(Item("max_iterations", [whole_text(random, random.choice([0, 1, 2, 3, random.randrange(30), 10000]))]))
    if random.random() < 0.7:
        count = random.choice([1, 2, 3, 4, 5, 6, random.randrange(1, 30), random.randrange(1, 300), 300, random.randrange(1, 3000)])
        items.append(Item("max_function_evaluations", [whole_text(random, count)]))
    return items


def by_search(random):
    """A compass search, also one of few units, or whose step may be of more digits than its point."""
    exponent, start, step = start_and_step(random)
    by = random.choice([0, 0, 1, 3, 6, 12])
    exponent, start, delta = exponent - by, [it * 10**by for it in start], (abs(random.choice(step)) or 1) * 10**by
    is_unit = random.random() < 0.2
    if is_unit:
        exponent, start = random.choice([0, 0, -1, -3]), [random.randrange(-9, 10) for _ in range(2)]
        delta = random.choice([1, 2, 3, 5, 7, random.randrange(1, 100)])
    sides = [start, start] if random.random() < 0.05 else [side(random, start, delta, sign) for sign in (-1, 1)]
    deltas = [number_texts(random, [it], exponent) for it in (delta, threshold_for(random, delta))]
    items = [Item(word, it) for word, it in zip(("initial_delta", "threshold_delta"), deltas)]
    return [Item("compass_search"), *items, *limits(random)], begun(random, exponent, start, is_unit, sides)


KINDS = [by_step, to_final, to_final, centered, centered, in_a_list, in_a_list, in_a_grid, in_a_grid, by_search, by_search, by_search]


def recovered(random):
    """A value of `recover`: often one that a point has, or less or greater than all of them, or one at a limit."""
    small = spelled(random, random.choice([0, 0, 1, digits_of(random, 1)]), random.choice([0, 0, random.randrange(-9, 10)]))
    count = random.choice([1, 33, 34])
    first = random.choice([-9999, -7, -6, 0, 33, 34, 9999])
    return random.choice([small, small, spelled(random, digits_of(random, count), first - count + 1)])


def rule_items(random):
    """A rule for failures, if any."""
    rule = random.choice([None, "abort", "retry", "retry", "recover", "recover", "recover"])
    values = []
    if rule == "retry":
        values = [whole_text(random, random.choice([1, 1, 2, 3, random.randrange(1, 1001), 999, 1000]))]
    elif rule == "recover":
        values = starred(random, [recovered(random)])
    return [Item("failure_capture"), Item(rule, values)] if rule else []


def interface_that_runs(random):
    """The interface of a study that runs, mostly without children, with each rule for failures."""
    block = interface(random, random.random() < 0.7, 1, Numbers(random))
    others = [it for it in block.items if it.word not in ("failure_capture", *RULES)]
    return Block("interface", others + rule_items(random))


def run_text(random):
    """The bytes of a study's file."""
    kind = random.choice(KINDS)
    method, others = kind(random)
    of_responses = ["objective_functions"] * 2 + ["response_functions"] * (kind != by_search)
    table = [Item("tabular_data"), Item("tabular_data_file", ["'t.dat'"])]
    descriptors = [Item("descriptors", ["'x1'", "'x2'"])] if random.random() < 0.5 else []
    blocks = [
        Block("environment", table) if random.random() < 0.85 else environment(random),
        Block("method", method),
        Block("variables", [Item("continuous_design", ["2"]), *others, *descriptors]),
        interface_that_runs(random),
        responses(random, random.choice(of_responses), 1),
    ]
    return written(random, shuffled(random, Plan(2, 1, blocks)).tokens()).encode()
