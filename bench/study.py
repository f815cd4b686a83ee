#!/usr/bin/env python3
"""The same study by Python's decimal, for a comparison of times: study.py FILE writes t.dat and prints the summary.

It reads the numbers of a vector study by steps, of a grid or of a compass search that is known to be good, and refuses nothing.
"""
import sys
from decimal import MAX_EMAX, MIN_EMIN, Context, Decimal, Inexact, Overflow, setcontext

# A sum or a product of more than 34 digits has no value.
setcontext(Context(prec=34, Emax=MAX_EMAX, Emin=MIN_EMIN, traps=[Inexact, Overflow]))
ONE, HUNDRED = Decimal(1), Decimal(100)


def text_of(number):
    if not number:
        return "0"
    number = number.normalize()
    if -6 <= number.adjusted() <= 33:
        return format(number, "f")
    return f"{number:e}" if abs(number.adjusted()) > 9 else f"{number:e}".replace("e+", "e+0").replace("e-", "e-0")


class Study:
    """The words and numbers of a study."""

    def __init__(self, path):
        with open(path, encoding="ascii") as it:
            self.pieces = it.read().replace("=", " ").split()

    def has(self, word):
        return word in self.pieces

    def numbers(self, word, count=2):
        at = self.pieces.index(word) + 1
        return [Decimal(it) for it in self.pieces[at : at + count]]


def points_by_step(study):
    (steps,), (step1, step2) = study.numbers("num_steps", 1), study.numbers("step_vector")
    initial1, initial2 = study.numbers("initial_point")
    for at in range(int(steps) + 1):
        yield initial1 + at * step1, initial2 + at * step2


def axis(low, high, parts, unit):
    """The values of a variable of a grid: parts of the way between its bounds, rounded to the unit, a half away from the lower one."""
    first, width = int(low.scaleb(-unit)), int((high - low).scaleb(-unit))
    return [Decimal(first + (2 * k * width + parts) // (2 * parts)).scaleb(unit) for k in range(parts + 1)]


def grid_points(study):
    parts, lower, upper = study.numbers("partitions"), study.numbers("lower_bounds"), study.numbers("upper_bounds")
    unit = max(it.adjusted() for it in lower + upper if it) - 28
    axis1, axis2 = (axis(low, high, int(count), unit) for low, high, count in zip(lower, upper, parts))
    for x2 in axis2:
        for x1 in axis1:
            yield x1, x2


def polls_about(x1, x2, delta, lower, upper):
    """The points on and back along each variable that keep the bounds."""
    for point in ((x1 + delta, x2), (x1 - delta, x2), (x1, x2 + delta), (x1, x2 - delta)):
        if all(low <= it <= high for low, it, high in zip(lower, point, upper)):
            yield point


def search_points(study):
    """The points of a compass search; each is to be answered with its value. In the end it says why it ended."""
    deltas, initial = study.numbers("initial_delta", 1) + study.numbers("threshold_delta", 1), study.numbers("initial_point")
    bounds = study.numbers("lower_bounds"), study.numbers("upper_bounds")
    unit = max(it.adjusted() for it in [*deltas, *initial, *bounds[0], *bounds[1]] if it) - 28
    (delta, threshold), x, lower, upper = ([int(it.scaleb(-unit)) for it in some] for some in (deltas, initial, *bounds))
    (left, most), rows = (int(study.numbers(it, 1)[0]) for it in ("max_iterations", "max_function_evaluations")), 1
    least = yield [Decimal(it).scaleb(unit) for it in x]
    while delta >= threshold and left:
        polls, best = [*polls_about(*x, delta, lower, upper)], None
        rows, left = rows + len(polls), left - 1
        if rows > most:
            return "max_function_evaluations"
        for poll in polls:
            value = yield [Decimal(it).scaleb(unit) for it in poll]
            if value < least:
                best, least = poll, value
        delta, x = (delta // 2, x) if best is None else (delta, best)
    return "threshold_delta" if delta < threshold else "max_iterations"


def points_of(study):
    """The points of a study. Those of a search are to be answered with their values, and say in the end why it ended."""
    if study.has("initial_delta"):
        return search_points(study)
    return grid_points(study) if study.has("partitions") else points_by_step(study)


def main():
    study = Study(sys.argv[1])
    all_points, value = points_of(study), None
    recover = study.numbers("recover", 1)[0] if study.has("recover") else None
    rows, best, least, points = [], 0, None, set()
    lines = ["%eval_id interface x1 x2 obj_fn\n"]
    while True:
        at = len(rows)
        try:
            x1, x2 = all_points.send(value)
        except StopIteration as finished:
            complete, ending = True, f"finished: {finished.value or 'complete'}"
            break
        try:
            miss, rest = x2 - x1 * x1, ONE - x1
            value = HUNDRED * (miss * miss) + rest * rest
        except (Inexact, Overflow):
            if recover is None:
                complete, ending = False, f"aborted: evaluation {at + 1} failed, attempts 1"
                break
            value = recover
        texts = text_of(x1), text_of(x2), text_of(value)
        rows.append(texts)
        points.add(texts[:2])
        lines.append(f"{at + 1} NO_ID {texts[0]} {texts[1]} {texts[2]}\n")
        if least is None or value < least:
            best, least = at, value
    with open("t.dat", "w", encoding="ascii") as it:
        it.writelines(lines)
    count, fresh = len(rows), len(points)
    print(f"<<<<< Study {ending}")
    print(f"<<<<< Function evaluation summary: {count} total ({fresh} new, {count - fresh} duplicate)")
    if rows:
        x1, x2, value = rows[best]
        print(f"<<<<< Best evaluation: {best + 1}")
        print(f"<<<<< Best parameters: x1 = {x1}, x2 = {x2}")
        print(f"<<<<< Best objective function: obj_fn = {value}")
    return 0 if complete else 1


if __name__ == "__main__":
    sys.exit(main())
