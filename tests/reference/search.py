"""A compass search: which points come next, by the values of those before.

A point is a list of whole numbers of the study's unit. Points come in batches. Each batch is answered with the values of its
points, and then the next one comes, or the word for why the search ended.
"""
from decimals import is_less


def polls_about(variables, x, delta):
    """The points that lie one step from x along one variable, on and back; those that leave a bound that is given are left out."""
    _, _, lower, upper = variables
    for j, number in enumerate(x):
        for moved in (number + delta, number - delta):
            is_kept = (lower is None or lower[j] <= moved) and (upper is None or moved <= upper[j])
            if is_kept:
                yield [*x[:j], moved, *x[j + 1 :]]


def first_least(values):
    """Where the first of the least values stands."""
    least = 0
    for at, value in enumerate(values):
        if is_less(value, values[least]):
            least = at
    return least


def iterated(x, value, delta, polls, values):
    """What an iteration makes of its point, its value and its step: the best poll is taken where it is below, and else the step
    is halved."""
    if polls:
        best = first_least(values)
        if is_less(values[best], value):
            return polls[best], values[best], delta
    return x, value, delta // 2


def searched(variables, method):
    """The batches of a search; each is to be answered with the values of its points. In the end it says why it ended."""
    (delta,), (threshold,) = method.values["initial_delta"], method.values["threshold_delta"]
    x, rows, iterations = variables.initial, 1, 0
    (value,) = yield [x]
    while True:
        if delta < threshold:
            return "threshold_delta"
        if iterations == method.values["max_iterations"]:
            return "max_iterations"
        polls = [*polls_about(variables, x, delta)]
        if rows + len(polls) > method.values["max_function_evaluations"]:
            return "max_function_evaluations"
        values = (yield polls) if polls else []
        x, value, delta = iterated(x, value, delta, polls, values)
        rows, iterations = rows + len(polls), iterations + 1
