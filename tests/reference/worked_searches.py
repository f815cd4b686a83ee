"""Compass searches that are worked out by hand: their rows, why they end, and their best row."""
import collections

# The keywords of `method` and `variables`, and the rule for failures; the points and values of the rows, as they stand in the
# table; why the search ended; how many rows stood before; and the best row.
Worked = collections.namedtuple("Worked", "method variables rule rows why duplicates best")

TEXT = """environment tabular_data tabular_data_file = 't.dat'
method compass_search {method}
variables continuous_design = 2 {variables} descriptors = 'x1' 'x2'
interface analysis_drivers = 'rosenbrock' direct {rule}
responses objective_functions = 1 no_gradients no_hessians
"""
ONE_TO_HALF = "initial_delta = 1 threshold_delta = 0.5"
ABOUT = "initial_point = 0 0 lower_bounds = -2 -2 upper_bounds = 2 2"
POINT = "lower_bounds = 0 0 upper_bounds = 0 0"
FIRST = "0 0 1, 1 0 100, -1 0 104, 0 1 101, 0 -1 101"
HALVED = f"{FIRST}, 0.5 0 6.5, -0.5 0 8.5, 0 0.5 26, 0 -0.5 26"
QUARTERED = f"{HALVED}, 0.25 0 0.953125, -0.25 0 1.953125, 0 0.25 7.25, 0 -0.25 7.25"
MOVED = f"{QUARTERED}, 0.5 0 6.5, 0 0 1, 0.25 0.25 4.078125, 0.25 -0.25 10.328125"
# Of unit 1, so that 3 is halved to 1.
WHOLE = "upper_bounds = 1e28 1e28"
BY_THREE = "0 0 1, 3 0 8104, -3 0 8116, 0 3 901, 0 -3 901"
# Its square has 36 digits, and so has that of its double.
LONG, DOUBLE = "0.123456789012345678", "0.246913578024691356"
ONE_LONG = f"initial_delta = {LONG} threshold_delta = {LONG}"
FAILED = f"{LONG} 0 V, -{LONG} 0 V, 0 {LONG} V, 0 -{LONG} V"
BELOW = f"0 0 1, {FAILED}, {DOUBLE} 0 V, 0 0 1, {LONG} {LONG} V, {LONG} -{LONG} V"

CASES = [
    Worked(ONE_TO_HALF, ABOUT, "", HALVED, "threshold_delta", 0, 1),
    Worked(ONE_TO_HALF, "lower_bounds = 0 0 upper_bounds = 2 2", "", "0 0 1, 1 0 100, 0 1 101, 0.5 0 6.5, 0 0.5 26",
           "threshold_delta", 0, 1),
    Worked("initial_delta = 1 threshold_delta = 0.25", ABOUT, "", MOVED, "threshold_delta", 2, 10),
    Worked(f"{ONE_TO_HALF} max_function_evaluations = 9", ABOUT, "", HALVED, "threshold_delta", 0, 1),
    Worked(f"{ONE_TO_HALF} max_function_evaluations = 8", ABOUT, "", FIRST, "max_function_evaluations", 0, 1),
    Worked(f"{ONE_TO_HALF} max_function_evaluations = 5", ABOUT, "", FIRST, "max_function_evaluations", 0, 1),
    Worked(f"{ONE_TO_HALF} max_function_evaluations = 4", ABOUT, "", "0 0 1", "max_function_evaluations", 0, 1),
    Worked(f"{ONE_TO_HALF} max_iterations = 0", ABOUT, "", "0 0 1", "max_iterations", 0, 1),
    Worked(f"{ONE_TO_HALF} max_iterations = 1", ABOUT, "", FIRST, "max_iterations", 0, 1),
    Worked(f"{ONE_TO_HALF} max_iterations = 2", ABOUT, "", HALVED, "threshold_delta", 0, 1),
    # More than one end at once: the first one is told.
    Worked("initial_delta = 0.5 threshold_delta = 1 max_iterations = 0 max_function_evaluations = 1", "", "", "0 0 1",
           "threshold_delta", 0, 1),
    Worked("initial_delta = 1 threshold_delta = 1 max_iterations = 0 max_function_evaluations = 1", "", "", "0 0 1",
           "max_iterations", 0, 1),
    # Without polls the iteration is done all the same.
    Worked(f"{ONE_TO_HALF} max_function_evaluations = 1", POINT, "", "0 0 1", "threshold_delta", 0, 1),
    Worked(f"{ONE_TO_HALF} max_iterations = 1", POINT, "", "0 0 1", "max_iterations", 0, 1),
    Worked(ONE_TO_HALF, "upper_bounds = 0.75 0.75", "", "0 0 1, -1 0 104, 0 -1 101, 0.5 0 6.5, -0.5 0 8.5, 0 0.5 26, 0 -0.5 26",
           "threshold_delta", 0, 1),
    # What is halved is a whole number of units.
    Worked("initial_delta = 3 threshold_delta = 1", WHOLE, "", f"{BY_THREE}, {FIRST.removeprefix('0 0 1, ')}", "threshold_delta", 0, 1),
    Worked("initial_delta = 3 threshold_delta = 2", WHOLE, "", BY_THREE, "threshold_delta", 0, 1),
    # Of polls that are alike the first one is taken, and one that is no less than the iterate isn't.
    Worked(ONE_LONG, "", "failure_capture recover = 0.5", BELOW.replace("V", "0.5"), "threshold_delta", 1, 2),
    Worked(ONE_LONG, "", "failure_capture recover = 1", f"0 0 1, {FAILED.replace('V', '1')}", "threshold_delta", 0, 1),
]


def text_of(case):
    """The study of a case."""
    return TEXT.format(method=case.method, variables=case.variables, rule=case.rule).encode()


def table_of(case):
    """The lines of its table behind the first one."""
    return [f"{at} NO_ID {it}" for at, it in enumerate(case.rows.split(", "), 1)]


def summary_of(case):
    """The lines of its summary."""
    rows = case.rows.split(", ")
    x1, x2, value = rows[case.best - 1].split()
    return [
        f"<<<<< Study finished: {case.why}",
        f"<<<<< Function evaluation summary: {len(rows)} total ({len(rows) - case.duplicates} new, {case.duplicates} duplicate)",
        f"<<<<< Best evaluation: {case.best}",
        f"<<<<< Best parameters: x1 = {x1}, x2 = {x2}",
        f"<<<<< Best objective function: obj_fn = {value}",
    ]


def faults_of(case, said, table):
    """What is wrong with the texts of a run of a case."""
    for what, found, wanted in (("summary", said.splitlines(), summary_of(case)), ("table", table.splitlines()[1:], table_of(case))):
        if found != wanted:
            yield f"compass search {case.method} {case.variables} {case.rule}: {what} {found}, and not {wanted}"
