"""Studies with children that are killed and resumed: their driver, a script in shell that stands beside them, and what it
says of each attempt by a second reading of its rule.

Nobody tells a child the number of its attempt. So the script counts the attempts of a row in a file. That file is put back
to what the restart file has before a run is resumed: an attempt that is made again says the same.
"""
import functools

from crash_studies import Study
from decimals import decimal_of
from parameters import sci_text

DRIVER, STARTS, LAST = "sim/driver.sh", "sim/starts", "sim/last"
SCRIPT = rb"""# A simulation: driver.sh EVERY CALLS PARAMETERS RESULTS. Of the rows that EVERY divides the first CALLS attempts
# fail, each in another way. Else the values are -ROW.ATTEMPT and, for more than one response, the point. The row and the
# number of the last attempt stand in sim/last; sim/starts gets a line for each start: the row, the attempt and the point.
row= point= responses=
while read -r first second _ fourth _; do
    case $first in
    "{") tag=$second value=$fourth ;;
    *) tag=$second value=$first ;;
    esac
    case $tag in
    x*) point="$point $value" ;;
    functions | DAKOTA_FNS) responses=$value ;;
    eval_id | DAKOTA_EVAL_ID) row=$value ;;
    esac
done <"$3"
read -r last attempt <sim/last
[ "$last" = "$row" ] || attempt=0
attempt=$((attempt + 1))
echo "$row $attempt$point" >>sim/starts
echo "$row $attempt" >sim/last
[ $((row % 4)) -ne 0 ] || sleep 0.01
if [ $((row % $1)) -eq 0 ] && [ "$attempt" -le "$2" ]; then
    case $(((row / $1 + attempt) % 7)) in
    0) kill -KILL $$ ;;
    1) echo FAIL >"$4" ;;
    2) echo "$row values are missing" >"$4" ;;
    3) : >"$4" ;;
    4) printf '%65537s' 1 >"$4" ;;
    *) echo 1 >"$4" && rm -- "$4" ;;
    esac
    exit 1
fi
[ "$responses" -gt 1 ] || point=
echo "-$row.$attempt f$point" >"$4"
"""

TEXT = """{table}
method {method} {steps}
variables continuous_design = {variables} {bounds} descriptors = {labels}
interface analysis_drivers = 'sh {driver} {every} {calls}' fork {files} failure_capture {rule}
responses {responses} no_gradients no_hessians
"""
WITH_TABLE = "environment tabular_data tabular_data_file = 't.dat'"
TWICE = "list_of_points = 0.5 1, 1 1, 0.50 1, -2 3e-7, 1e0 1, 7 7, 0 0, 5e-1 10e-1, 8 -8, 7.0 7, 9 9, 1 2, 0 0, 1 3, 1 4, 1 1"
FLAT = "step_vector = 1 0"
HALVES = "initial_delta = 1 threshold_delta = 0.1"
LONG = "list_of_points = 1e15 1e-9, 123456789012.25 -7, -1e-9 1e-9, 1e15 0.000000001, 3 4, 1234567890123 1, 5 5, 3 4.0, 6 6"

# How many variables there are; the method and its keywords; those of `variables`; those of `interface` on the two files; the
# rule for failures; how many responses there are; and which attempts fail: at the rows that the first number divides so many
# as the second one says.
ROWS = [
    (2, "vector", "num_steps = 20 step_vector = 0.5 -0.25", "", "", "abort", 1, 1, 0),
    (1, "vector", "num_steps = 0 step_vector = 1", "initial_point = -3", "", "abort", 1, 1, 0),
    (3, "vector", "num_steps = 12 step_vector = 1 0 1e-9", "", "file_tag", "retry = 1", 4, 1, 0),
    (2, "vector", "num_steps = 9 final_point = 1 -2", "", "", "retry = 2", 1, 4, 2),
    (2, "vector", "num_steps = 5 final_point = 1 1", "", "aprepro", "retry = 3", 3, 1, 3),
    (2, "vector", "num_steps = 20 final_point = 1 1", "", "", "retry = 3", 1, 9, 8),
    (2, "vector", "num_steps = 20 step_vector = 1 1", "", "file_save", "abort", 1, 8, 1),
    (2, "list", TWICE, "", "file_tag", "recover = 2.50", 1, 3, 1),
    (2, "list", TWICE, "", "file_tag file_save", "retry = 1", 3, 2, 1),
    (2, "list", TWICE, "", "aprepro", "abort", 1, 15, 1),
    (2, "list", LONG, "", "file_save aprepro", "recover = 3*1e6", 3, 2, 1),
    (2, "list", TWICE, "", "asynchronous evaluation_concurrency = 3", "retry = 2", 1, 5, 9),
    (2, "multidim", "partitions = 4 3", "lower_bounds = -2 -2 upper_bounds = 2 1", "aprepro file_save", "recover = 0", 1, 3, 1),
    (3, "multidim", "partitions = 1 2 3", "lower_bounds = 3*-1 upper_bounds = 3*1", "aprepro file_tag", "retry = 1", 4, 7, 1),
    (1, "multidim", "partitions = 18", "lower_bounds = 0 upper_bounds = 1", "results_file = 'a value'", "retry = 1", 2, 16, 2),
    (2, "centered", "step_vector = 1 .1 steps_per_variable = 3 2", "", "file_tag file_save aprepro", "abort", 1, 1, 0),
    (2, "centered", f"{FLAT} steps_per_variable = 2 2", "", "parameters_file = 'a point' file_save", "recover = 1 2 3", 3, 2, 1),
    (2, "compass", f"{HALVES} max_function_evaluations = 40", "", "file_tag", "abort", 1, 1, 0),
    (1, "compass", "initial_delta = 1 threshold_delta = 1e-3", "lower_bounds = -1 upper_bounds = 1", "", "retry = 2", 1, 3, 2),
    (2, "compass", f"{HALVES} max_iterations = 20", "lower_bounds = 2*-2 upper_bounds = 2*2", "file_tag file_save", "recover = -9.5", 1, 4, 1),
    (3, "compass", f"{HALVES} max_iterations = 5", "lower_bounds = 3*-1 upper_bounds = 3*1", "aprepro", "retry = 1", 1, 5, 1),
    (2, "compass", HALVES, "lower_bounds = 2*0 upper_bounds = 2*1", "asynchronous", "abort", 1, 11, 1),
]


def said(every, calls, study, row, point, attempt):
    """The values that the script leaves, or none where they are none."""
    if row % every == 0 and attempt <= calls:
        return None
    return (decimal_of(-(10 * row + attempt), -1), *point)[: len(study.responses.labels)]


class ChildStudy(Study):
    """A study with children, which start with a line each."""

    def __init__(self, text, every, calls):
        beside = {DRIVER: SCRIPT, LAST: b"0 0\n"}
        super().__init__(text, beside, functools.partial(said, every, calls))
        self.numbers = {}
        points = [row[: len(self.parts.variables.labels)] for row in self.rows]
        # The last one has no values where the study was aborted.
        for row, point in enumerate([*points, *(it.point for it in self.entries[-1:])], 1):
            self.numbers.setdefault(point, row)

    def line(self, entry):
        """The line of the start that makes an entry."""
        return " ".join([str(self.numbers[entry.point]), str(entry.attempt), *map(sci_text, entry.point)]).encode()

    def last(self, entries):
        """What the script has in its file after these entries."""
        return b"%d %d\n" % ((self.numbers[entries[-1].point], entries[-1].attempt) if entries else (0, 0))


def text_of(row, has_table):
    """A study's text."""
    variables, method, steps, bounds, files, rule, responses, every, calls = row
    return TEXT.format(
        table=WITH_TABLE if has_table else "",
        method="compass_search" if method == "compass" else f"{method}_parameter_study",
        steps=steps,
        variables=variables,
        bounds=bounds,
        labels=" ".join(f"'x{it + 1}'" for it in range(variables)),
        driver=DRIVER,
        every=every,
        calls=calls,
        files=files,
        rule=rule,
        responses=f"objective_functions = {responses}" if responses != 3 else "response_functions = 3",
    ).encode()


def child_studies():
    """The studies of the rows; some of them ask for no table."""
    return [ChildStudy(text_of(row, at % 6 != 5), *row[-2:]) for at, row in enumerate(ROWS)]
