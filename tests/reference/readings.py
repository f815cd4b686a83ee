#!/usr/bin/env python3
"""Checks the second reading of studies on texts whose outcome is known: readings.py.

In a text with a fault, `[` and `]` stand around the fault's span, and are taken out.
"""
import sys

import worked_searches
from dakota import evaluate, points_of, summary, table
from decimals import decimal_of, number_of, text_of
from restart_file import Journal
from study import Refused, read_study

METHOD = "method vector_parameter_study num_steps = 2 step_vector = 0.5 0.5 "
VARIABLES = "variables continuous_design = 2 "
INTERFACE = "interface analysis_drivers = 'rosenbrock' direct "
FORK = "interface analysis_drivers = 'sh run.sh' fork "
RESPONSES = "responses objective_functions = 1 "
COMPASS = "method compass_search initial_delta = 1 threshold_delta = 0.1 "
GRID = "method multidim_parameter_study partitions = 8 8 "
CENTERED = "method centered_parameter_study step_vector 1 1 steps_per_variable = 2 "
LIST = "method list_parameter_study list_of_points = 0 0 1 1 "


def with_method(text):
    return text + VARIABLES + INTERFACE + RESPONSES


def with_variables(text, method=METHOD):
    return method + text + INTERFACE + RESPONSES


def with_interface(text, responses=RESPONSES):
    return METHOD + VARIABLES + text + responses


def with_responses(text, interface=FORK):
    return METHOD + VARIABLES + interface + text


LEXICAL = [
    ("OpenString", "method ['abc]"),
    ("OpenString", "method ['abc]\n'"),
    ("BadByte", "'a[\t]b'"),
    ("BadByte", "'a[\r]\n"),
    ("BadByte", "a [\\] b"),
    ("BadByte", "method[\\]vector"),
    ("BadByte", "a [\\] # b\n"),
    ("BadByte", "method [\0]"),
    ("BadByte", "fork [\x0b] 'abc"),
    ("Misplaced", "\\ \\\t\\\r\n [fork]"),
    ("Misplaced", "# '\0\xff\n[fork]"),
    ("Misplaced", "=,[fork]\\"),
    ("Misplaced", "[fork]'b'c"),
]
GRAMMAR = [
    ("Misplaced", "[fork]"),
    ("MissingBlock", "[]"),
    ("MissingBlock", METHOD + VARIABLES + "interface \n[]"),
    ("UnknownKeyword", "method [frobnicate]"),
    ("UnknownKeyword", "method output [loud]"),
    ("UnknownKeyword", "method output silent [quiet]"),
    ("UnknownKeyword", "method [silent]"),
    ("UnknownKeyword", "method num_steps [*3]"),
    ("Unsupported", "[SYSTEM]"),
    ("Misplaced", "[5] method"),
    ("Misplaced", "method [5]"),
    ("Misplaced", "method num_steps ['5']"),
    ("Misplaced", "method output [5]"),
    ("Misplaced", "environment tabular_data_file [5]"),
    ("Misplaced", "interface fork ['x']"),
    ("Misplaced", "method num_steps 5 variables [5]"),
    ("Misplaced", "method [descriptors]"),
    ("Repeated", "method model [METHOD]"),
    ("Repeated", "method num_steps 1 [Num_Steps]"),
]
STEPS_1_TO_4 = [
    ("Missing", with_method("[method] num_steps = 2 ")),
    ("Conflict", with_method("method vector_parameter_study num_steps 2 [compass_search] list_parameter_study ")),
    ("Missing", with_variables("[variables] initial_point 0 0 ")),
    ("WrongCount", with_variables("variables [continuous_design] ")),
    ("WrongCount", with_variables("variables [continuous_design] 2*2 ")),
    ("BadWhole", with_variables("variables continuous_design [0*2] ")),
    ("BadWhole", with_variables("variables continuous_design [101] ")),
    ("BadWhole", with_variables("variables continuous_design [2.0] ")),
    ("Missing", with_responses("[responses] no_gradients ")),
    ("Conflict", with_responses("responses response_functions 1 [objective_functions] 1 ")),
    ("BadWhole", with_responses("responses response_functions [0] ")),
    ("Missing", with_interface("[interface] fork ")),
    ("WrongCount", with_interface("interface [analysis_drivers] fork ")),
    ("Unsupported", with_interface("interface [analysis_drivers] 'a' 'b' fork ")),
    ("WrongCount", with_interface("interface analysis_drivers ['  '] fork ")),
    ("WrongCount", with_interface("interface analysis_drivers [''] fork ")),
    ("Missing", with_interface("[interface] analysis_drivers 'rosenbrock' ")),
    ("Conflict", with_interface("interface direct analysis_drivers 'rosenbrock' [fork] ")),
    ("Unsupported", with_interface("interface direct analysis_drivers ['Rosenbrock'] ")),
    ("Unsupported", with_interface("interface direct analysis_drivers [' rosenbrock'] ")),
    ("Conflict", METHOD + "variables continuous_design 3 interface analysis_drivers 'rosenbrock' [direct] " + RESPONSES),
    ("Conflict", with_responses("responses response_functions 2 ", INTERFACE.replace("direct", "[direct]"))),
]
STEPS_5_AND_6 = [
    ("BadWhole", with_method("method vector_parameter_study step_vector 1 1 num_steps [10001] ")),
    ("BadNumber", with_method("method vector_parameter_study step_vector [1x] 1 num_steps 10001 ")),
    ("BadWhole", with_method("method vector_parameter_study step_vector 1x [0*1] num_steps 2 ")),
    ("BadWhole", with_method("method vector_parameter_study step_vector 1x [4000001*1] num_steps 2 ")),
    ("BadNumber", with_method("method vector_parameter_study step_vector 1 4000000*1 [1x] num_steps 2 ")),
    ("BadNumber", with_method("method vector_parameter_study step_vector 1 [2*] num_steps 2 ")),
    ("BadNumber", with_method("method vector_parameter_study step_vector 1 [2*3*4] num_steps 2 ")),
    ("BadNumber", with_method("method vector_parameter_study step_vector 1 [1e401] num_steps 2 ")),
    ("BadNumber", with_method(f"method vector_parameter_study step_vector 1 [{'1' * 35}] num_steps 2 ")),
    ("TooMany", with_method("method vector_parameter_study step_vector 4000000*1 [1] 1 num_steps 2 ")),
    ("WrongCount", with_method("method vector_parameter_study [step_vector] 4000000*1 num_steps 2 ")),
    ("WrongCount", with_method("method vector_parameter_study [num_steps] 2*2 step_vector 1 1 ")),
    ("WrongCount", with_method("method list_parameter_study [list_of_points] ")),
    ("WrongCount", with_method("method list_parameter_study [list_of_points] 1 2 3 ")),
    ("WrongCount", VARIABLES + INTERFACE + RESPONSES + METHOD + "[output] "),
    ("WrongCount", "environment [tabular_data_file] " + with_method(METHOD)),
    ("BadNumber", with_method("method compass_search initial_delta [0] threshold_delta -1 ")),
    ("BadNumber", with_interface(INTERFACE + "failure_capture recover [1e10000] ")),
    ("WrongCount", with_interface(INTERFACE + "failure_capture [recover] 1 2 ")),
    ("BadLabel", with_variables(VARIABLES + "descriptors 'x' ['1x'] ")),
    ("BadLabel", with_variables(VARIABLES + "descriptors 'x' ['a b'] ")),
    ("BadLabel", with_variables(VARIABLES + "descriptors 'x' [''] ")),
    ("BadLabel", with_variables(VARIABLES + f"descriptors 'x' ['{'x' * 256}'] ")),
    ("Conflict", with_variables(VARIABLES + "descriptors 'x' [\"x\"] ")),
    ("BadLabel", with_variables(VARIABLES + "descriptors 'x' 'x' ") + "descriptors ['1'] "),
    ("Conflict", with_responses("responses response_functions 1 response_descriptors 'a' [descriptors] 'a' ")),
    ("BadLabel", with_interface(INTERFACE + "results_file [''] ")),
]
STEPS_7_TO_12 = [
    ("Conflict", with_method(METHOD + "[partitions] 1 1 list_of_points 1 1 ")),
    ("Conflict", with_method(METHOD + "[max_iterations] 1 ")),
    ("Missing", with_method("method [vector_parameter_study] num_steps 2 ")),
    ("Missing", with_method("method [compass_search] initial_delta 2 ")),
    ("Conflict", with_method("method vector_parameter_study final_point 1 1 num_steps 2 [step_vector] 1 1 ")),
    ("Missing", with_variables("[variables] continuous_design 2 lower_bounds 0 0 ", GRID)),
    ("Conflict", COMPASS.replace("compass_search", "[compass_search]") + VARIABLES + FORK + "responses response_functions 1 "),
    ("Conflict", with_interface(INTERFACE + "retry 2 [abort] ")),
    ("Missing", with_interface(INTERFACE + "[retry] 2 ")),
    ("Missing", with_interface(INTERFACE + "[failure_capture] ")),
    ("Missing", with_interface(INTERFACE + "[evaluation_concurrency] 2 ")),
    ("Conflict", with_interface("[interface] analysis_drivers 'a' fork parameters_file 'results.out' ")),
    ("Conflict", with_variables(VARIABLES + "upper_bounds 3 [2] lower_bounds 3 2.1 initial_point 9 9 ")),
    ("Conflict", with_variables(VARIABLES + "upper_bounds [2*2] lower_bounds 3 2.1 ")),
    ("OutsideBounds", with_variables(VARIABLES + "upper_bounds 3 2 initial_point 3 [2.1] ")),
    ("OutsideBounds", with_variables("[variables] continuous_design 2 lower_bounds 0 1e-28 ", CENTERED)),
    ("OutsideBounds", with_variables("[variables] continuous_design 2 lower_bounds 0 1 ", COMPASS)),
    ("TooMany", "method list_parameter_study [list_of_points] 200002*0 " + VARIABLES + FORK + RESPONSES),
    ("TooMany", "method multidim_parameter_study [partitions] 17*1 variables continuous_design 17 lower_bounds 17*0 "
     "upper_bounds 17*0 " + FORK + RESPONSES),
    ("TooMany", "method [compass_search] initial_delta 1 threshold_delta 1 max_function_evaluations 100000 variables "
     "continuous_design 40 " + FORK + RESPONSES),
    ("TooMany", "method centered_parameter_study step_vector 5*1 [steps_per_variable] 10000 variables continuous_design 5 "
     + FORK + RESPONSES),
    ("OffGrid", with_variables(VARIABLES + "initial_point 1 [1e-29] ")),
    ("OffGrid", with_variables(VARIABLES + "initial_point 0 0 lower_bounds -1e20 [-1e-9] ", LIST)),
    ("Missing", "environment [tabular_data_file] 'a' " + with_method(METHOD)),
]
ACCEPTED = [
    (with_method(METHOD), (-29, 3, None)),
    ("environment tabular_data " + with_method(LIST), (-28, 2, b"dakota_tabular.dat")),
    (with_method(CENTERED), (-28, 9, None)),
    (with_method(COMPASS), (-28, 1000, None)),
    (with_variables(VARIABLES + "lower_bounds 2*-2 upper_bounds 2*3e2 ", GRID + "\\\n output Silent # \0\n"), (-26, 81, None)),
    ("environment,tabular_data=tabular_data_file\"it's\"" + with_method(METHOD.upper()), (-29, 3, b"it's")),
    ("method list_parameter_study list_of_points 0100000*0 variables continuous_design 1 " + FORK + RESPONSES, (-28, 100000, None)),
    (with_variables(VARIABLES + "lower_bounds 1 1 ", LIST), (-28, 2, None)),
]
# Bounds that set the unit, so that points are whole numbers, or whole tenths.
WHOLE = VARIABLES + "upper_bounds 1e28 9 "
TENTHS = VARIABLES + "upper_bounds 1e27 9 "
POINTS = [
    (with_variables(VARIABLES + "initial_point 1 -1 "), "1 -1, 1.5 -0.5, 2 0"),
    (with_variables(WHOLE, "method vector_parameter_study num_steps 2 final_point 3 -5 "), "0 0, 2 -3, 3 -5"),
    (with_variables(WHOLE, "method vector_parameter_study num_steps 3 final_point 4 -5 "), "0 0, 1 -2, 3 -3, 4 -5"),
    (with_variables(TENTHS + "initial_point 1 -1 ", "method vector_parameter_study num_steps 4 final_point 0 1 "),
     "1 -1, 0.7 -0.5, 0.5 0, 0.2 0.5, 0 1"),
    (with_variables(VARIABLES + "initial_point 7 8 ", "method vector_parameter_study num_steps 0 final_point 3 -5 "), "7 8"),
    (with_method("method vector_parameter_study num_steps 3 final_point 1 0 "),
     "0 0, 0.3333333333333333333333333333 0, 0.6666666666666666666666666667 0, 1 0"),
    (with_method("method list_parameter_study list_of_points 3*0 1 0 0.0 "), "0 0, 0 1, 0 0"),
    (with_method(CENTERED), "0 0, -2 0, -1 0, 1 0, 2 0, 0 -2, 0 -1, 0 1, 0 2"),
    (with_variables(VARIABLES + "initial_point 5 6 ", "method centered_parameter_study step_vector -1 0 steps_per_variable 2 1 "),
     "5 6, 7 6, 6 6, 4 6, 3 6, 5 6, 5 6"),
    (with_method("method centered_parameter_study step_vector 1 2 steps_per_variable 0 1 "), "0 0, 0 -2, 0 2"),
    (with_variables(VARIABLES + "lower_bounds 0 -1 upper_bounds 1 1 ", "method multidim_parameter_study partitions 1 2 "),
     "0 -1, 1 -1, 0 0, 1 0, 0 1, 1 1"),
    (with_variables(VARIABLES + "initial_point 1e28 0 lower_bounds -3 7 upper_bounds 0 7 ",
     "method multidim_parameter_study partitions 2 1 "), "-3 7, -1 7, 0 7, -3 7, -1 7, 0 7"),
]
# Rules for failures, the values of the rows, the end, and the best row. The square of the long number has 35 digits.
FAILING = "method list_parameter_study list_of_points 1 1, 123456789012345678 0, 0 0, 123456789012345678 0 "
RULES = [
    ("", "0", "aborted: evaluation 2 failed, attempts 1", 1),
    ("failure_capture abort ", "0", "aborted: evaluation 2 failed, attempts 1", 1),
    ("failure_capture retry 1 ", "0", "aborted: evaluation 2 failed, attempts 2", 1),
    ("failure_capture retry 1000 ", "0", "aborted: evaluation 2 failed, attempts 1001", 1),
    ("failure_capture recover 1e6 ", "0 1000000 1 1000000", "finished: complete", 1),
    ("failure_capture recover 0 ", "0 0 1 0", "finished: complete", 1),
    ("failure_capture recover -5 ", "0 -5 1 -5", "finished: complete", 2),
]
NUMBERS = [
    ("0.10", "0.1"),
    (".5", "0.5"),
    ("5.", "5"),
    (".", None),
    ("1e", None),
    ("12e2", "1200"),
    ("1e-7", "1e-07"),
    ("1e34", "1e+34"),
    ("-0e99999", "0"),
    ("1" * 35, None),
    ("1e10000", None),
]


def outcome(text):
    """The fault of a text, or the parts of its study that stand above."""
    try:
        study = read_study(text)
    except Refused as refused:
        return tuple(refused.fault)
    return study.unit, study.limit, study.table


def points(text):
    """The points of a study, as they stand in a table."""
    study = read_study(text)
    return ", ".join(" ".join(text_of(decimal_of(it, study.unit)) for it in point) for point in points_of(study))


def ended(text):
    """The values of a study's rows, how it ended, and its best row."""
    study = read_study(text)
    rows, ending = evaluate(study, Journal())
    end, _, best, *_ = summary(study, rows, ending).splitlines()
    values = " ".join(text_of(it[-1]) for it in rows)
    return values, end.removeprefix("<<<<< Study "), int(best.removeprefix("<<<<< Best evaluation: "))


def faults_of_searches():
    """What is wrong with the compass searches that are worked out by hand."""
    for case in worked_searches.CASES:
        study = read_study(worked_searches.text_of(case))
        rows, ending = evaluate(study, Journal())
        yield from worked_searches.faults_of(case, summary(study, rows, ending), table(study, rows))


def failed():
    for kind, marked in LEXICAL + GRAMMAR + STEPS_1_TO_4 + STEPS_5_AND_6 + STEPS_7_TO_12:
        text = marked.encode("latin-1")
        start, end = text.index(b"["), text.index(b"]") - 1
        told = outcome(text.replace(b"[", b"").replace(b"]", b""))
        if told != (kind, start, end):
            yield f"{marked!r}: {told}, and not {kind}"
    for text, wanted in ACCEPTED:
        if outcome(text.encode()) != wanted:
            yield f"{text!r}: {outcome(text.encode())}, and not {wanted}"
    for text, wanted in POINTS:
        if points(text.encode()) != wanted:
            yield f"{text!r}: {points(text.encode())}, and not {wanted}"
    for rule, *wanted in RULES:
        told = ended((FAILING + VARIABLES + INTERFACE + rule + RESPONSES).encode())
        if told != tuple(wanted):
            yield f"{rule or 'no rule'}: {told}, and not {wanted}"
    for text, wanted in NUMBERS:
        number = number_of(text.encode())
        if (number and text_of(number)) != wanted:
            yield f"{text}: {number}, and not {wanted}"
    yield from faults_of_searches()
    if outcome(b" " * 1_048_577) != ("TooLong", 0, 0) or outcome(b"'" * 1_048_577) != ("TooLong", 0, 0):
        yield "a text that is too long"


def main():
    faults = [*failed()]
    for it in faults:
        print(f"readings: {it}")
    print(f"readings: {len(faults)} faults")
    return 1 if faults else 0


if __name__ == "__main__":
    sys.exit(main())
