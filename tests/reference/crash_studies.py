"""The studies that are killed and resumed: some by hand, of each kind and rule and size, and others by chance."""
import random
import re

from dakota import attempt_of, evaluate
from restart_file import Journal
from run_texts import run_text
from study import Refused, read_study

TEXT = """environment tabular_data tabular_data_file = 't.dat'
method {method}
variables continuous_design = 2 {variables} descriptors = 'x1' 'x2'
interface analysis_drivers = 'rosenbrock' direct {rule}
responses {responses} = 1 no_gradients no_hessians
"""

# The method, the keywords of `variables`, the rule for failures.
ROWS = [
    ("vector_parameter_study num_steps = 2 step_vector = 0.5 0.5", "initial_point = 0 0", ""),
    ("vector_parameter_study num_steps = 0 step_vector = 0.5 0.5", "", ""),
    ("vector_parameter_study num_steps = 300 step_vector = 0.5 -0.25", "initial_point = -20 3", ""),
    ("vector_parameter_study num_steps = 3 final_point = 1 1", "", "failure_capture recover = 7"),
    ("vector_parameter_study num_steps = 3 final_point = 1 1", "", "failure_capture retry = 2"),
    ("vector_parameter_study num_steps = 7 final_point = 7 1", "", "failure_capture retry = 300"),
    ("vector_parameter_study num_steps = 90 final_point = 1 1", "", "failure_capture recover = -1e-3"),
    ("vector_parameter_study num_steps = 3 final_point = 1 1", "", "failure_capture abort"),
    ("list_parameter_study list_of_points = 0.10 0 1e-1 0", "", ""),
    ("list_parameter_study list_of_points = 1 1 0 0 1 1 2 3 0 0.0 5 5 1 1 -1 2", "", "failure_capture retry = 1"),
    ("centered_parameter_study step_vector = 1 0.1 steps_per_variable = 3 2", "initial_point = 0.5 1", ""),
    ("multidim_parameter_study partitions = 8 8", "lower_bounds = -2 -2 upper_bounds = 2 2", ""),
    ("multidim_parameter_study partitions = 3 3", "lower_bounds = -2 -2 upper_bounds = 2 2", "failure_capture recover = 5"),
    ("multidim_parameter_study partitions = 3 3", "lower_bounds = -2 -2 upper_bounds = 2 2", "failure_capture retry = 4"),
    ("multidim_parameter_study partitions = 24 16", "lower_bounds = -2 -2 upper_bounds = 4 2", "failure_capture retry = 3"),
    ("multidim_parameter_study partitions = 21 19", "lower_bounds = -2 -2 upper_bounds = 2 2", "failure_capture recover = 0"),
    ("compass_search initial_delta = 1 threshold_delta = 0.25", "lower_bounds = -2 -2 upper_bounds = 2 2", ""),
    ("compass_search initial_delta = 1 threshold_delta = 1e-3 max_function_evaluations = 400", "", ""),
    ("compass_search initial_delta = 0.5 threshold_delta = 1e-9", "initial_point = -1.2 1", "failure_capture recover = 1e3"),
    ("compass_search initial_delta = 0.1 threshold_delta = 1e-9", "initial_point = -1.2 1", "failure_capture retry = 7"),
    ("compass_search initial_delta = 1 threshold_delta = 1e-8", "upper_bounds = 1e20 0.5", "failure_capture recover = 0.5"),
    ("compass_search initial_delta = 3 threshold_delta = 0.1", "lower_bounds = 2*0 upper_bounds = 2*0", ""),
    ("compass_search initial_delta = 1 threshold_delta = 1e-9 max_iterations = 37", "initial_point = 3 -4", ""),
]

BY_CHANCE = 24
MOST_ATTEMPTS = 1200


class Study:
    """A study's text, its parts, the files that stand beside it, and the attempts that it makes and what comes of them."""

    def __init__(self, text, beside=(), make=attempt_of):
        self.text, self.parts, self.beside = text, read_study(text), dict(beside)
        journal = Journal()
        self.rows, self.ending = evaluate(self.parts, journal, make)
        self.entries = journal.book.entries


def text_by_chance(number, seed):
    """The text of a study with `direct` whose table is the file `t.dat`, and which makes not too many attempts."""
    source = random.Random(f"{seed} study {number}")
    while True:
        text = run_text(source)
        try:
            study = read_study(text)
        except Refused:
            continue
        if study.interface.is_direct and study.table == b"t.dat" and study.limit <= MOST_ATTEMPTS:
            return text


def all_studies(seed):
    studies = []
    for at, (method, variables, rule) in enumerate(ROWS):
        are_any = at % 5 == 4 and not method.startswith("compass_search")
        responses = "response_functions" if are_any else "objective_functions"
        studies.append(Study(TEXT.format(method=method, variables=variables, rule=rule, responses=responses).encode()))
    studies += [Study(text_by_chance(it, seed)) for it in range(BY_CHANCE)]
    return studies


def named_table(text, name):
    """The text with another name for its table."""
    return re.sub(rb"'t\.dat'", b"'%s'" % name, text)
