"""Studies with children by chance, and for each of their attempts a results file that its child is to leave."""
import collections

from dakota import evaluate
from decimals import decimal_of
from restart_file import Journal
from results import MOST_BYTES, read_results
from results_texts import FAILURES, VALUES, results_text
from simulation_points import label
from study import read_study
from study_texts import quoted

DRIVER, SEEN, LEFT = "driver.sh", "seen", "left"
# The words of the driver, before the names of the two files.
WORDS = ["sh driver.sh", "./driver.sh", f"sh  {DRIVER} -x 'a b", " ./driver.sh * $HOME # \\ , = 1 "]
SCRIPT = rb"""#!/bin/sh
# Keeps what it is given, and leaves the results file of this call: driver.sh WORDS PARAMETERS RESULTS. What stands on standard
# input, files of the program that are open here too, and a results file that is there are told as further words.
read -r call <seen/calls
call=$((call + 1))
echo "$call" >seen/calls
echo "$call is printed"
echo "$call is told" >&2
{
    printf '%s\n' "$@"
    read -r input
    [ -z "$input" ] || echo "input $input"
    for file in 3 4 5 6 7 8 9; do
        [ ! -e /proc/$$/fd/$file ] || echo "file $file"
    done
    while [ $# -gt 2 ]; do
        shift
    done
    [ ! -e "$2" ] || echo "results"
} >"seen/$call.words"
cp -- "$1" "seen/$call"
[ ! -e "left/$call" ] || mv -- "left/$call" "$2"
[ ! -e "left/$call.in" ] || { rm -- "$1" && mv -- "left/$call.in" "$1"; }
[ ! -e "left/$call.gone" ] || rm -- "left/$call.gone" driver.sh
exit $((call % 3))
"""
TEXT = """{table}
method {method}
variables continuous_design = {variables} {others} descriptors = {variable_labels}
interface analysis_drivers = {driver} fork {interface} failure_capture recover = {recovered}
responses {kind} = {responses} descriptors = {response_labels}
"""
TABLE = "environment tabular_data tabular_data_file = 't.dat'"
PARAMETERS = ["", "", "", "point.in", "-p", "a b", "'", "sub/p.in", "p=$x", "*"]
RESULTS = ["", "", "", "values", "-r", "c  d", '"', "sub/r", "#", "?"]
MOST_NUMBERS = 6000


# Points


def grid_number(random, top):
    """A number whose first digit is at a power of ten up to the top, and its last one at most 28 below the top."""
    digits = random.choice([1, 1, 2, 3, 8, 15, 16, 17, 28, 29, random.randrange(1, 30)])
    last = random.randrange(top - 28, top + 2 - digits) if random.random() < 0.5 else top + 1 - digits
    mantissa = random.choice([0, 10 ** (digits - 1), 10**digits - 1, *[random.randrange(10 ** (digits - 1), 10**digits)] * 6])
    return decimal_of(random.choice([1, -1]) * mantissa, last)


def some_top(random):
    """The greatest power of ten of a study's numbers."""
    return random.choice([0, 0, 1, 5, 14, 15, 28, 29, 99, 100, -1, -99, -100, 400, -372, random.randrange(-372, 401)])


def distinct_points(random, count, width):
    """So many points, of which each has another number than the others somewhere."""
    top, found = some_top(random), {}
    while len(found) < count:
        found[tuple(grid_number(random, top) for _ in range(width))] = None
    return [*found]


# Results files


def exactly(random, content, size):
    """A content with a comment or white space behind it, up to a size."""
    fill = random.choice([b"#", b" ", b"\n", b"#9"])
    return (content + b"\n" + fill * size)[:size]


def with_a_byte(random, content):
    """A content with a byte more, less or another, or which ends there."""
    at = random.randrange(len(content) + 1)
    byte = random.choice([b"", bytes([random.randrange(256)]), b"\n", b" ", b"e"])
    return random.choice([content[:at] + byte + content[at:], content[:at] + byte + content[at + 1 :], content[:at]])


def of_table(random, count):
    """A text of the tables for so many responses, where they have one, or none where there is no file."""
    texts = [text for text, values in VALUES if len(values.split()) == count]
    texts += [text for text, wanted in FAILURES if wanted == count]
    return random.choice(texts or [b"1 2"])


def of_chance(random, count):
    """A text by chance for so many responses."""
    while True:
        text, wanted, _ = results_text(random)
        if wanted == count:
            return text


def left_file(random, count):
    """The bytes that a child leaves, or none."""
    content = of_table(random, count) if random.random() < 0.25 else of_chance(random, count)
    way = random.random()
    if content is None or way < 0.03:
        return None
    if way < 0.07:
        return exactly(random, content, MOST_BYTES + random.choice([-1, 0, 0, 1, 1, 2, MOST_BYTES]))
    return with_a_byte(random, content) if way < 0.17 else content


# Studies


def number_text(decimal):
    mantissa, exponent = decimal
    return f"{mantissa}e{exponent}" if exponent else str(mantissa)


def quoted_labels(random, count):
    """Distinct labels in quotes, none of which has both quotes in it."""
    found = {}
    while len(found) < count:
        found.update((it, quoted(random, it)) for it in [label(random)] if not {*"'\""} <= {*it})
    return " ".join(found.values())


def interface_words(random):
    """The keywords of `interface` that tell of the two files."""
    words = [it for it in ("file_tag", "file_save", "aprepro") if random.random() < 0.4]
    if random.random() < 0.2:
        count = random.choice(["", " evaluation_concurrency = 1", " evaluation_concurrency = 7"])
        words.append(f"asynchronous{count}")
    for keyword, names in (("parameters_file", PARAMETERS), ("results_file", RESULTS)):
        name = random.choice(names)
        words += [f"{keyword} = {quoted(random, name)}"] if name else []
    random.shuffle(words)
    return " ".join(words)


def number_texts(decimals):
    return " ".join(map(number_text, decimals))


def list_words(random, count, width):
    """The words of a list of so many points, and none for `variables`."""
    points = distinct_points(random, count, width)
    return f"list_parameter_study list_of_points = {number_texts(it for point in points for it in point)}", ""


def step_length(random, top):
    """A number above zero."""
    mantissa, exponent = grid_number(random, top)
    return (abs(mantissa), exponent) if mantissa else (1, top - 28)


def search_words(random, count, width):
    """The words of a compass search of at most so many rows, and those for `variables`."""
    top = some_top(random)
    initial = number_texts(grid_number(random, top) for _ in range(width))
    threshold = random.choice([(1, top - 28), (1, top - 28), step_length(random, top)])
    method = f"compass_search initial_delta = {number_text(step_length(random, top))} threshold_delta = {number_text(threshold)}"
    sides = [f"{it} = {initial}" for it in ("lower_bounds", "upper_bounds") if random.random() < 0.1]
    return f"{method} max_function_evaluations = {count}", " ".join([f"initial_point = {initial}", *sides])


# A study's text, its parts, the results file that each of its attempts leaves, the row for which each is made, and what comes of
# it: its rows, how it ends and its attempts.
Generated = collections.namedtuple("Generated", "text parts files numbers rows ending entries")


def generated(random, count, words=WORDS):
    """A study of so many rows, or of fewer where the points have many numbers. Each row of a list has a point of its own; a
    compass search may end before."""
    is_search = random.random() < 0.3
    variables = random.choice([1, 2, 2, 3, 3, 10, 40, 100])
    responses = 1 if is_search else random.choice([1, 1, 1, 2, 2, 3, 5])
    method, others = (search_words if is_search else list_words)(random, min(count, max(2, MOST_NUMBERS // variables)), variables)
    text = TEXT.format(
        table=random.choice([TABLE, TABLE, TABLE, ""]),
        method=method,
        variables=variables,
        others=others,
        variable_labels=quoted_labels(random, variables),
        driver=quoted(random, random.choice(words)),
        interface=interface_words(random),
        recovered=" ".join(f"{random.randrange(-99, 99)}e{random.randrange(-9, 9)}" for _ in range(responses)),
        kind="objective_functions" if is_search else random.choice(["objective_functions", "response_functions"]),
        responses=responses,
        response_labels=quoted_labels(random, responses),
    ).encode()
    parts = read_study(text)
    return Generated(text, parts, *came_of(random, parts))


def came_of(random, parts):
    """The results files of a study's attempts, by chance, and what comes of them."""
    journal, count, files, numbers = Journal(), len(parts.responses.labels), [], []

    def read(study, row, point, attempt):
        files.append(left_file(random, count))
        numbers.append(row)
        values = read_results(files[-1], count)
        return None if values is None else tuple(values)

    rows, ending = evaluate(parts, journal, read)
    return files, numbers, rows, ending, journal.book.entries
