"""A second reading of a study's text: its parts, or its first fault.

The rules are those of docs/FORMATS.md: tokens, blocks and keywords, values, and the reader's twelve steps. A span is two
places in the text, counted in bytes from 0, of which the second is behind the last byte.
"""
import collections
import functools
import itertools
import math
import re

from decimals import is_less, leading, number_of

TEXT_LIMIT = 1_048_576
VALUES_LIMIT = 4_000_000
EVALUATIONS_LIMIT = 100_000
NUMBERS_LIMIT = 4_000_000
STUDY_EXPONENT_LIMIT = 400
UNIT_DIGITS = 28
COUNT_LIMIT = 100
LABEL_LIMIT = 255
ITERATIONS = 1_000
EVALUATIONS = 1_000
CONCURRENCY = 64

Fault = collections.namedtuple("Fault", "kind start end")
Token = collections.namedtuple("Token", "kind start end")


class Refused(Exception):
    """The text is refused, for this fault."""

    def __init__(self, kind, start, end):
        super().__init__(kind, start, end)
        self.fault = Fault(kind, start, end)


def at(kind, spanned):
    return Fault(kind, spanned.start, spanned.end)


# The table of words. A keyword takes values of one kind: whole numbers from one number up to another, numbers, strings,
# or one of the words that say how much to write.

Keyword = collections.namedtuple("Keyword", "takes count low high", defaults=(None, None))

NOTHING = Keyword("nothing", "none")
MODE = Keyword("mode", "one")


def wholes(low, high, count="one"):
    return Keyword("wholes", count, low, high)


def numbers(count):
    return Keyword("numbers", count)


def strings(count):
    return Keyword("strings", count)


TABLE = {
    "environment": {
        "tabular_data": NOTHING,
        "tabular_data_file": strings("one"),
    },
    "method": {
        "vector_parameter_study": NOTHING,
        "list_parameter_study": NOTHING,
        "centered_parameter_study": NOTHING,
        "multidim_parameter_study": NOTHING,
        "compass_search": NOTHING,
        "num_steps": wholes(0, 10_000),
        "step_vector": numbers("per variable"),
        "final_point": numbers("per variable"),
        "list_of_points": numbers("rows of variables"),
        "steps_per_variable": wholes(0, 10_000, "one or per variable"),
        "partitions": wholes(1, 10_000, "per variable"),
        "initial_delta": numbers("one"),
        "threshold_delta": numbers("one"),
        "max_iterations": wholes(0, 10_000),
        "max_function_evaluations": wholes(1, 100_000),
        "output": MODE,
    },
    "model": {
        "single": NOTHING,
    },
    "variables": {
        "continuous_design": wholes(1, COUNT_LIMIT),
        "initial_point": numbers("per variable"),
        "lower_bounds": numbers("per variable"),
        "upper_bounds": numbers("per variable"),
        "descriptors": strings("per variable"),
    },
    "interface": {
        "analysis_drivers": strings("any"),
        "fork": NOTHING,
        "direct": NOTHING,
        "parameters_file": strings("one"),
        "results_file": strings("one"),
        "file_tag": NOTHING,
        "file_save": NOTHING,
        "aprepro": NOTHING,
        "asynchronous": NOTHING,
        "evaluation_concurrency": wholes(1, 64),
        "failure_capture": NOTHING,
        "abort": NOTHING,
        "retry": wholes(1, 1_000),
        "recover": numbers("per response"),
    },
    "responses": {
        "objective_functions": wholes(1, COUNT_LIMIT),
        "response_functions": wholes(1, COUNT_LIMIT),
        "descriptors": strings("per response"),
        "response_descriptors": strings("per response"),
        "no_gradients": NOTHING,
        "no_hessians": NOTHING,
    },
}
KEYWORDS = {name for keywords in TABLE.values() for name in keywords}
NEEDED_BLOCKS = ("method", "variables", "interface", "responses")
MODES = {"silent", "quiet", "normal", "verbose", "debug"}
REFUSED = set(
    "continuation system python matlab scilab grid batch input_filter output_filter analysis_components "
    "analysis_concurrency deactivate verbatim work_directory analytic_gradients numerical_gradients mixed_gradients "
    "analytic_hessians numerical_hessians quasi_hessians mixed_hessians calibration_terms "
    "nonlinear_inequality_constraints nonlinear_equality_constraints weights discrete_design_range discrete_design_set "
    "continuous_state normal_uncertain uniform_uncertain surrogate nested freeform output_precision import_points_file "
    "id_method id_model id_variables id_interface id_responses model_pointer variables_pointer interface_pointer "
    "responses_pointer method_pointer top_method_pointer".split()
)

# A method's own keywords: of each group it needs one.

NEEDS = {
    "vector_parameter_study": [["num_steps"], ["step_vector", "final_point"]],
    "list_parameter_study": [["list_of_points"]],
    "centered_parameter_study": [["step_vector"], ["steps_per_variable"]],
    "multidim_parameter_study": [["partitions"]],
    "compass_search": [["initial_delta"], ["threshold_delta"]],
}
MAY_HAVE = {"compass_search": ["max_iterations", "max_function_evaluations"]}
SIZED_BY = {
    "vector_parameter_study": "num_steps",
    "list_parameter_study": "list_of_points",
    "centered_parameter_study": "steps_per_variable",
    "multidim_parameter_study": "partitions",
    "compass_search": "compass_search",
}
BEGINS_AT_INITIAL = {"vector_parameter_study", "centered_parameter_study", "compass_search"}
RULES = ("abort", "retry", "recover")
FILES = ("parameters_file", "results_file")


# Tokens

PIECE = re.compile(
    rb"""(?P<space>[\t\n\r ]+|\\[\t\r \\]*(?=\n|\Z))"""
    rb"""|(?P<separator>[,=])"""
    rb"""|(?P<comment>\#[^\n]*)"""
    rb"""|(?P<Quoted>'[ -&(-~]*'|"[ !\#-~]*")"""
    rb"""|(?P<Number>[0-9+.\-][^\x00-\x20\x7f-\xff'",=\#\\]*)"""
    rb"""|(?P<Word>[^\x00-\x20\x7f-\xff'",=\#\\]+)"""
)
IN_STRING = {b"'": re.compile(rb"[ -&(-~]*"), b'"': re.compile(rb"[ !#-~]*")}


def lexical_fault(text, place):
    """The fault of a place where no piece begins."""
    inside = IN_STRING.get(text[place : place + 1])
    if not inside:
        return Refused("BadByte", place, place + 1)
    end = inside.match(text, place + 1).end()
    if text[end : end + 1] in (b"", b"\n"):
        return Refused("OpenString", place, end)
    return Refused("BadByte", end, end + 1)


def tokens_of(text):
    """The tokens of a text."""
    place, tokens = 0, []
    while place < len(text):
        piece = PIECE.match(text, place)
        if not piece:
            raise lexical_fault(text, place)
        if piece.lastgroup in ("Quoted", "Number", "Word"):
            tokens.append(Token(piece.lastgroup, place, piece.end()))
        place = piece.end()
    return tokens


# Values

DIGITS = re.compile(rb"[0-9]+")


def whole_of(text):
    """The whole number that a text of digits says, where it isn't above every range."""
    if not DIGITS.fullmatch(text):
        return None
    digits = text.lstrip(b"0") or b"0"
    return int(digits) if len(digits) <= len(str(VALUES_LIMIT)) else None


class Value:
    """A value as it is written: its span, the bytes that say it, and how many times it stands, or none where N is wrong."""

    def __init__(self, text, token):
        _, self.start, self.end = token
        self.copies, self.text = 1, text[self.start : self.end]
        if token.kind == "Quoted":
            self.text = self.text[1:-1]
        elif token.kind == "Number" and re.match(rb"[0-9]+\*", self.text):
            times, _, self.text = self.text.partition(b"*")
            copies = whole_of(times)
            self.copies = copies if copies and copies <= VALUES_LIMIT else None

    @functools.cached_property
    def whole(self):
        return whole_of(self.text)

    @functools.cached_property
    def number(self):
        return number_of(self.text)

    def is_whole_in(self, low, high):
        return self.copies is not None and self.whole is not None and low <= self.whole <= high


class Item:
    """A keyword of a block, with its values."""

    def __init__(self, block, name, token):
        self.block, self.name, self.keyword = block, name, TABLE[block][name]
        _, self.start, self.end = token
        self.values = []

    def count(self):
        """How many values stand there; one with a wrong N stands once."""
        return sum(1 if it.copies is None else it.copies for it in self.values)

    def expanded(self):
        """The values, each as often as it stands."""
        return [it for value in self.values for it in [value] * value.copies]


# Blocks and keywords


class Document:
    """The blocks by name, and the items in the order of the text."""

    def __init__(self):
        self.blocks, self.items = {}, []

    def get(self, block, name):
        """The item of a keyword, or none."""
        return next(iter(self.of(block, [name])), None)

    def of(self, block, names):
        """The items of these keywords, in the order of the text."""
        return [it for it in self.items if it.block == block and it.name in names]

    def missing(self, block):
        return at("Missing", self.blocks[block])

    # What stands for sure, once the steps that ask for it are taken.

    @functools.cached_property
    def method(self):
        return self.of("method", NEEDS)[0]

    @functools.cached_property
    def n(self):
        return self.get("variables", "continuous_design").values[0].whole

    @functools.cached_property
    def responses_item(self):
        return self.of("responses", ["objective_functions", "response_functions"])[0]

    @functools.cached_property
    def m(self):
        return self.responses_item.values[0].whole


VALUE_KINDS = {"Number": ("wholes", "numbers"), "Quoted": ("strings",)}


def word_fault(document, block, item, word):
    """The kind of a word's fault, or none; the item is that of the keyword before it."""
    if item and item.keyword is MODE and not item.values and word not in TABLE:
        return None if word in MODES else "UnknownKeyword"
    if word in TABLE:
        return "Repeated" if word in document.blocks else None
    if word in KEYWORDS:
        if block is None or word not in TABLE[block]:
            return "Misplaced"
        return "Repeated" if document.get(block, word) else None
    return "Unsupported" if word in REFUSED else "UnknownKeyword"


def document_of(text, tokens):
    """The blocks and items of tokens."""
    document, block, item = Document(), None, None
    for token in tokens:
        kind = None
        if token.kind == "Word":
            word = text[token.start : token.end].lower().decode()
            kind = word_fault(document, block, item, word)
        elif not item or item.keyword.takes not in VALUE_KINDS[token.kind]:
            kind = "Misplaced"
        if kind:
            raise Refused(kind, token.start, token.end)
        if token.kind != "Word" or word in MODES:
            item.values.append(Value(text, token))
        elif word in TABLE:
            block, item = word, None
            document.blocks[block] = token
        else:
            item = Item(block, word, token)
            document.items.append(item)
    if any(it not in document.blocks for it in NEEDED_BLOCKS):
        raise Refused("MissingBlock", len(text), len(text))
    return document


# The steps. Each yields its faults in the order written. Only the first fault of all is asked for, so what stands behind a
# `yield` may count on there being no fault before.


def method_faults(document):
    methods = document.of("method", NEEDS)
    if not methods:
        yield document.missing("method")
    for it in methods[1:]:
        yield at("Conflict", it)


def count_faults(item):
    """The faults of a keyword that says how many variables or responses there are."""
    if item.count() != 1:
        yield at("WrongCount", item)
    for value in item.values:
        if not value.is_whole_in(1, COUNT_LIMIT):
            yield at("BadWhole", value)


def variables_faults(document):
    item = document.get("variables", "continuous_design")
    if not item:
        yield document.missing("variables")
    yield from count_faults(item)


def responses_faults(document):
    items = document.of("responses", ["objective_functions", "response_functions"])
    if not items:
        yield document.missing("responses")
    for it in items[1:]:
        yield at("Conflict", it)
    yield from count_faults(items[0])


def driver_faults(document):
    drivers = document.get("interface", "analysis_drivers")
    if not drivers:
        yield document.missing("interface")
    if not drivers.values:
        yield at("WrongCount", drivers)
    if len(drivers.values) > 1:
        yield at("Unsupported", drivers)
    driver = drivers.values[0]
    if not driver.text.strip(b" "):
        yield at("WrongCount", driver)
    ways = document.of("interface", ["fork", "direct"])
    if not ways:
        yield document.missing("interface")
    for it in ways[1:]:
        yield at("Conflict", it)
    if ways[0].name == "direct":
        if driver.text != b"rosenbrock":
            yield at("Unsupported", driver)
        if (document.n, document.m) != (2, 1):
            yield at("Conflict", ways[0])


def is_number_for(item, value):
    """Whether a value's text is a number that may stand with this keyword."""
    number = value.number
    if number is None:
        return False
    if item.block in ("variables", "method") and number[0] and abs(leading(number)) > STUDY_EXPONENT_LIMIT:
        return False
    return number[0] > 0 or item.name not in ("initial_delta", "threshold_delta")


def has_right_count(document, item):
    count, n = item.count(), document.n
    return {
        "none": count == 0,
        "one": count == 1,
        "per variable": count == n,
        "one or per variable": count in (1, n),
        "rows of variables": count >= n and count % n == 0,
        "per response": count == document.m,
        "any": True,
    }[item.keyword.count]


def item_faults(document, item):
    """The faults of one keyword's values."""
    _, _, low, high = item.keyword
    if item.keyword.takes == "wholes":
        for value in item.values:
            if not value.is_whole_in(low, high):
                yield at("BadWhole", value)
    if item.keyword.takes == "numbers":
        for value in item.values:
            if value.copies is None:
                yield at("BadWhole", value)
        for value in item.values:
            if not is_number_for(item, value):
                yield at("BadNumber", value)
    count = 0
    for value in item.values:
        count += value.copies
        if count > VALUES_LIMIT:
            yield at("TooMany", value)
    if not has_right_count(document, item):
        yield at("WrongCount", item)


def values_faults(document):
    for item in document.items:
        yield from item_faults(document, item)


def is_label(text):
    return len(text) <= LABEL_LIMIT and re.fullmatch(rb"[A-Za-z_][!-~]*", text)


def label_faults(document):
    lists = document.of("variables", ["descriptors"]) + document.of("responses", ["descriptors", "response_descriptors"])
    lists.sort(key=lambda it: it.start)
    for item in lists:
        for value in item.values:
            if not is_label(value.text):
                yield at("BadLabel", value)
    for item in lists:
        seen = set()
        for value in item.values:
            if value.text in seen:
                yield at("Conflict", value)
            seen.add(value.text)
    for it in document.of("responses", ["descriptors", "response_descriptors"])[1:]:
        yield at("Conflict", it)
    for item in document.items:
        if item.name in ("tabular_data_file", *FILES) and not item.values[0].text:
            yield at("BadLabel", item.values[0])


def keyword_faults(document):
    method = document.method
    own = [*itertools.chain(*NEEDS[method.name]), *MAY_HAVE.get(method.name, []), method.name, "output"]
    for item in document.items:
        if item.block == "method" and item.name not in own:
            yield at("Conflict", item)
    for group in NEEDS[method.name]:
        if not document.of("method", group):
            yield at("Missing", method)
    for it in document.of("method", ["step_vector", "final_point"])[1:]:
        yield at("Conflict", it)
    if method.name == "multidim_parameter_study" and len(document.of("variables", ["lower_bounds", "upper_bounds"])) < 2:
        yield document.missing("variables")
    if method.name == "compass_search":
        if document.responses_item.name != "objective_functions" or document.m != 1:
            yield at("Conflict", method)


def file_name(document, keyword):
    item = document.get("interface", keyword)
    return item.values[0].text if item else {"parameters_file": b"params.in", "results_file": b"results.out"}[keyword]


def interface_faults(document):
    rules, capture = document.of("interface", RULES), document.get("interface", "failure_capture")
    for it in rules[1:]:
        yield at("Conflict", it)
    if rules and not capture:
        yield at("Missing", rules[0])
    if capture and not rules:
        yield at("Missing", capture)
    concurrency = document.get("interface", "evaluation_concurrency")
    if concurrency and not document.get("interface", "asynchronous"):
        yield at("Missing", concurrency)
    if len({file_name(document, it) for it in FILES}) < 2:
        yield at("Conflict", document.blocks["interface"])


def written_values(document, keyword):
    """The values of `variables`, one for each variable, or none."""
    item = document.get("variables", keyword)
    return item.expanded() if item else None


def bounds_faults(document):
    lower, upper, initial = (written_values(document, it) for it in ("lower_bounds", "upper_bounds", "initial_point"))
    for low, high in zip(lower or [], upper or []):
        if is_less(high.number, low.number):
            yield at("Conflict", high)
    if document.method.name not in BEGINS_AT_INITIAL:
        return
    for place in range(document.n):
        number = initial[place].number if initial else (0, 0)
        is_below = lower and is_less(number, lower[place].number)
        if is_below or (upper and is_less(upper[place].number, number)):
            yield at("OutsideBounds", initial[place] if initial else document.blocks["variables"])


def per_variable(document, item):
    """The whole numbers of a keyword, one for each variable; one number stands for all."""
    wholes = [it.whole for it in item.expanded()]
    return wholes if len(wholes) == document.n else wholes * document.n


def whole_or(document, keyword, default):
    item = document.get("method", keyword)
    return item.values[0].whole if item else default


def evaluations(document):
    """How many evaluations there are at most."""
    name = document.method.name
    sized = document.get("method", SIZED_BY[name])
    if name == "vector_parameter_study":
        return sized.values[0].whole + 1
    if name == "list_parameter_study":
        return sized.count() // document.n
    if name == "centered_parameter_study":
        return 1 + 2 * sum(per_variable(document, sized))
    if name == "multidim_parameter_study":
        return math.prod(it + 1 for it in per_variable(document, sized))
    return whole_or(document, "max_function_evaluations", EVALUATIONS)


def size_faults(document):
    count = evaluations(document)
    if count > EVALUATIONS_LIMIT or count * (document.n + document.m) > NUMBERS_LIMIT:
        yield at("TooMany", document.get("method", SIZED_BY[document.method.name]))


def unit_values(document):
    """The values that are numbers of `variables` and `method`, as written."""
    items = [it for it in document.items if it.block in ("variables", "method") and it.keyword.takes == "numbers"]
    return [value for item in items for value in item.values]


def unit_of(document):
    """The exponent of the study's unit."""
    return max((leading(it.number) for it in unit_values(document) if it.number[0]), default=0) - UNIT_DIGITS


def unit_faults(document):
    unit = unit_of(document)
    for value in unit_values(document):
        mantissa, exponent = value.number
        if mantissa and exponent < unit:
            yield at("OffGrid", value)


def table_faults(document):
    name = document.get("environment", "tabular_data_file")
    if name and not document.get("environment", "tabular_data"):
        yield at("Missing", name)


STEPS = [
    method_faults,
    variables_faults,
    responses_faults,
    driver_faults,
    values_faults,
    label_faults,
    keyword_faults,
    interface_faults,
    bounds_faults,
    size_faults,
    unit_faults,
    table_faults,
]


# The study

Study = collections.namedtuple("Study", "unit variables responses method interface table limit")
Variables = collections.namedtuple("Variables", "labels initial lower upper")
Responses = collections.namedtuple("Responses", "labels are_objectives")
Method = collections.namedtuple("Method", "name values")
Interface = collections.namedtuple("Interface", "driver is_direct parameters_file results_file options concurrency rule")


def units_of(number, unit):
    mantissa, exponent = number
    return mantissa * 10 ** (exponent - unit) if mantissa else 0


def units_in(item, unit):
    """A keyword's numbers in units."""
    return [it for value in item.values for it in [units_of(value.number, unit)] * value.copies]


def variables_of(document, unit):
    labels = document.get("variables", "descriptors")
    points = [document.get("variables", it) for it in ("initial_point", "lower_bounds", "upper_bounds")]
    initial, lower, upper = (units_in(it, unit) if it else None for it in points)
    return Variables(
        [it.text.decode() for it in labels.values] if labels else [f"cdv_{it + 1}" for it in range(document.n)],
        initial or [0] * document.n,
        lower,
        upper,
    )


def responses_of(document):
    are_objectives = document.responses_item.name == "objective_functions"
    labels = document.of("responses", ["descriptors", "response_descriptors"])
    if labels:
        return Responses([it.text.decode() for it in labels[0].values], are_objectives)
    if are_objectives and document.m == 1:
        return Responses(["obj_fn"], True)
    front = "obj_fn" if are_objectives else "response_fn"
    return Responses([f"{front}_{it + 1}" for it in range(document.m)], are_objectives)


def method_of(document, unit):
    """The method, and the values of its keywords: numbers in units, and whole numbers."""
    values = {}
    for item in document.items:
        if item.block == "method" and item.keyword.takes == "numbers":
            values[item.name] = units_in(item, unit)
        elif item.name in ("steps_per_variable", "partitions"):
            values[item.name] = per_variable(document, item)
        elif item.block == "method" and item.keyword.takes == "wholes":
            values[item.name] = item.values[0].whole
    if document.method.name == "compass_search":
        values = {"max_iterations": ITERATIONS, "max_function_evaluations": EVALUATIONS, **values}
    return Method(document.method.name, values)


def rule_of(document):
    """What happens at an evaluation without values: the rule, and its number or numbers."""
    rules = document.of("interface", RULES)
    if not rules or rules[0].name == "abort":
        return "abort", None
    if rules[0].name == "retry":
        return "retry", rules[0].values[0].whole
    return "recover", [it.number for it in rules[0].expanded()]


def interface_of(document):
    concurrency = document.get("interface", "evaluation_concurrency")
    at_once = CONCURRENCY if document.get("interface", "asynchronous") else 1
    return Interface(
        document.get("interface", "analysis_drivers").values[0].text,
        document.get("interface", "direct") is not None,
        *(file_name(document, it) for it in FILES),
        {it.name for it in document.of("interface", ["file_tag", "file_save", "aprepro"])},
        concurrency.values[0].whole if concurrency else at_once,
        rule_of(document),
    )


def table_of(document):
    """The table's name, or none."""
    if not document.get("environment", "tabular_data"):
        return None
    name = document.get("environment", "tabular_data_file")
    return name.values[0].text if name else b"dakota_tabular.dat"


def study_of(document):
    unit = unit_of(document)
    return Study(
        unit,
        variables_of(document, unit),
        responses_of(document),
        method_of(document, unit),
        interface_of(document),
        table_of(document),
        evaluations(document),
    )


def read_study(text):
    """The study that a text says; its first fault is raised."""
    if len(text) > TEXT_LIMIT:
        raise Refused("TooLong", 0, 0)
    document = document_of(text, tokens_of(text))
    for step in STEPS:
        for fault in step(document):
            raise Refused(*fault)
    return study_of(document)
