"""Parameters files of evaluations, written and read again, in the standard form and in that of APREPRO."""
import collections
import re

from decimals import leading, number_of

PLACES = 22

Tags = collections.namedtuple("Tags", "variables functions derivatives components evaluation")
# The tags without a label, and what a line looks like.
TAGS = {
    "standard": Tags("variables", "functions", "derivative_variables", "analysis_components", "eval_id"),
    "aprepro": Tags("DAKOTA_VARS", "DAKOTA_FNS", "DAKOTA_DER_VARS", "DAKOTA_AN_COMPS", "DAKOTA_EVAL_ID"),
}
LINES = {
    "standard": re.compile(r" *(?P<value>\S+) (?P<tag>\S+)"),
    "aprepro": re.compile(r"\{ (?P<tag>\S+) = (?P<value>\S+) \}"),
}
VALUE = re.compile(r"-?[0-9]\.[0-9]{15,33}e[-+][0-9]{2,4}")
COUNT = re.compile(r"0|[1-9][0-9]*")

# The labels of the variables, the point as decimals, the labels of the responses, and the evaluation's number.
Parameters = collections.namedtuple("Parameters", "labels point responses evaluation")


class NoParameters(Exception):
    """The text is no parameters file."""


def sci_text(decimal):
    """A decimal with a point behind its first digit, at least 15 digits behind the point, and an exponent."""
    mantissa, exponent = decimal
    first = leading(decimal) if mantissa else 0
    digits = str(abs(mantissa)).ljust(16, "0")
    return f"{'-' if mantissa < 0 else ''}{digits[0]}.{digits[1:]}e{'-' if first < 0 else '+'}{abs(first):02}"


def pairs_of(parameters, tags):
    """The value and the tag of each line."""
    labels, point, responses, evaluation = parameters
    yield str(len(labels)), tags.variables
    yield from zip(map(sci_text, point), labels)
    yield str(len(responses)), tags.functions
    yield from (("1", f"ASV_{place}:{label}") for place, label in enumerate(responses, 1))
    yield str(len(labels)), tags.derivatives
    yield from ((str(place), f"DVV_{place}:{label}") for place, label in enumerate(labels, 1))
    yield "0", tags.components
    yield str(evaluation), tags.evaluation


def line_of(form, value, tag):
    return f"{{ {tag} = {value} }}\n" if form == "aprepro" else " " * (PLACES - len(value)) + f"{value} {tag}\n"


def parameters_text(parameters, form):
    """The bytes of a parameters file."""
    return "".join(line_of(form, value, tag) for value, tag in pairs_of(parameters, TAGS[form])).encode("ascii")


class Lines:
    """The values and tags of a text's lines, one after another."""

    def __init__(self, text, form):
        *lines, last = text.decode("ascii").split("\n")
        found = [LINES[form].fullmatch(line) for line in lines]
        if last or None in found:
            raise NoParameters
        self.pairs = iter([(it["value"], it["tag"]) for it in found])

    def next(self):
        try:
            return next(self.pairs)
        except StopIteration:
            raise NoParameters from None

    def count(self, wanted):
        """The whole number of a line with this tag."""
        value, tag = self.next()
        if tag != wanted or not COUNT.fullmatch(value):
            raise NoParameters
        return int(value)

    def variable(self):
        """A variable's label and its value."""
        value, label = self.next()
        if not VALUE.fullmatch(value):
            raise NoParameters
        return label, number_of(value.encode())

    def numbered(self, prefix, place, wanted):
        """The label behind a tag's number."""
        value, tag = self.next()
        front = f"{prefix}_{place}:"
        if value != wanted or not tag.startswith(front):
            raise NoParameters
        return tag.removeprefix(front)


def read_parameters(text, form):
    """What a parameters file says, or `NoParameters`."""
    lines, tags = Lines(text, form), TAGS[form]
    variables = [lines.variable() for _ in range(lines.count(tags.variables))]
    labels, point = [label for label, _ in variables], [value for _, value in variables]
    responses = [lines.numbered("ASV", place, "1") for place in range(1, lines.count(tags.functions) + 1)]
    count = lines.count(tags.derivatives)
    derivatives = [lines.numbered("DVV", place, str(place)) for place in range(1, count + 1)]
    components, evaluation = lines.count(tags.components), lines.count(tags.evaluation)
    if derivatives != labels or components != 0 or next(lines.pairs, None):
        raise NoParameters
    return Parameters(labels, point, responses, evaluation)
