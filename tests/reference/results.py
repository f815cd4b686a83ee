"""Results files: the values that a simulation left, or that it failed."""
import re

from decimals import number_of

MOST_BYTES = 65536
SPACE = b"\t\n\r "
PIECE = re.compile(rb"[^\t\n\r ]+")
LABEL = re.compile(rb"[A-Za-z_]")


def pieces_of(content):
    """What stands between white space, line by line up to a comment."""
    return [piece for line in content.split(b"\n") for piece in PIECE.findall(line.split(b"#")[0])]


def read_results(content, count):
    """The values of a results file of so many responses, or none where it says a failure or is no results file. There
    is no file where the content is none."""
    if content is None or len(content) > MOST_BYTES or content.lstrip(SPACE)[:4].lower() == b"fail":
        return None
    values, may_be_label = [], False
    for piece in pieces_of(content):
        if may_be_label and LABEL.match(piece):
            may_be_label = False
            continue
        values.append(number_of(piece))
        may_be_label = True
    return values if len(values) == count and None not in values else None
