#!/usr/bin/env python3
"""A long list study by one regular expression and Python's decimal, for a comparison of times: list.py FILE prints the line
of an accepted study; list.py --make FILE writes such a study of just 1 MiB.

It reads a study that is known to be good: its words, its numbers and their unit, and checks nothing else.
"""
import re
import sys
from decimal import MAX_EMAX, MIN_EMIN, Context, Decimal, setcontext

setcontext(Context(prec=60, Emax=MAX_EMAX, Emin=MIN_EMIN))
PIECE = re.compile(r"""#[^\n]*|'[^'\n]*'|"[^"\n]*"|[^\s,='"#\\]+""")
LENGTH = 1_048_576
HEAD = "method list_parameter_study list_of_points =\n"
TAIL = "variables continuous_design = 2\ninterface analysis_drivers = 'sim' fork\nresponses objective_functions = 1\n"


def make(path):
    """Numbers of eleven bytes and their line feed, an even number of them, and a comment up to the length."""
    count = (LENGTH - len(HEAD) - len(TAIL)) // 12 // 2 * 2
    numbers = "".join(f"{'-' if at % 3 else '+'}0.{at * 7919 % 10 ** 8:08}\n" for at in range(count))
    text = HEAD + numbers + TAIL
    with open(path, "w", encoding="ascii") as it:
        it.write(text + "#" * (LENGTH - len(text)))


def read(path):
    with open(path, encoding="ascii") as it:
        pieces = [piece for piece in PIECE.findall(it.read()) if piece[0] != "#"]
    first = pieces.index("list_of_points") + 1
    last = pieces.index("variables")
    numbers = [Decimal(piece) for piece in pieces[first:last]]
    unit = max(number.adjusted() for number in numbers if number) - 28
    units = [int(number.scaleb(-unit)) for number in numbers]
    if any(number.scaleb(-unit) != whole for number, whole in zip(numbers, units)):
        raise SystemExit("not of the unit")
    variables = int(pieces[pieces.index("continuous_design") + 1])
    print(f"study accepted: variables {variables}, responses 1, evaluations at most {len(units) // variables}")


if __name__ == "__main__":
    if sys.argv[1] == "--make":
        make(sys.argv[2])
    else:
        read(sys.argv[1])
