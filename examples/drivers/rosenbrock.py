#!/usr/bin/env python3
"""Rosenbrock's function in exact decimals: rosenbrock.py PARAMETERS RESULTS. Reads the parameters file of the standard
form by its tags, and leaves the value and the response's label, or FAIL where something is wrong."""
import os
import sys
from decimal import Context, Decimal, Inexact, InvalidOperation, localcontext

# Sums and products have all their digits, and results at most 34, or they are refused.
EXACT = Context(prec=10000, traps=[Inexact, InvalidOperation])
RESULT = Context(prec=34, traps=[Inexact, InvalidOperation])


def results_of(name):
    with open(name, encoding="ascii") as lines:
        values = {tag: value for value, tag in map(str.split, lines)}
    label = next(tag.removeprefix("ASV_1:") for tag in values if tag.startswith("ASV_1:"))
    x1, x2 = Decimal(values["x1"]), Decimal(values["x2"])
    with localcontext(EXACT):
        value = 100 * (x2 - x1 * x1) ** 2 + (1 - x1) ** 2
    return f"{value.normalize(RESULT)} {label}\n"


def main():
    _, parameters, results = sys.argv
    try:
        text = results_of(parameters)
    except Exception as why:
        print(f"rosenbrock.py: {why!r}", file=sys.stderr)
        text = "FAIL\n"
    # Whole or not at all: a number that is cut reads as another one.
    with open(results + ".part", "w", encoding="ascii") as part:
        part.write(text)
    os.replace(results + ".part", results)


main()
