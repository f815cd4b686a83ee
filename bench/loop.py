#!/usr/bin/env python3
"""The evaluations of a vector study of two variables by steps, in a loop over subprocess.run: loop.py FILE.

For each point it writes the parameters file, runs ./child, reads the results file, and removes both; at the end it writes the
table t.dat. No record is kept and nothing is synced. Numbers are floats, which have the study's numbers exactly.
"""
import os
import subprocess
import sys

from study import Study

PARAMETERS, RESULTS = "params.in", "results.out"


def parameters_of(row, point):
    """The parameters file of a row."""
    lines = [(2, "variables"), *((f"{x:.15e}", f"x{at}") for at, x in enumerate(point, 1)), (1, "functions"), (1, "ASV_1:obj_fn")]
    lines += [(2, "derivative_variables"), (1, "DVV_1:x1"), (2, "DVV_2:x2"), (0, "analysis_components"), (row, "eval_id")]
    return "".join(f"{value:>22} {tag}\n" for value, tag in lines)


def value_of(row, point):
    """The value that the child leaves for a row."""
    with open(PARAMETERS, "w", encoding="ascii") as it:
        it.write(parameters_of(row, point))
    subprocess.run(["./child", PARAMETERS, RESULTS], stdin=subprocess.DEVNULL)
    with open(RESULTS, encoding="ascii") as it:
        value = float(it.read().split()[0])
    os.remove(RESULTS)
    os.remove(PARAMETERS)
    return value


def main():
    study = Study(sys.argv[1])
    (steps,), initial, step = study.numbers("num_steps", 1), study.numbers("initial_point"), study.numbers("step_vector")
    lines = ["%eval_id interface x1 x2 obj_fn\n"]
    for at in range(int(steps) + 1):
        point = [float(x) + at * float(by) for x, by in zip(initial, step)]
        numbers = " ".join(f"{it:g}" for it in (*point, value_of(at + 1, point)))
        lines.append(f"{at + 1} NO_ID {numbers}\n")
    with open("t.dat", "w", encoding="ascii") as it:
        it.writelines(lines)


if __name__ == "__main__":
    main()
