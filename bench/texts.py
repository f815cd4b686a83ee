#!/usr/bin/env python3
"""Writes parameters files and reads results files with the program and in C, checks that both do the same, and prints ratios
of their times.

    texts.py RUNS SCRATCH PROGRAM TEXTS ATTEMPTS CHILD
"""
import os
import random
import shutil
import statistics
import subprocess
import sys
import time

# Numbers of the most digits, of both signs, some of them written plainly and some not.
LONG = [f"{'-' if it % 2 else ''}{it % 9 + 1}.{'0123456789' * 3}{it % 100:02d}7{f'e{it - 50}' if it % 3 else ''}" for it in range(110)]
SMALL = (["x1", "x2"], ["obj_fn"], ["0.5", "0.5"], "6.500000000000000e+00 obj_fn\n")
LARGE = (
    [f"variable_{it}" for it in range(1, 101)],
    [f"response_{it}" for it in range(1, 11)],
    LONG[:100],
    "# ten values\n" + "".join(f" {value} response_{it + 1} # the {it + 1}th\n" for it, value in enumerate(LONG[100:])),
)
# The results file of the most bytes, 65,536: a value behind lines of comments.
COMMENTED = (*SMALL[:3], f"# {'a line of comment ' * 3:61}\n" * 1023 + f"{'1 obj_fn':63}\n")
# What is timed, and how many texts of each kind a run has.
TIMED = {
    "2 variables, 1 response": (SMALL, 100000),
    "100 variables, 10 responses": (LARGE, 4000),
    "2 variables, 1 response, 65536 bytes of results": (COMMENTED, 4000),
}

# What results files may hold, for a study of one response.
RESULTS = ["", " ", "1", "1 f", "1 f\n2 g\n", "# c\n3e2", "1 #x", "1#", "1 _", "+.5", "-5.", ".", "1e", "1e-05", "1.5D+00", "nan", "inf"]
RESULTS += ["  FAILURE at step 3", "fAiL", "#fail\n1", "# c\nfail\n1", "fai", "1 fail", "1 a b", "1 2x", "1 'a'", "1,5", "1\f", "1\0"]
RESULTS += ["1e9999", "1e10000", "0e99999999999999999999", "9" * 34, "9" * 35, "0" * 50 + "9" * 34 + "0" * 50, "1" + "0" * 9999]
RESULTS += ["1" + "0" * 10000, "0." + "0" * 9998 + "1", "0." + "0" * 9999 + "1", "1e-" + "0" * 50 + "9999", "##\n#\n1\n#2", "1 f# 2"]
ALPHABET = "0123456789" + "    \n\n\t\r##..eE+-faiLx_"


def study_of(shape, more=""):
    """A study of a shape's labels over the smallest simulation."""
    variables, responses, *_ = shape
    names = [" ".join(f"'{it}'" for it in labels) for labels in (variables, responses)]
    return (
        f"method list_parameter_study list_of_points = {len(variables)}*0\n"
        f"variables continuous_design = {len(variables)} descriptors = {names[0]}\n"
        f"interface analysis_drivers = './child' fork {more}\n"
        f"responses response_functions = {len(responses)} response_descriptors = {names[1]} no_gradients no_hessians\n"
    )


def written(folder, name, text):
    """Writes a file in a folder."""
    with open(os.path.join(folder, name), "w", encoding="latin-1", newline="") as it:
        it.write(text)


def said(command, folder):
    """What a command prints, which has to end well."""
    done = subprocess.run(command, cwd=folder, stdin=subprocess.DEVNULL, stdout=subprocess.PIPE)
    if done.returncode:
        sys.exit(f"bench: {command[0]} ended with {done.returncode}")
    return done.stdout


def in_turn(runs, commands, folders):
    """The wall times of so many runs of each command, which take turns and print the same. Each turn begins with the command
    with which the one before ended."""
    times, names, lines = {name: [] for name in commands}, list(commands), set()
    for _ in range(runs):
        for name in names:
            begun = time.perf_counter()
            lines.add(said(commands[name], folders[name]))
            times[name].append(time.perf_counter() - begun)
        names.reverse()
    if len(lines) != 1:
        sys.exit(f"bench: not the same line: {lines}")
    return times, lines.pop().decode().strip()


def tell(times, count, unit):
    """Prints the times of commands, and their ratios to those of C."""
    medians = {name: statistics.median(it) for name, it in times.items()}
    for name, it in times.items():
        each = f"{medians[name] / count * 1e6:.2f} microseconds {unit}"
        print(f"{name}: median of {len(it)} runs {medians[name] * 1000:.1f} ms, least {min(it) * 1000:.1f} ms, {each}")
    for name in times:
        if name != "C":
            print(f"{name} / C: {medians[name] / medians['C']:.2f}, of the least times {min(times[name]) / min(times['C']):.2f}")


def kept_files(command, folder, child, study):
    """The files of twelve attempts that keep them, by name, and the line that is printed."""
    os.makedirs(folder)
    shutil.copy(child, os.path.join(folder, "child"))
    written(folder, "kept.in", study)
    line = said(command, folder)
    files = {}
    for name in os.listdir(folder):
        if name not in ("child", "kept.in"):
            with open(os.path.join(folder, name), "rb") as it:
                files[name] = it.read()
    return files, line


def compare_files(scratch, program, attempts, child):
    """Compares what both write for the simulation, byte for byte: both shapes in both forms."""
    total = 0
    for place, shape in enumerate((SMALL, LARGE)):
        for form in ("", "aprepro"):
            study = study_of(shape, f"file_tag file_save {form}")
            folders = [os.path.join(scratch, f"{name}-{place}{form}") for name in ("program", "C")]
            command = ["12", "kept.in", *shape[2]]
            ours = kept_files([program, "attempts", *command], folders[0], child, study)
            theirs = kept_files([attempts, *command], folders[1], child, study)
            if ours != theirs:
                sys.exit(f"bench: not the same files or line of attempts in {folders}: {ours[1]} {theirs[1]}")
            total += sum(name.startswith("params.in.") for name in ours[0])
    print(f"the same bytes of {total} parameters files by both")


def compare_readings(scratch, program, texts):
    """Compares what both say of results files: those above, and others of the same bytes."""
    draw = random.Random(1)
    made = ["".join(draw.choices(ALPHABET, k=draw.randrange(1, 12))) for _ in range(400)]
    written(scratch, "one.in", study_of(SMALL))
    values = 0
    for text in RESULTS + made:
        written(scratch, "one.out", text)
        words = ["1", "one.in", "one.out", *SMALL[2]]
        ours, theirs = (said(command, scratch) for command in ([program, "texts", *words], [texts, *words]))
        if ours != theirs:
            sys.exit(f"bench: not the same line for {text!r}: {ours} {theirs}")
        values += b" 1 of 1 " in ours
    print(f"the same line for {len(RESULTS + made)} results files by both, {values} of them with values")


def main():
    runs, *paths = sys.argv[1:]
    scratch, program, texts, attempts, child = map(os.path.abspath, paths)
    scratch = os.path.join(scratch, "texts-of-both")
    os.makedirs(scratch)
    compare_files(scratch, program, attempts, child)
    compare_readings(scratch, program, texts)
    for name, (shape, count) in TIMED.items():
        written(scratch, "study.in", study_of(shape))
        written(scratch, "results.out", shape[3])
        words = [str(count), "study.in", "results.out", *shape[2]]
        commands = {"program": [program, "texts", *words], "C": [texts, *words], "C again": [texts, *words]}
        times, line = in_turn(int(runs), commands, dict.fromkeys(commands, scratch))
        print(f"{name}: {line} by all")
        tell(times, count, "for both texts")
    return 0


if __name__ == "__main__":
    sys.exit(main())
