#!/usr/bin/env python3
"""Checks one study with the program and with Python in turn, and prints the ratio of their times.

    read.py RUNS STUDY PROGRAM PYTHON_PROGRAM
"""
import os
import statistics
import subprocess
import sys
import time

from measure import peak_of


def ran(command):
    begun = time.perf_counter()
    done = subprocess.run(command, stdin=subprocess.DEVNULL, stdout=subprocess.PIPE)
    return time.perf_counter() - begun, (done.stdout, done.returncode)


def main():
    runs, study, program, in_python = sys.argv[1:]
    commands = {"program": [program, "-check", "-i", study], "Python": [sys.executable, in_python, study]}
    wrote = {name: ran(command)[1] for name, command in commands.items()}
    if wrote["program"] != wrote["Python"] or wrote["program"][1]:
        print(f"bench: not the same line and status: {wrote}")
        return 1
    print(f"the same line by both: {wrote['program'][0].decode().strip()}")
    times = {name: [] for name in commands}
    for _ in range(int(runs)):
        for name, command in commands.items():
            times[name].append(ran(command)[0])
    medians = {name: statistics.median(it) for name, it in times.items()}
    for name, command in commands.items():
        peak = peak_of(command, os.path.dirname(os.path.abspath(study)))
        memory = "peak memory not measured" if peak is None else f"peak memory {peak} KiB"
        print(f"{name}: median of {runs} runs {medians[name] * 1000:.1f} ms, least {min(times[name]) * 1000:.1f} ms, {memory}")
    print(f"Python / program: {medians['Python'] / medians['program']:.2f}")
    return 0


if __name__ == "__main__":
    sys.exit(main())
