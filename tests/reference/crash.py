#!/usr/bin/env python3
"""Kills and resumes the program, opens spoiled restart files with it, and runs it where the outside refuses.

    crash.py PROGRAM [--rounds N] [--child-rounds N] [--contents N] [--seed S] [--jobs J] [--keep FOLDER]

In each round a run of one of several studies is killed up to five times, before or behind a system call where commands can
be traced here, or else after some microseconds. After each kill the restart file has to be one that can be opened, with
a front of the attempts of a run that wasn't interrupted, and behind them nothing but a front of the next record. The
last run isn't killed: what it prints, its status, its table and its restart file have to be those of the run that wasn't
interrupted, so that no attempt was made twice. Some rounds begin with an older file, which has to be kept.

So it is done with studies whose attempts are made by children (`fork`), which tell of each start. A killed run's child isn't
killed, and has ended before the run is resumed. In each session just those attempts are started that the restart file
has more at its end, one after another, and where it was killed at most the one for which the study waits then: so none that
the file has is started again. The files of an attempt may be there, stale, before it is made.

Then contents of restart files, whole, cut and spoiled, are opened by the program and by the second reading: what is
printed, the status and all files have to be alike. Then the order is looked at in which the restart file is written and
synced, where a debugger tells it. Then come files that may not grow, a disk that is full, folders that are absent or
read-only, a restart file that another run has, or that is the study or the table, and files of the greatest size.
Before all these stand files and compass searches that are worked out by hand.

PROGRAM may be the second reading, dakota.py. Scratch folders are made under TMPDIR; in a folder in memory a run takes
less time. With --keep, the folders of what differs are kept there. Each part ends with a line. The exit status is 1 where
anything differs. It is no part of the gate.
"""
import argparse
import collections
import concurrent.futures
import multiprocessing
import os
import sys
import tempfile

from child_rounds import ChildRounds
from child_studies import child_studies
from content_rounds import ContentRounds
from crash_studies import all_studies
from kill import can_trace
from kill_rounds import KillRounds
from outside import Outside, Skipped
from worked import FILES, faults_of_worked
from worked_searches import CASES


class Report:
    """The lines of the parts, and how much was wrong."""

    def __init__(self):
        self.wrong = 0

    def end(self, part, wrong):
        """Ends a part with its line, behind those of what is wrong with each of its cases."""
        for line in (line for lines in wrong for line in lines):
            print(line, flush=True)
        count = sum(map(bool, wrong))
        self.wrong += count
        print(f"{part}, {count} differ", flush=True)


def counted(counts):
    return ", ".join(f"{count} {it}" for it, count in sorted(counts.items()))


def all_rounds(rounds, count, jobs):
    """The counts of so many rounds, and what is wrong in each."""
    counts, wrong = collections.Counter(), []
    context = multiprocessing.get_context("fork")
    with concurrent.futures.ProcessPoolExecutor(jobs, mp_context=context) as pool:
        for more, faults in pool.map(rounds, range(count), chunksize=max(1, count // (jobs * 20))):
            counts.update(more)
            wrong.append(faults)
    return counts, wrong


def outside_part(report, outside, act, count):
    try:
        runs, wrong = outside.apart(act, count)
    except Skipped as why:
        print(f"{act.__name__}: skipped, {why}", flush=True)
        return
    report.end(f"{act.__name__}: {runs} runs", wrong)


def read_arguments():
    parser = argparse.ArgumentParser(description=__doc__.split("\n")[0])
    parser.add_argument("program", type=os.path.abspath)
    parser.add_argument("--rounds", type=int, default=2000)
    parser.add_argument("--child-rounds", type=int, default=500)
    parser.add_argument("--contents", type=int, default=20000)
    parser.add_argument("--seed", type=int, default=1)
    parser.add_argument("--jobs", type=int, default=os.cpu_count())
    parser.add_argument("--keep", type=os.path.abspath)
    return parser.parse_args()


def child_part(report, arguments, traces, scratch):
    studies = child_studies()
    rounds = ChildRounds(arguments.program, studies, arguments.seed, traces, scratch, arguments.keep)
    report.end(f"whole with children: {len(studies)} studies", rounds.wrong)
    counts, wrong = all_rounds(rounds, arguments.child_rounds, arguments.jobs)
    report.end(f"kills with children: {arguments.child_rounds} rounds, {counted(counts)}", wrong)


def all_parts(arguments, scratch):
    """Goes through the parts, and answers how much was wrong."""
    program, seed, keep = arguments.program, arguments.seed, arguments.keep
    report, studies, traces = Report(), all_studies(seed), can_trace(scratch)
    if not traces:
        print("commands can't be traced here, and are killed by time alone", flush=True)
    kills = KillRounds(program, studies, seed, traces, scratch, keep)
    report.end(f"whole: {len(studies)} studies", kills.wrong)
    report.end(f"worked: {len(FILES)} files and {len(CASES)} compass searches", [*faults_of_worked(program, studies[0], scratch)])
    counts, wrong = all_rounds(kills, arguments.rounds, arguments.jobs)
    report.end(f"kills: {arguments.rounds} rounds, {counted(counts)}", wrong)
    child_part(report, arguments, traces, scratch)
    contents = ContentRounds(program, studies, seed, scratch, keep)
    counts, wrong = all_rounds(contents, arguments.contents, arguments.jobs)
    report.end(f"contents: {arguments.contents} files, {counted(counts)}", wrong)
    outside = Outside(program, studies, kills.wholes, seed, scratch, keep, traces)
    few, many = 1, max(1, arguments.rounds // 10)
    for act, count in (
        (outside.order, many),
        (outside.size_limit, many),
        (outside.full_disk, many),
        (outside.read_only, few),
        (outside.absent, few),
        (outside.held, few),
        (outside.second_run, many),
        (outside.own_study, few),
        (outside.own_table, few),
        (outside.older_table, few),
        (outside.sizes, few),
    ):
        outside_part(report, outside, act, count)
    return report.wrong


def main():
    arguments = read_arguments()
    if arguments.keep:
        os.makedirs(arguments.keep, exist_ok=True)
    with tempfile.TemporaryDirectory() as scratch:
        return 1 if all_parts(arguments, os.path.realpath(scratch)) else 0


if __name__ == "__main__":
    sys.exit(main())
