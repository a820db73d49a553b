#!/usr/bin/env python3
"""Measures how a program's time grows from one project to a larger one, and another program's.

Each round runs every program over both projects, so that a machine that gets slower or faster for
a while does so for all of them. What is told is how many times as long the larger project takes,
by the least time, by the lower quarter and by the median.
"""
import argparse
import os
import shlex
import statistics
import sys

from measure import WORDS, run_once


def quarter(times):
    """The time that a quarter of the runs stay below."""
    return sorted(times)[len(times) // 4]


MEASURES = {"least": min, "quarter": quarter, "median": statistics.median}


def times_of(programs, projects, words, rounds):
    """The seconds of each program over each project, round by round; the first round warms up."""
    times = {(program, project): [] for program in programs for project in projects}
    for number in range(rounds + 1):
        for program, project in times:
            run = run_once([os.path.abspath(program), *words], project)
            if run.status:
                sys.exit(f"growth: {program} ended with {run.status} in {project}")
            if number:
                times[program, project].append(run.wall)
    return times


def show(times, programs, projects):
    """Prints a row for each program and project, and one for each program's growth."""
    print(f"{'':40}{''.join(f'{name:>10}' for name in MEASURES)}")
    for program in programs:
        small, large = ([of(times[program, project]) for of in MEASURES.values()]
                        for project in projects)
        name = os.path.basename(program)
        for project, found in zip(projects, (small, large)):
            label = f"{name} {os.path.basename(os.path.normpath(project))}"
            print(f"{label:40}{''.join(f'{1000 * time:>8.1f}ms' for time in found)}")
        growth = "".join(f"{after / before:>10.2f}" for before, after in zip(small, large))
        print(f"{name + ' grows by':40}{growth}")


def main():
    words = argparse.ArgumentParser(description=__doc__.split("\n")[0])
    words.add_argument("--program", required=True, metavar="PATH")
    words.add_argument("--beside", metavar="PATH", help="a program to measure in the same rounds")
    words.add_argument("--words", default=WORDS, help=f"the words of both (default: {WORDS})")
    words.add_argument("--rounds", type=int, default=25)
    words.add_argument("projects", nargs=2, metavar="PROJECT", help="the smaller, then the larger")
    words = words.parse_args()
    programs = [words.program] + ([words.beside] if words.beside else [])
    times = times_of(programs, words.projects, shlex.split(words.words), words.rounds)
    show(times, programs, words.projects)


main()
