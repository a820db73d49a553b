#!/usr/bin/env python3
"""Measures how long closing and planning take in memory, each run in a process of its own.

Rows `load` of `vk_plan_rows` in one process close again over memory that the one before has warmed;
a plan is made once a process. Each round runs every size, of two programs in turn where another one is to
stand beside, so that a machine that gets slower or faster for a while does so for all of them. What
is told is the least time, the lower quarter and the median of each size, and how many times as long
each next size takes by each of the three, and by the median of the rounds, each by itself.

With a probe (`shared_core.cpp`), the core is probed before and after each run, and only the runs
count in which nothing else used its other half, as far as the probe tells: its steps that don't
wait took at most three quarters of what those that wait took, before and after.
"""
import argparse
import re
import statistics
import subprocess
import sys

TIMES = re.compile(r"closed (\d+) us, planned (\d+) us")
PROBED = re.compile(r"waiting +([\d.]+).*\nfree +([\d.]+)")


def quarter(times):
    """The time that a quarter of the runs stay below."""
    return sorted(times)[len(times) // 4]


MEASURES = {"least": min, "quarter": quarter, "median": statistics.median}


def run_once(program, shape, size):
    """The microseconds of closing, and of the whole plan, in one process."""
    run = subprocess.run([program], input=f"load {shape} {size}\n", capture_output=True, text=True)
    found = TIMES.search(run.stderr)
    if not found:
        sys.exit(f"closings: {program} told no time for {shape} {size}")
    return int(found[1]), int(found[2])


def probed(probe):
    """How long the probe's steps take, the least of three, that don't wait beside those that do."""
    if not probe:
        return 0
    run = subprocess.run([probe, "3"], capture_output=True, text=True)
    found = PROBED.search(run.stdout)
    if run.returncode or not found:
        sys.exit(f"closings: {probe} told no times")
    return float(found[2]) / float(found[1])


def runs_of(programs, shape, sizes, rounds, probe):
    """The runs of each program and size, round by round; the first round warms up. A run is its
    two times and the worse of the probes beside it."""
    runs = {(program, size): [] for program in programs for size in sizes}
    before = probed(probe)
    for number in range(rounds + 1):
        for size in sizes:
            for program in programs:
                times = run_once(program, shape, size)
                after = probed(probe)
                if number:
                    runs[program, size].append((*times, max(before, after)))
                before = after
    return runs


def undisturbed(runs):
    """The runs that count, round by round: `None` stands for each that was disturbed."""
    found = {key: [run if run[2] <= 0.75 else None for run in kept] for key, kept in runs.items()}
    if not all(any(kept) for kept in found.values()):
        sys.exit("closings: each run of a size was disturbed; try again, or make more rounds")
    return found


def show(title, place, runs, sizes):
    """Prints a row for each size, and one for each step to the next."""
    print(f"{title:28}{''.join(f'{name:>10}' for name in MEASURES)}{'rounds':>10}{'runs':>8}")
    times = {size: [run and run[place] for run in runs[size]] for size in sizes}
    kept = {size: [time for time in times[size] if time is not None] for size in sizes}
    rows = [[of(kept[size]) for of in MEASURES.values()] for size in sizes]
    for size, row in zip(sizes, rows):
        told = "".join(f"{time / 1000:>8.1f}ms" for time in row)
        print(f"{size:28,}{told}{'':10}{len(kept[size]):>8}")
    for before, after, small, large in zip(sizes, sizes[1:], rows, rows[1:]):
        growth = "".join(f"{b / a:>10.3f}" for a, b in zip(small, large))
        pairs = [(a, b) for a, b in zip(times[before], times[after]) if None not in (a, b)]
        by_round = statistics.median(b / a for a, b in pairs) if pairs else float("nan")
        print(f"{f'{before:,} to {after:,}':>28}{growth}{by_round:>10.3f}{len(pairs):>8}")


def main():
    words = argparse.ArgumentParser(description=__doc__.split("\n")[0])
    words.add_argument("--program", required=True, metavar="PATH", help="vk_plan_rows's program")
    words.add_argument("--beside", metavar="PATH", help="a program to run in turn with it")
    words.add_argument("--shape", default="chain", help="what is closed (default: chain)")
    words.add_argument("--rounds", type=int, default=400, help="how many (default: 400)")
    words.add_argument("--probe", metavar="PATH", help="what says whether the core is shared")
    words.add_argument("sizes", nargs="+", type=int, metavar="SIZE")
    words = words.parse_args()
    programs = [words.program] + [words.beside] * (words.beside is not None)
    runs = undisturbed(runs_of(programs, words.shape, words.sizes, words.rounds, words.probe))
    for program in programs:
        if words.beside:
            print(f"== {program}")
        for place, title in enumerate(("closing", "the whole plan")):
            show(title, place, {size: runs[program, size] for size in words.sizes}, words.sizes)


main()
