#!/usr/bin/env python3
"""Measures a program over projects, and another one beside it in the same run.

Every project's first run warms the page cache and keeps what is printed; then the programs run
in turn. A project is a folder with a vcpkg.json, or a folder whose projects/* have one.
"""
import argparse
import collections
import ctypes
import os
import re
import shlex
import shutil
import signal
import statistics
import subprocess
import sys
import tempfile
import threading
import time

WORDS = "plan --triplet=x64-linux --overlay-triplets=triplets"
LONGEST_RUN = 60  # seconds, after which a run is ended
KINDS_SHOWN = 12
PARTS_SHOWN = 16
PROFILED_RUNS = 20

Run = collections.namedtuple("Run", "status wall processor")


# Running a program

def run_once(command, folder, output=os.devnull):
    """One run from start to end, in seconds; its output goes to the file."""
    with open(output, "wb") as out, open(os.devnull, "wb") as nowhere:
        begin = time.perf_counter()
        child = subprocess.Popen(command, cwd=folder, stdin=subprocess.DEVNULL,
                                 stdout=out, stderr=nowhere)
        end_late = threading.Timer(LONGEST_RUN, child.kill)
        end_late.start()
        _, status, used = os.wait4(child.pid, 0)
        wall = time.perf_counter() - begin
        end_late.cancel()
    child.returncode = os.waitstatus_to_exitcode(status)
    return Run(child.returncode, wall, used.ru_utime + used.ru_stime)


def run_in_turn(commands, folder, rounds, deadline):
    """The runs of each command, round by round, until there are enough or time is up."""
    runs = [[] for _ in commands]
    for _ in range(rounds):
        for command, own in zip(commands, runs):
            own.append(run_once(command, folder))
        if time.monotonic() > deadline:
            break
    return runs


# Peak memory: a parent's own peak counts as its child's, so it is read as the child ends.

TRACE_ME, CONTINUE, SET_OPTIONS = 0, 7, 0x4200
TELL_EXIT, EXIT_EVENT = 0x40, signal.SIGTRAP | 6 << 8


def peak_memory(command, folder):
    """The most memory that one run held, in bytes, or None where runs can't be traced."""
    trace = ctypes.CDLL(None).ptrace
    trace.argtypes = [ctypes.c_long, ctypes.c_long, ctypes.c_void_p, ctypes.c_void_p]
    child = os.fork()
    if child == 0:
        try:
            for stream, flags in ((0, os.O_RDONLY), (1, os.O_WRONLY), (2, os.O_WRONLY)):
                os.dup2(os.open(os.devnull, flags), stream)
            os.chdir(folder)
            if trace(TRACE_ME, 0, None, None) == 0:
                os.execv(command[0], command)
        finally:
            os._exit(127)
    end_late = threading.Timer(LONGEST_RUN, os.kill, (child, signal.SIGKILL))
    end_late.start()
    peak = None
    first = True
    while True:
        _, status = os.waitpid(child, 0)
        if not os.WIFSTOPPED(status):
            end_late.cancel()
            return peak
        if first:
            trace(SET_OPTIONS, child, None, TELL_EXIT)
        if status >> 8 == EXIT_EVENT:
            peak = high_water_mark(child)
        passed_on = 0 if os.WSTOPSIG(status) == signal.SIGTRAP else os.WSTOPSIG(status)
        first = False
        trace(CONTINUE, child, None, passed_on)


def high_water_mark(process):
    with open(f"/proc/{process}/status", encoding="ascii") as lines:
        for line in lines:
            if line.startswith("VmHWM:"):
                return int(line.split()[1]) * 1024
    return None


# System calls and profiles

def system_calls(command, folder):
    """How often each kind of call was made, by strace."""
    with tempfile.NamedTemporaryFile("r") as told:
        traced = ["strace", "-f", "-qq", "-c", "-o", told.name, *command]
        run_once(traced, folder)
        rows = [line.split() for line in told.read().splitlines()]
    return {row[-1]: int(row[3]) for row in rows
            if len(row) in (5, 6) and row[3].isdigit() and row[-1] != "total"}


def crate_of(symbol, file, program):
    """The crate of a function of the program, else the library or the kernel that has it."""
    file = os.path.basename(file)
    if file.startswith("[kernel"):
        return "kernel"
    if file == program and "::" in symbol:
        return symbol.split("::")[0]
    return file


def profile(command, folder):
    """The share of samples in each crate, and in each function, by perf over several runs."""
    crates, functions = collections.Counter(), collections.Counter()
    with tempfile.NamedTemporaryFile() as data:
        line = " ".join(map(shlex.quote, command))
        again = f"i=0; while [ $i -lt {PROFILED_RUNS} ]; do {line}; i=$((i+1)); done"
        record = ["perf", "record", "-q", "-F", "10000", "-o", data.name, "sh", "-c", again]
        run_once(record, folder)
        script = ["perf", "script", "-i", data.name, "-F", "comm,ip,sym,dso"]
        lines = subprocess.run(script, capture_output=True, text=True, check=False).stdout
    program = os.path.basename(command[0])
    for line in lines.splitlines():
        found = re.match(r"\s*(\S+)\s+[0-9a-f]+ (.+) \((.*)\)$", line)
        if found and found.group(1) == program[:15]:
            crates[crate_of(found.group(2), found.group(3), program)] += 1
            functions[found.group(2).split("::<")[0]] += 1
    return crates, functions


# Printing

def print_table(rows):
    """Rows of text: the first column to the left, the others to the right."""
    widths = [max(map(len, column)) for column in zip(*rows)]
    for row in rows:
        cells = [cell.rjust(width) for cell, width in zip(row[1:], widths[1:])]
        print("  ".join([row[0].ljust(widths[0]), *cells]).rstrip())
    print()


def milliseconds(seconds):
    return f"{1000 * seconds:.1f} ms"


def megabytes(size):
    return "-" if size is None else f"{size / 1e6:.1f} MB"


def figures(runs, peak):
    return {"least": min(run.wall for run in runs),
            "median": statistics.median(run.wall for run in runs),
            "processor": min(run.processor for run in runs),
            "memory": peak}


def print_figures(names, all_runs, peaks):
    told = [figures(runs, peak) for runs, peak in zip(all_runs, peaks)]
    rows = [["program", "runs", "status", "least", "median", "processor", "memory"]]
    for name, runs, own in zip(names, all_runs, told):
        statuses = "/".join(sorted({str(run.status) for run in runs}))
        rows.append([name, str(len(runs)), statuses,
                     *(milliseconds(own[key]) for key in ("least", "median", "processor")),
                     megabytes(own["memory"])])
    if len(told) == 2:
        ratios = [f"{told[0][key] / told[1][key]:.2f}" if told[0][key] and told[1][key] else "-"
                  for key in told[0]]
        rows.append(["first / second", "", "", *ratios])
    print_table(rows)


def print_difference(names, outputs):
    """Says whether both programs printed the same bytes, and where not."""
    texts = []
    for output in outputs:
        with open(output, "rb") as file:
            texts.append(file.read())
    if texts[0] == texts[1]:
        print(f"same bytes: yes, {len(texts[0])} of them\n")
        return
    lines = [text.split(b"\n") for text in texts]
    place = 0
    while min(map(len, lines)) > place and lines[0][place] == lines[1][place]:
        place += 1
    print(f"same bytes: NO, they differ from line {place + 1} on")
    for name, own in zip(names, lines):
        shown = own[place][:100].decode(errors="replace") if place < len(own) else "(no such line)"
        print(f"  {name}: {shown}")
    print()


def print_counts(head, names, counts, most, shown=str):
    """The kinds that are largest in any program, a column for each program."""
    largest = collections.Counter()
    for own in counts:
        for kind, count in own.items():
            largest[kind] = max(largest[kind], count)
    kinds = [kind for kind, _ in largest.most_common(most)]
    rows = [[head, *names], *([kind, *(shown(own.get(kind, 0)) for own in counts)]
                              for kind in kinds)]
    rows.append(["all", *(shown(sum(own.values())) for own in counts)])
    print_table(rows)


def print_profile(names, profiles):
    for head, place in (("crate", 0), ("function", 1)):
        shares = []
        for own in profiles:
            total = sum(own[place].values()) or 1
            share = collections.Counter()
            for kind, count in own[place].items():
                share[kind[:70]] += 100 * count / total
            shares.append(share)
        print_counts(head, names, shares, PARTS_SHOWN, lambda share: f"{share:.1f} %")


# From the words to the tables

def has(tool):
    if shutil.which(tool):
        return True
    print(f"({tool} isn't there, so its table is left out)\n")
    return False


def measure(folder, names, commands, words):
    print(f"== {folder}")
    with tempfile.TemporaryDirectory() as kept:
        outputs = [os.path.join(kept, str(place)) for place in range(len(commands))]
        for command, output in zip(commands, outputs):
            run_once(command, folder, output)
        if len(commands) == 2:
            print_difference(names, outputs)
    deadline = time.monotonic() + words.seconds
    all_runs = run_in_turn(commands, folder, words.runs, deadline)
    peaks = [peak_memory(command, folder) for command in commands]
    print_figures(names, all_runs, peaks)
    if has("strace"):
        calls = [system_calls(command, folder) for command in commands]
        print_counts("system calls", names, calls, KINDS_SHOWN)
    if words.phases and has("perf"):
        print_profile(names, [profile(command, folder) for command in commands])


def projects_in(folder):
    below = os.path.join(folder, "projects")
    if os.path.isfile(os.path.join(folder, "vcpkg.json")):
        return [folder]
    if os.path.isdir(below):
        return [path for name in sorted(os.listdir(below), key=lambda name: (len(name), name))
                for path in projects_in(os.path.join(below, name))]
    sys.exit(f"measure: {folder} has neither a vcpkg.json nor projects")


def read_words():
    parser = argparse.ArgumentParser(
        description=__doc__, formatter_class=argparse.RawDescriptionHelpFormatter)
    parser.add_argument("projects", metavar="PROJECT", nargs="+")
    parser.add_argument("--program", required=True, metavar="PATH")
    parser.add_argument("--beside", metavar="PATH", help="a program to compare with")
    parser.add_argument("--words", default=WORDS, help="the programs' words (%(default)s)")
    parser.add_argument("--beside-words", help="other words for the program to compare with")
    parser.add_argument("--runs", type=int, default=15, help="of each program (%(default)s)")
    parser.add_argument("--seconds", type=float, default=60,
                        help="after which a project's runs end (%(default)s)")
    parser.add_argument("--phases", action="store_true", help="also where the time goes")
    return parser.parse_args()


def main():
    words = read_words()
    programs = [os.path.abspath(path) for path in (words.program, words.beside) if path]
    for program in programs:
        if not os.access(program, os.X_OK):
            sys.exit(f"measure: {program} can't be run")
    all_words = [words.words, words.beside_words or words.words]
    commands = [[program, *shlex.split(own)] for program, own in zip(programs, all_words)]
    names = [os.path.basename(program) for program in programs]
    if len(set(names)) < len(names):
        names = programs
    if len(set(names)) < len(names):
        names = [command[1] for command in commands]
    for project in words.projects:
        for folder in projects_in(project):
            measure(folder, names, commands, words)


if __name__ == "__main__":
    main()
