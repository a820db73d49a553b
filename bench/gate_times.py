#!/usr/bin/env python3
"""Runs the gate, and tells what it costs: in processor seconds by crate, for proofs and for edits.

usage, at the top of the repository: bench/gate_times.py [--log FILE] [COMMAND ..]

The command is `rt ci`, unless another is given that runs the gate, as `./vk` does for a build.

Begin with nothing kept and nothing else running, or the sums say what was left to do. What each
process of the prover and of the compilers took is read once a second, so a process loses a second
at most; the sum at the end is the system's own count, and exact. It ends with the gate's status,
and prints what the gate prints to standard error, or to the log.
"""
import argparse
import collections
import os
import pathlib
import re
import resource
import subprocess
import sys
import time

TICKS = os.sysconf("SC_CLK_TCK")
TOOLS = re.compile(r"rattle|antt|clang|lld|\bld\b")


def told(process):
    """The words, folder, parent and start of a living process, and its processor seconds with those
    of its ended children; or None."""
    try:
        words = (process / "cmdline").read_bytes().decode(errors="replace").split("\0")
        stat = (process / "stat").read_text(errors="replace").rpartition(")")[2].split()
        seconds = sum(int(it) for it in stat[11:15]) / TICKS
        return words, os.readlink(process / "cwd"), stat[1], stat[19], seconds
    except OSError:
        return None


def kind_of(words, folder):
    """Which crate a process works on, and whether it proves it or tries an edit."""
    joined = " ".join(words)
    crate = re.search(r"--crate-name (\w+)", joined) or re.search(r"/crates/(\w+)", f"{folder} {joined}")
    return (crate[1], "edits" if "rt-edit" in folder else "proof") if crate else None


class Costs:
    """Processor seconds by crate and kind. A process counts with the processes that it begins."""

    def __init__(self, gate):
        self.gate, self.most, self.kinds = str(gate), {}, {}

    def look(self):
        found = {it.name: told(it) for it in pathlib.Path("/proc").iterdir() if it.name.isdigit()}
        living = {pid: it for pid, it in found.items() if it}
        now = collections.Counter()
        for pid in living:
            top = self.tool_above(pid, living)
            if top:
                key = top, living[top][3]
                now[key] += living[pid][4]
                self.kinds.setdefault(key, kind_of(*living[top][:2]))
        for key, seconds in now.items():
            self.most[key] = max(seconds, self.most.get(key, 0))

    def tool_above(self, pid, living):
        """The topmost tool from a process up to the gate, or None where there is none."""
        top = None
        while pid in living and pid != self.gate:
            if TOOLS.search(living[pid][0][0]):
                top = pid
            pid = living[pid][2]
        return top if pid == self.gate else None

    def table(self):
        rows = collections.defaultdict(collections.Counter)
        for key, seconds in self.most.items():
            crate, kind = self.kinds[key] or ("others", "proof")
            rows[crate][kind] += seconds
        return rows


def main():
    options = argparse.ArgumentParser(description=__doc__.splitlines()[0])
    options.add_argument("--log")
    options.add_argument("command", nargs=argparse.REMAINDER)
    options = options.parse_args()
    out = open(options.log, "w") if options.log else sys.stderr
    began = time.time()
    gate = subprocess.Popen(options.command or ["rt", "ci"], stdin=subprocess.DEVNULL,
                            stdout=out, stderr=out)
    costs = Costs(gate.pid)
    while gate.poll() is None:
        costs.look()
        time.sleep(1)
    used = resource.getrusage(resource.RUSAGE_CHILDREN)
    rows = costs.table()
    print("| crate | proof | edits |\n|---|---|---|")
    for crate in sorted(rows, key=lambda it: -sum(rows[it].values())):
        cells = [f"{rows[crate][kind]:.0f}" if rows[crate][kind] else "" for kind in ("proof", "edits")]
        print(f"| `{crate}` | {' | '.join(cells)} |")
    for kind in ("proof", "edits"):
        print(f"{kind}: {sum(it[kind] for it in rows.values()) / 60:.1f} processor minutes")
    print(f"in all: {(used.ru_utime + used.ru_stime) / 60:.1f} processor minutes, {(time.time() - began) / 60:.1f} by the clock")
    return gate.returncode


if __name__ == "__main__":
    sys.exit(main())
