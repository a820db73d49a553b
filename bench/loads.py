#!/usr/bin/env python3
"""Runs `self-load` for each size from 1 to 2,000 and looks at the figures that it prints.

A load of n ports is planned, with n items from 8n + 2 facts. No law says so of every size, so
this does. Usage: bench/loads.py PROGRAM
"""
import subprocess
import sys


def main():
    program, wrong = sys.argv[1], 0
    for size in range(1, 2001):
        ran = subprocess.run([program, "self-load", f"--size={size}"], capture_output=True, text=True)
        figures = f"self-load {size}\nplanned {size}\nfacts {8 * size + 2}\n"
        if ran.returncode or not ran.stdout.startswith(figures):
            wrong += 1
            print(f"{size}: status {ran.returncode}: {ran.stdout!r}")
    print(f"2000 sizes, {wrong} with other figures")
    return wrong > 0


if __name__ == "__main__":
    sys.exit(main())
