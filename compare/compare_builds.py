#!/usr/bin/env python3
"""Compares what two builds of a program print of a project whose JSON files are changed at random.

Each round changes the bytes of one file, lets both programs plan, and puts the file back. What is
compared is the status and both outputs, byte for byte. So a change of how files are read is tried
on files that are no JSON, have keys twice, numbers out of range, escapes or other kinds of values.
"""
from __future__ import annotations

import argparse
import pathlib
import random
import shutil
import subprocess
import sys
import tempfile
from collections import Counter

WORDS = "plan --triplet=x64-linux --overlay-triplets=triplets"
BYTES = b'{}[]",:0123456789aeE+-.\\ntu/ \x00\x7f\xc3'
PIECES = [
    b"{}", b"[]", b",", b'"', b"null", b"0", b"-", b"1e5", b"\\ud800", b"\xef\xbb\xbf", b"\xff",
    b"[" * 130, b'"a":1e999,', b'"name":"zlib",', b'"\\u006eame":"fmt",', b'"version":"1.0",',
    b'"port-version":1,', b'"vcpkg-configuration":{},', b'"configuration":null,',
    b'"dependencies":["fmt"],',
]


def changed(data: bytes, rnd: random.Random) -> bytes:
    """The bytes, with one to three changes."""
    new = bytearray(data)
    for _ in range(rnd.choice([1, 1, 1, 2, 3])):
        at = rnd.randrange(len(new) + 1)
        opened = [place + 1 for place, byte in enumerate(new) if byte == ord("{")]
        change = rnd.choice(["byte", "cut", "piece", "member", "copy"])
        if change == "byte" and new:
            new[min(at, len(new) - 1)] = rnd.choice(BYTES)
        elif change == "cut":
            del new[at:at + rnd.randrange(1, 12)]
        elif change == "piece":
            new[at:at] = rnd.choice(PIECES)
        elif change == "member" and opened:
            place = rnd.choice(opened)
            new[place:place] = rnd.choice(PIECES)
        else:
            begin = rnd.randrange(len(new) + 1)
            new[at:at] = new[begin:begin + rnd.randrange(1, 60)]
    return bytes(new)


def printed(program: str, words: list[str], folder: pathlib.Path) -> tuple[int, bytes, bytes]:
    run = subprocess.run([program, *words], cwd=folder, stdin=subprocess.DEVNULL,
                         capture_output=True, timeout=60, check=False)
    return run.returncode, run.stdout, run.stderr


def main() -> int:
    parser = argparse.ArgumentParser(description=__doc__.splitlines()[0])
    parser.add_argument("--program", required=True)
    parser.add_argument("--beside", required=True, help="the other build")
    parser.add_argument("--project", required=True, help="a folder with a vcpkg.json")
    parser.add_argument("--words", default=WORDS, help=f"the programs' words ({WORDS})")
    parser.add_argument("--count", type=int, default=1000)
    parser.add_argument("--seed", type=int, default=1)
    parser.add_argument("--keep", help="where a project that differs is kept")
    options = parser.parse_args()
    programs = [str(pathlib.Path(p).resolve()) for p in (options.program, options.beside)]
    words, rnd, statuses = options.words.split(), random.Random(options.seed), Counter()
    with tempfile.TemporaryDirectory() as parent:
        folder = pathlib.Path(parent, "project")
        shutil.copytree(options.project, folder)
        files = sorted(folder.rglob("*.json"))
        for _ in range(options.count):
            file = rnd.choice(files)
            data = file.read_bytes()
            file.write_bytes(changed(data, rnd))
            one, other = (printed(program, words, folder) for program in programs)
            if one != other:
                kept = options.keep or tempfile.mkdtemp()
                shutil.copytree(folder, kept, dirs_exist_ok=True)
                print(f"they differ by {file.relative_to(folder)}: {kept}")
                return 1
            statuses[one[0]] += 1
            file.write_bytes(data)
    told = ", ".join(f"{count} ended with {status}" for status, count in sorted(statuses.items()))
    print(f"{options.count} the same: {told}")
    return 0


if __name__ == "__main__":
    sys.exit(main())
