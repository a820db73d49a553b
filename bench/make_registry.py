#!/usr/bin/env python3
"""Writes a project and its registry, for measuring. The same words write the same bytes.

  plain     SIZE ports without dependencies, six versions each, all asked for by the root
  shared    as plain with one version a port, and a registry for each, all in one folder
  folders   SIZE ports without dependencies, one version each, with six files besides the manifest
  load      a chain of SIZE ports with two versions, whose lower one asks for one more port
  real      a registry of SIZE ports as people keep them, and four projects over it
  conflict  SIZE ports, each asked for at two versions of which neither is the later one
  cycle     SIZE ports, each of which asks for the next one, and the last for the first

The project is the folder DIR, and for `real` the folders DIR/projects/*.
"""
import argparse
import os
import sys

import realistic
import shapes

KINDS = {
    "plain": (shapes.plain, 1, 20000),
    "shared": (shapes.shared, 1, 20000),
    "folders": (shapes.folders, 1, 10000),
    "load": (shapes.load, 1, 10000),
    "real": (realistic.registry, 20, 5000),
    "conflict": (shapes.conflict, 1, 10000),
    "cycle": (shapes.cycle, 2, 10000),
}


def write_files(folder, files):
    """Writes each path's text below the folder; answers how many files and bytes that made."""
    count = size = 0
    made = set()
    for path, text in files:
        full = os.path.join(folder, path)
        parent = os.path.dirname(full)
        if parent not in made:
            os.makedirs(parent, exist_ok=True)
            made.add(parent)
        data = text.encode()
        with open(full, "wb") as file:
            file.write(data)
        count += 1
        size += len(data)
    return count, size


def read_words():
    parser = argparse.ArgumentParser(
        description=__doc__, formatter_class=argparse.RawDescriptionHelpFormatter)
    parser.add_argument("kind", metavar="KIND", choices=KINDS)
    parser.add_argument("size", metavar="SIZE", type=int)
    parser.add_argument("folder", metavar="DIR", help="a folder that is empty or not there yet")
    parser.add_argument("--seed", type=int, default=1, help="another number makes other choices")
    return parser.parse_args()


def main():
    words = read_words()
    make, least, most = KINDS[words.kind]
    if not least <= words.size <= most:
        sys.exit(f"make_registry: SIZE of {words.kind} is {least} to {most}")
    if os.path.isdir(words.folder) and os.listdir(words.folder):
        sys.exit(f"make_registry: {words.folder} isn't empty")
    count, size = write_files(words.folder, make(words.size, words.seed))
    print(f"{words.kind} {words.size} seed {words.seed}: {count} files, {size} bytes")


if __name__ == "__main__":
    main()
