#!/usr/bin/env python3
"""Prints the tables of docs/review.md: which definitions a promise needs, file by file.

usage: docs/review_table.py CRATE/specs/FILE:NAME ..

Begins with the named definitions and follows what each one cites, through the imports of its file.
A definition's lines are those from its head to the next head, without comments and blank lines.
"""
import re
import sys
from pathlib import Path

TOP = Path(__file__).resolve().parent.parent / "crates"
IMPORT = re.compile(r"^use Rattle\.(vk_\w+)\.specs\.(\w+)(?: as (\w+)|\.\{(.*)\})")


def words(text):
    """What a text cites: names, also those behind an alias and a dot."""
    return set(re.findall(r"[^\s(){}\[\],;.∷λ]+", text)) | set(re.findall(r"[^\s(){}\[\],;]+", text))


class File:
    """A file of definitions: what it imports, and its definitions in order."""

    def __init__(self, crate, name):
        self.names, self.aliases, self.definitions, self.title = {}, {}, {}, ""
        lines = (TOP / crate / "specs" / f"{name}.antt").read_text().splitlines()
        if lines and lines[0].startswith("--"):
            self.title = lines[0][2:].strip().rstrip(".")
        group, mutual = None, False
        for line in lines:
            found = IMPORT.match(line)
            if found:
                other = (found[1], found[2])
                if found[3]:
                    self.aliases[found[3]] = other
                for it in (found[4] or "").split(","):
                    self.names[it.strip().split(" as ")[-1]] = (*other, it.strip().split(" as ")[0])
            if line.startswith(("use ", "--")) or not line.strip():
                continue
            begins = re.match(r"^(?:  )?(?:abbrev |unfoldable )?pub (?:record |data |abbrev |unfoldable )?([^\s(:{]+)", line)
            if line.startswith("abbrev mutual") or line.startswith("mutual"):
                mutual = True
                continue
            if not line.startswith(" "):
                mutual = mutual and begins is None
            is_head = begins and (not line.startswith("  ") or mutual and line.startswith("  pub"))
            if is_head:
                group = begins[1]
                self.definitions.setdefault(group, [])
            if group:
                self.definitions[group].append(line)
        # constructors stand for their type
        self.owner = {}
        for name, body in self.definitions.items():
            if re.search(r"\bdata\b", body[0]):
                for line in body[1:]:
                    found = re.match(r"\s+([^\s:(]+) :", line)
                    if found:
                        self.owner[found[1]] = name


FILES = {}


def file_of(crate, name):
    key = (crate, name)
    if key not in FILES:
        FILES[key] = File(crate, name) if (TOP / crate / "specs" / f"{name}.antt").is_file() else None
    return FILES[key]


def needed(starts):
    seen, todo = set(), list(starts)
    while todo:
        crate, name, definition = todo.pop()
        file = file_of(crate, name)
        if not file:
            continue
        definition = file.owner.get(definition, definition)
        if definition not in file.definitions or (crate, name, definition) in seen:
            continue
        seen.add((crate, name, definition))
        text = "\n".join(file.definitions[definition])
        for word in words(text):
            if word in file.definitions or word in file.owner:
                todo.append((crate, name, word))
            if word in file.names:
                todo.append(file.names[word])
            alias, _, rest = word.partition(".")
            if rest and alias in file.aliases:
                todo.append((*file.aliases[alias], rest))
    return seen


def main():
    starts = []
    for word in sys.argv[1:]:
        place, name = word.split(":")
        crate, _, file = place.split("/")
        starts.append((crate, file, name))
    seen = needed(starts)
    order = [line.split(":")[0].split()[0] for line in (TOP.parent / "crates.txt").read_text().splitlines() if ":" in line]
    files = total = lines_in_all = 0
    for crate in order:
        lib = TOP / crate / "specs" / "Lib.antt"
        for name in re.findall(r"mod (\w+)", lib.read_text()) if lib.is_file() else []:
            mine = [it for it in seen if it[:2] == (crate, name)]
            if not mine:
                continue
            file = file_of(crate, name)
            lines = sum(len(file.definitions[it[2]]) for it in mine)
            files, total, lines_in_all = files + 1, total + len(mine), lines_in_all + lines
            title = file.title[:1].lower() + file.title[1:]
            print(f"| `{crate}/specs/{name}` | {title} | {len(mine)} of {len(file.definitions)} | {lines} |")
    print(f"{files} files, {total} definitions, {lines_in_all} lines")


main()
