#!/usr/bin/env python3
"""Compares a program's plans of random projects with those of the second planner."""
from __future__ import annotations

import argparse
import json
import os
import random
import subprocess
import sys
import tempfile
from collections import Counter
from dataclasses import dataclass, field, replace
from typing import Optional, Union

from second_planner import (
    ALWAYS, CORE, ROOT, CauseKind, Condition, Dependency, Feature, FeatureRequest, Manifest, Page,
    Project, Row, Triplet, Version, VersionClass, plan_report,
)

DIFFERENCE_LIMIT = 10
PORTS = ["a", "b", "c", "a-b", "z1", "core", "default", "ab", "fourteen-bytes", "fifteen-letters",
         "boost-interprocess"]
FEATURES = ["f", "g", "h_x", "core-x"]
APPLICATION = "app"
MISSING_VERSION = Version("9.9", 3)
VERSION_KEYS = {
    VersionClass.DOT: "version",
    VersionClass.DATE: "version-date",
    VersionClass.TEXT: "version-string",
}
VERSION_TEXTS = {
    VersionClass.DOT: ["1", "1.0", "1.1", "1.9", "1.10", "2", "10", "1.0-rc", "1.0-rc.1", "1.0-2",
                       "1.0+a", "1.0+b"],
    VersionClass.DATE: ["2021-01-01", "2021-01-01.0", "2021-01-01.1", "2020-12-31.5"],
    VersionClass.TEXT: ["alpha", "beta", "1.0x", "gamma 2"],
}
CONDITIONS = [
    Condition(all_of=("linux",)), Condition(all_of=("windows",)), Condition(none_of=("linux",)),
    Condition(all_of=("native",)), Condition(none_of=("native",)),
    Condition(all_of=("arm", "linux")), Condition(any_of=("x64", "windows")),
]
TARGET = Triplet("t", frozenset({"x64", "linux", "static"}))
OTHER_HOST = Triplet("hh", frozenset({"arm64", "arm", "windows"}))
TRIPLET_FILES = {
    "triplets/t.cmake": "set(VCPKG_TARGET_ARCHITECTURE x64)\nset(VCPKG_LIBRARY_LINKAGE static)\n"
                        "set(VCPKG_CMAKE_SYSTEM_NAME Linux)\n",
    "triplets/hh.cmake": "set(VCPKG_TARGET_ARCHITECTURE arm64)\n",
}


@dataclass(frozen=True)
class Registry:
    """A folder of ports, as the configuration writes it, and the baseline that it names."""
    folder: str
    path: str
    baseline: Optional[str] = None

    @property
    def key(self) -> tuple[str, str]:
        """Returns the folder and the name of the baseline that counts."""
        return self.folder, self.baseline or "default"

    def entry(self) -> dict:
        """Writes the registry without its patterns."""
        named = {} if self.baseline is None else {"baseline": self.baseline}
        return {"kind": "filesystem", "path": self.path, **named}


DEFAULT_REGISTRY = Registry("registry", "registry")
OTHER_REGISTRIES = [
    Registry("registry", "./registry"), Registry("registry", "registry", "default"),
    Registry("registry", "registry", "old"), Registry("second", "second"),
    Registry("second", "./second", "old"),
]


@dataclass
class Case:
    """A project with its label, as data, as files, and as words of the command line."""
    label: str
    project: Project
    files: dict[str, object]
    words: list[str]


@dataclass(frozen=True)
class Answer:
    """How a program ends, and what it prints."""
    status: int
    output: str


@dataclass
class Trial:
    """Words for the program, the answer that is wanted, and files that are written before."""
    words: list[str]
    wanted: Answer
    files: dict[str, object] = field(default_factory=dict)


def conditional(document: dict, key: str, condition: Condition) -> dict:
    """Adds a condition to an object, unless it always holds."""
    parts = [*condition.all_of, *(f"!{name}" for name in condition.none_of)]
    parts += [f"({' | '.join(condition.any_of)})"] if condition.any_of else []
    return {**document, key: " & ".join(parts)} if parts else document


def request_document(request: FeatureRequest) -> Union[str, dict]:
    """Writes a feature in a list, as a text where that will do."""
    document = conditional({"name": request.name}, "platform", request.platform)
    return document if len(document) > 1 else request.name


def version_text(version: Version) -> str:
    """Writes a version as one text, without a port-version of 0."""
    return f"{version.text}#{version.port_version}" if version.port_version else version.text


def version_document(version: Version, version_class: VersionClass) -> dict:
    """Writes the keys of a version, without a port-version of 0."""
    packaging = {"port-version": version.port_version} if version.port_version else {}
    return {VERSION_KEYS[version_class]: version.text, **packaging}


def dependency_document(dependency: Dependency) -> Union[str, dict]:
    """Writes a dependency, as a text where that will do."""
    document = conditional({"name": dependency.port}, "platform", dependency.platform)
    if not dependency.default_features:
        document["default-features"] = False
    if dependency.host:
        document["host"] = True
    if dependency.features:
        document["features"] = [request_document(request) for request in dependency.features]
    if dependency.minimum is not None:
        document["version>="] = version_text(dependency.minimum)
    return document if len(document) > 1 else dependency.port


def feature_document(feature: Feature) -> dict:
    """Writes what a feature or a port depends on and where it can be built."""
    dependencies = [dependency_document(dependency) for dependency in feature.dependencies]
    return conditional({"dependencies": dependencies}, "supports", feature.supports)


def manifest_document(manifest: Manifest) -> dict:
    """Writes a manifest without its name and version."""
    features = {name: feature_document(feature) for name, feature in manifest.features.items()}
    core = features.pop(CORE)
    defaults = [request_document(request) for request in manifest.default_features]
    return {**core, "default-features": defaults, "features": features}


class ProjectMaker:
    """Makes one random project, always the same one from its label."""

    def __init__(self, label: str) -> None:
        self.label = label
        self.stream = random.Random(label)
        self.ports = self.stream.sample(PORTS, self.stream.randint(2, 6))
        self.versions = {port: self._versions() for port in self.ports}
        self.has_cycles = self._happens(0.15)
        self.has_damage = self._happens(0.12)
        self.root_name = self.stream.choice([None, APPLICATION, APPLICATION, self.ports[0]])
        self.files: dict[str, object] = dict(TRIPLET_FILES)
        self.homes = self._homes()
        self.baselines = self._baselines()
        self.overrides: list[dict] = []
        self.unserved: list[str] = []

    def make(self) -> Case:
        """Makes the pages, the root and the words."""
        pages = {port: self._page(port) for port in self.ports}
        pages[APPLICATION] = Page(CauseKind.BASELINE, fault=f"no-baseline {APPLICATION}")
        host = self.stream.choice([TARGET, TARGET, OTHER_HOST])
        asked = tuple(self.stream.sample(FEATURES, self.stream.choice([0, 0, 1, 2])))
        wants_defaults = not self._happens(0.2)
        root = self._manifest(ROOT)
        self._write_root(root)
        words = [f"--triplet={TARGET.name}", "--overlay-triplets=triplets"]
        words += [f"--feature={feature}" for feature in asked]
        words += [] if host == TARGET else [f"--host-triplet={host.name}"]
        words += [] if wants_defaults else ["--no-default-features"]
        project = Project(self.root_name, root, TARGET, host, asked, wants_defaults, pages)
        return Case(self.label, project, self.files, words)

    def _homes(self) -> dict[str, Registry]:
        """Chooses the registry of each port; most projects have one for all."""
        is_one = self._happens(0.6)
        return {port: DEFAULT_REGISTRY if is_one or self._happens(0.4)
                else self.stream.choice(OTHER_REGISTRIES) for port in self.ports}

    def _baselines(self) -> dict[tuple[str, str], dict[str, dict]]:
        """Makes the baselines that registries name, seldom without one of another name."""
        keys = {registry.key for registry in [DEFAULT_REGISTRY, *self.homes.values()]}
        return {key: {} for key in sorted(keys)
                if key[1] == "default" or not self.has_damage or self._happens(0.7)}

    def _happens(self, probability: float) -> bool:
        """Says at random whether something happens."""
        return self.stream.random() < probability

    def _is_damaged(self) -> bool:
        """Says at random whether something is wrong, in a project that has such things."""
        return self.has_damage and self._happens(0.08)

    def _versions(self) -> dict[Version, VersionClass]:
        """Makes the versions of a port, most of them of one class."""
        classes = list(VersionClass)
        usual = VersionClass.DOT if self._happens(0.8) else self.stream.choice(classes)
        versions: dict[Version, VersionClass] = {}
        for _ in range(self.stream.randint(1, 4)):
            version_class = usual if self._happens(0.95) else self.stream.choice(classes)
            text = self.stream.choice(VERSION_TEXTS[version_class])
            versions[Version(text, self.stream.choice([0, 0, 0, 1, 2, 10]))] = version_class
        return versions

    def _any_version(self, port: str) -> Version:
        """Returns one of the versions of a port."""
        return self.stream.choice(list(self.versions[port]))

    def _condition(self) -> Condition:
        """Makes a condition; about half of them always hold."""
        return ALWAYS if self._happens(0.5) else self.stream.choice(CONDITIONS)

    def _requests(self) -> tuple[FeatureRequest, ...]:
        """Makes a list of features, often an empty one."""
        names = [self.stream.choice(FEATURES) for _ in range(self.stream.choice([0, 0, 1, 2]))]
        return tuple(FeatureRequest(name, self._condition()) for name in names)

    def _candidates(self, owner: str) -> list[str]:
        """Lists the ports on which a port or the root may depend."""
        if owner == ROOT:
            return [*self.ports, self.root_name or self.ports[0]]
        own = [owner] if self._happens(0.2) else []
        later = self.ports[self.ports.index(owner) + 1:]
        return self.ports if self.has_cycles else own + later

    def _minimum(self, port: str) -> Optional[Version]:
        """Makes a minimum for a port, seldom one that no table has."""
        if self._happens(0.65):
            return None
        is_missing = port not in self.versions or self._happens(0.03)
        return MISSING_VERSION if is_missing else self._any_version(port)

    def _dependency(self, port: str) -> Dependency:
        """Makes a dependency on a port."""
        wants_defaults = not self._happens(0.25)
        is_host = self._happens(0.15)
        requests = self._requests()
        return Dependency(
            port, wants_defaults, requests, is_host, self._condition(), self._minimum(port)
        )

    def _feature(self, owner: str, counts: list[int]) -> Feature:
        """Makes what a feature or a port depends on and where it can be built."""
        candidates = self._candidates(owner)
        count = self.stream.choice(counts) if candidates else 0
        ports = [self.stream.choice(candidates) for _ in range(count)]
        supports = self._condition() if self._happens(0.08) else ALWAYS
        return Feature(tuple(self._dependency(port) for port in ports), supports)

    def _manifest(self, owner: str) -> Manifest:
        """Makes a manifest of a port or of the root."""
        counts = [1, 2, 3, 4] if owner == ROOT else [0, 1, 1, 2, 3]
        features = {CORE: self._feature(owner, counts)}
        for name in FEATURES if self._happens(0.8) else FEATURES[:2]:
            features[name] = self._feature(owner, [0, 0, 1, 2])
        return Manifest(features, self._requests())

    def _row(self, port: str, path: str, version: Version) -> Row:
        """Makes the manifest of a version and writes it, as a row of a table."""
        version_class = self.versions[port][version]
        manifest = self._manifest(port)
        document = {"name": port, **version_document(version, version_class)}
        self.files[path] = {**document, **manifest_document(manifest)}
        return Row(version_class, manifest)

    def _damaged_row(self, path: str, row: Row) -> Row:
        """Damages the manifest of a row."""
        document = self.files.pop(path)
        fault = self.stream.choice(["absent", "json", "name", "port-version"])
        if fault == "absent":
            return replace(row, manifest=None, fault=f"bad-file {path} - absent")
        if fault == "json":
            self.files[path] = "["
            return replace(row, manifest=None, fault=f"bad-file {path} - json")
        wrong = "other" if fault == "name" else 77
        self.files[path] = {**document, fault: wrong}
        line = f"disagrees {path} {fault} {document.get(fault, 0)} {wrong}"
        return replace(row, manifest=None, fault=line)

    def _table(self, port: str) -> dict[Version, Row]:
        """Makes the table of a port, and writes the versions file and the manifests."""
        rows, entries = {}, []
        for number, version in enumerate(self.versions[port]):
            folder = f"ports/{port}/{number}"
            path = f"{self.homes[port].folder}/{folder}/vcpkg.json"
            row = self._row(port, path, version)
            rows[version] = self._damaged_row(path, row) if self._is_damaged() else row
            keys = version_document(version, row.version_class)
            entries.append({**keys, "path": f"$/{folder}"})
        self.stream.shuffle(entries)
        self.files[self._table_path(port)] = {"versions": entries}
        return rows

    def _table_path(self, port: str) -> str:
        """Returns the path of a port's versions file."""
        return f"{self.homes[port].folder}/versions/{port[0]}-/{port}.json"

    def _page(self, port: str) -> Page:
        """Makes the page of a port, of the registry or of an overlay."""
        override = self._override(port) if self._happens(0.15) else None
        kind = CauseKind.BASELINE if override is None else CauseKind.OVERRIDE
        given = self._baseline(port) if override is None else override
        page = Page(kind, given, self._table(port))
        fault = self._registry_fault(port, given, kind)
        page = page if fault is None else Page(kind, fault=fault)
        return self._overlay_page(port) if self._happens(0.1) else page

    def _override(self, port: str) -> Version:
        """Overrides a version, seldom by one that the table lacks."""
        version = self._any_version(port)
        version = replace(version, text="77") if self._happens(0.05) else version
        in_one_text = {"version": version_text(version)}
        in_two_keys = version_document(version, VersionClass.TEXT)
        keys = in_one_text if self._happens(0.5) else in_two_keys
        self.overrides.append({"name": port, **keys})
        return version

    def _baseline(self, port: str) -> Optional[Version]:
        """Makes the baseline of a port, seldom none or one that the table lacks."""
        own = self.homes[port].key
        for key in self.baselines:
            if key != own and self._happens(0.5):
                self._note_baseline(key, port, self._any_version(port))
        if self._is_damaged():
            return None
        version = MISSING_VERSION if self._is_damaged() else self._any_version(port)
        if own in self.baselines:
            self._note_baseline(own, port, version)
        return version

    def _note_baseline(self, key: tuple[str, str], port: str, version: Version) -> None:
        """Puts a port into a baseline."""
        entry = {"baseline": version.text, "port-version": version.port_version}
        self.baselines[key][port] = entry

    def _registry_fault(
        self, port: str, given: Optional[Version], kind: CauseKind
    ) -> Optional[str]:
        """Damages the registry or the versions file of a port, and returns what is wrong."""
        folder, name = self.homes[port].key
        if self._is_damaged():
            self.unserved.append(port)
            return f"no-registry {port}"
        if kind == CauseKind.BASELINE and (folder, name) not in self.baselines:
            return f"bad-file {folder}/versions/baseline.json /{name} missing"
        if given is None:
            return f"no-baseline {port}"
        if self._is_damaged():
            path = self._table_path(port)
            self.files[path] = {}
            return f"bad-file {path} /versions missing"
        return None

    def _registries(self) -> list[dict]:
        """Writes the registries with patterns: one for each port, or for all that share it."""
        served = [port for port in self.ports if port not in self.unserved]
        by_default = [port for port in served if self.homes[port] == DEFAULT_REGISTRY]
        by_default.append(APPLICATION)
        entries = [{"kind": "git", "packages": self.unserved}]
        for registry in OTHER_REGISTRIES:
            ports = [port for port in served if self.homes[port] == registry]
            groups = [[port] for port in ports] if self._happens(0.5) else [ports]
            entries += [{**registry.entry(), "packages": group} for group in groups if group]
            entries += [{"kind": "git", "packages": [f"{port}*"]} for port in ports
                        if not any(other.startswith(port) for other in by_default)]
        self.stream.shuffle(entries)
        return entries

    def _overlay_page(self, port: str) -> Page:
        """Makes an overlay of a port, seldom one that can't be read."""
        path = f"overlay/{port}/vcpkg.json"
        version = self._any_version(port)
        row = self._row(port, path, version)
        if self._is_damaged():
            self.files[path] = "["
            return Page(CauseKind.OVERLAY, fault=f"bad-file {path} - json")
        return Page(CauseKind.OVERLAY, version, {version: row})

    def _write_root(self, manifest: Manifest) -> None:
        """Writes the root manifest, the configuration and the baseline files."""
        name = {"name": self.root_name} if self.root_name else {}
        rest = {**manifest_document(manifest), "overrides": self.overrides}
        self.files["vcpkg.json"] = {**name, **rest}
        self.files["vcpkg-configuration.json"] = {
            "default-registry": DEFAULT_REGISTRY.entry(),
            "registries": self._registries(),
            "overlay-ports": ["overlay"],
        }
        for registry in [DEFAULT_REGISTRY, *self.homes.values()]:
            path = f"{registry.folder}/versions/baseline.json"
            self.files[path] = {name: baseline for (folder, name), baseline
                                in self.baselines.items() if folder == registry.folder}


def split_lines(text: str) -> list[str]:
    """Splits a text into lines with their line feeds."""
    *lines, rest = text.split("\n")
    return [f"{line}\n" for line in lines] + ([rest] if rest else [])


def first_difference(left: str, right: str) -> Optional[int]:
    """Returns how many lines stand before the first that differs, or nothing."""
    left_lines, right_lines = split_lines(left), split_lines(right)
    pairs = enumerate(zip(left_lines, right_lines))
    end = None if left == right else min(len(left_lines), len(right_lines))
    return next((index for index, (one, other) in pairs if one != other), end)


def line_at(text: str, index: Optional[int]) -> Optional[str]:
    """Returns a line without its line feed, where the text has it."""
    lines = split_lines(text)
    return lines[index].rstrip("\n") if index is not None and index < len(lines) else None


def check_answer(given: str, wanted: str) -> Answer:
    """Returns what a check of a given report has to print."""
    index = first_difference(given, wanted)
    if index is None:
        return Answer(0, "vcpkg-check 1\nyes\n")
    line = line_at(wanted, index)
    want = "want-nothing" if line is None else f"want {line}"
    return Answer(1, f"vcpkg-check 1\nno {index + 1}\n{want}\n")


def changed_report(label: str, report: str) -> str:
    """Changes, doubles or takes out a line of a project's report, or its line feed."""
    stream = random.Random(f"{label}-check")
    lines = split_lines(report)
    index = stream.randrange(len(lines))
    line = lines[index].rstrip("\n")
    changes = [f"{line}x\n", f"{line} \n", f"{line}\r\n", f"{line}\n{line}\n", line, ""]
    lines[index] = stream.choice(changes)
    return "".join(lines)


def check_trial(case: Case, given: str, wanted: str) -> Trial:
    """Returns the trial of the program's check of a report."""
    words = ["check", *case.words, "--report=report.txt"]
    return Trial(words, check_answer(given, wanted), {"report.txt": given})


def outcomes(report: str) -> set[str]:
    """Returns the kinds of fault lines in a report, or that it is a plan."""
    _, status, count, *lines = report.split("\n")
    if status == "status planned":
        return {"planned"}
    faults = lines[:int(count.split()[1])]
    return {f"refused with {fault.split()[0]}" for fault in faults}


def write_files(folder: str, files: dict[str, object]) -> None:
    """Writes files below a folder: texts as they are, other values as JSON."""
    for path, content in files.items():
        full_path = os.path.join(folder, path)
        os.makedirs(os.path.dirname(full_path), exist_ok=True)
        with open(full_path, "w", encoding="utf-8", newline="") as file:
            file.write(content if isinstance(content, str) else json.dumps(content))


def run(program: str, folder: str, words: list[str]) -> Answer:
    """Runs the program in a folder."""
    ended = subprocess.run([program, *words], cwd=folder, stdout=subprocess.PIPE, check=False)
    return Answer(ended.returncode, ended.stdout.decode("utf-8", "backslashreplace"))


def agrees(program: str, case: Case, trial: Trial, keep: Optional[str]) -> bool:
    """Says whether the program gives the wanted answer, and else keeps and tells both."""
    with tempfile.TemporaryDirectory() as folder:
        write_files(folder, {**case.files, **trial.files})
        answer = run(program, folder, trial.words)
    if answer != trial.wanted:
        folder = tempfile.mkdtemp(prefix=f"{case.label}-", dir=keep)
        tell_difference(case, trial, answer, folder)
    return answer == trial.wanted


def tell_difference(case: Case, trial: Trial, answer: Answer, folder: str) -> None:
    """Writes a project and both answers to a folder, and prints the first line that differs."""
    wanted, command = trial.wanted, " ".join(trial.words)
    answers = {"command.txt": command, "wanted.txt": wanted.output, "printed.txt": answer.output}
    write_files(folder, {**case.files, **trial.files, **answers})
    index = first_difference(wanted.output, answer.output)
    print(f"difference of {case.label}, kept in {folder}: {command}")
    print(f"  wanted:  status {wanted.status}, line {line_at(wanted.output, index)!r}")
    print(f"  printed: status {answer.status}, line {line_at(answer.output, index)!r}")


def compare(options: argparse.Namespace, number: int, tally: Counter) -> None:
    """Compares the answers for one project and counts what came of it."""
    case = ProjectMaker(f"project-{options.seed}-{number}").make()
    report = plan_report(case.project)
    found = outcomes(report)
    trials = [Trial(["plan", *case.words], Answer(0 if "planned" in found else 1, report))]
    given_reports = [report, changed_report(case.label, report)] if options.check else []
    trials += [check_trial(case, given, report) for given in given_reports]
    program = os.path.abspath(options.program)
    is_same = all(agrees(program, case, trial, options.keep) for trial in trials)
    tally.update([*found, "same" if is_same else "different"])


def parse_options() -> argparse.Namespace:
    """Reads the command line."""
    parser = argparse.ArgumentParser(description=__doc__)
    parser.add_argument("--program", required=True, help="the program whose plans are compared")
    parser.add_argument("--count", type=int, default=1000, help="how many projects are made")
    parser.add_argument("--seed", type=int, default=1, help="which projects are made")
    parser.add_argument("--keep", metavar="DIR", help="where projects with a difference are kept")
    parser.add_argument("--check", action="store_true", help="compare the answers of check too")
    return parser.parse_args()


def main() -> int:
    """Compares all projects and prints what came of them."""
    options = parse_options()
    if options.keep is not None:
        os.makedirs(options.keep, exist_ok=True)
    tally = Counter(same=0, different=0, planned=0)
    for number in range(options.count):
        compare(options, number, tally)
        if tally["different"] == DIFFERENCE_LIMIT:
            break
    for outcome, count in sorted(tally.items()):
        print(f"{outcome}: {count}")
    return 1 if tally["different"] else 0


if __name__ == "__main__":
    sys.exit(main())
