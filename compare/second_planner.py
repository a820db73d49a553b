"""Plans a project by docs/resolution.md and docs/reference.md alone, as a second opinion."""
from __future__ import annotations

import enum
from collections import defaultdict, deque
from dataclasses import dataclass, field
from typing import Callable, Iterable, Optional, Union

ROOT = "."
CORE = "core"
DEFAULT = "default"
NATIVE = "native"


class VersionClass(enum.Enum):
    """Says how the text of a version is ordered."""
    DOT = "dot"
    DATE = "date"
    TEXT = "text"


class CauseKind(enum.Enum):
    """Says why a fact follows, in the word of the report."""
    ROOT = "root"
    FROM = "from"
    BASELINE = "baseline"
    OVERRIDE = "override"
    OVERLAY = "overlay"
    MINIMUM = "minimum"


@dataclass(frozen=True)
class Condition:
    """A platform expression: all of some marks, none of some, and any of some."""
    all_of: tuple[str, ...] = ()
    none_of: tuple[str, ...] = ()
    any_of: tuple[str, ...] = ()

    def holds(self, marks: frozenset[str]) -> bool:
        """Says whether it is true of the marks of a triplet."""
        wanted = not self.any_of or not marks.isdisjoint(self.any_of)
        return wanted and marks.issuperset(self.all_of) and marks.isdisjoint(self.none_of)


ALWAYS = Condition()


@dataclass(frozen=True, order=True)
class Version:
    """A version's text and its port-version; the class stands in the row of a table."""
    text: str
    port_version: int = 0

    def __str__(self) -> str:
        return f"{token(self.text)}#{self.port_version}"


@dataclass(frozen=True)
class FeatureRequest:
    """A feature in a list, and where it is wanted."""
    name: str
    platform: Condition = ALWAYS


@dataclass(frozen=True)
class Dependency:
    """What a manifest asks of one port."""
    port: str
    default_features: bool = True
    features: tuple[FeatureRequest, ...] = ()
    host: bool = False
    platform: Condition = ALWAYS
    minimum: Optional[Version] = None


@dataclass(frozen=True)
class Feature:
    """What a feature depends on, and where it can be built."""
    dependencies: tuple[Dependency, ...] = ()
    supports: Condition = ALWAYS


@dataclass(frozen=True)
class Manifest:
    """The features of a port, and as "core" what it is without any of them."""
    features: dict[str, Feature]
    default_features: tuple[FeatureRequest, ...] = ()


@dataclass(frozen=True)
class Row:
    """A version of a table: its manifest, or its fault line without the number."""
    version_class: VersionClass
    manifest: Optional[Manifest] = None
    fault: Optional[str] = None


@dataclass(frozen=True)
class Page:
    """A port's given version and table, or its fault line without the number."""
    given_kind: CauseKind
    given: Optional[Version] = None
    rows: dict[Version, Row] = field(default_factory=dict)
    fault: Optional[str] = None

    def is_pinned(self) -> bool:
        """Says whether an overlay or an override fixes the version."""
        return self.given_kind is not CauseKind.BASELINE

    def is_at_most(self, left: Version, right: Version) -> bool:
        """Compares two versions of the table, as far as they can be compared."""
        version_class = self.rows[left].version_class
        if version_class is not self.rows[right].version_class:
            return False
        if left.text == right.text:
            return left.port_version <= right.port_version
        return order_key(version_class, left.text) < order_key(version_class, right.text)

    def is_visited(self, floor: Version) -> bool:
        """Says whether the manifest of a floor counts."""
        if floor not in self.rows or self.given not in self.rows:
            return False
        is_passed_over = self.is_pinned() or self.is_at_most(floor, self.given)
        return floor == self.given or not is_passed_over

    def maximal(self, floors: list[Version]) -> list[Version]:
        """Returns the floors that no other floor is above, by text and port-version."""
        return sorted(
            floor
            for floor in floors
            if not any(other != floor and self.is_at_most(floor, other) for other in floors)
        )


@dataclass(frozen=True)
class Triplet:
    """A triplet and the marks that its file gives."""
    name: str
    marks: frozenset[str]


@dataclass(frozen=True)
class Project:
    """All that a plan depends on."""
    name: Optional[str]
    root: Manifest
    target: Triplet
    host: Triplet
    asked_features: tuple[str, ...]
    default_features: bool
    pages: dict[str, Page]

    def marks_of(self, triplet: str) -> frozenset[str]:
        """Returns the marks that hold for a triplet."""
        return self.host.marks | {NATIVE} if triplet == self.host.name else self.target.marks


@dataclass(frozen=True, order=True)
class Instance:
    """A port for a triplet."""
    port: str
    triplet: str

    def __str__(self) -> str:
        return f"{self.port} {self.triplet}"


@dataclass(frozen=True, order=True)
class Need:
    """An instance is wanted with a feature."""
    instance: Instance
    feature: str

    def __str__(self) -> str:
        return f"need {self.instance} {self.feature}"


@dataclass(frozen=True, order=True)
class Floor:
    """A port has to be at or above a version."""
    port: str
    version: Version

    def __str__(self) -> str:
        return f"floor {self.port} {self.version}"


@dataclass(frozen=True, order=True)
class Visit:
    """A version's manifest is looked at for a feature of an instance."""
    instance: Instance
    feature: str
    version: Version

    def __str__(self) -> str:
        return f"visit {self.instance} {self.feature} {self.version}"


Fact = Union[Need, Floor, Visit]
KIND_ORDER = (Need, Floor, Visit)


@dataclass(frozen=True)
class Cause:
    """The kind of a cause and the lines that it cites."""
    kind: CauseKind
    lines: tuple[int, ...] = ()

    def __str__(self) -> str:
        return " ".join([self.kind.value, *map(str, self.lines)])


def token(text: str) -> str:
    """Prints a name, a path or a version's text."""
    codes = text.encode("utf-8")
    return "".join(
        chr(code) if 32 < code < 127 and code != ord("%") else f"%{code:02X}" for code in codes
    )


def pre_release_key(part: str) -> tuple:
    """Orders the parts of pre-releases: numbers stand below words."""
    return (0, int(part), "") if part.isdigit() else (1, 0, part)


def order_key(version_class: VersionClass, text: str) -> tuple:
    """Orders the texts of a class; texts with one key are unrelated."""
    if version_class is VersionClass.TEXT:
        return ()
    if version_class is VersionClass.DATE:
        day, *numbers = text.split(".")
        return (day, [int(number) for number in numbers])
    release, dash, pre_release = text.partition("+")[0].partition("-")
    parts = [pre_release_key(part) for part in pre_release.split(".")] if dash else []
    return ([int(number) for number in release.split(".")], not dash, parts)


def reachable(starts: Iterable[Need], following: Callable[[Need], list[Need]]) -> set[Need]:
    """Returns the starts and all that follows from them."""
    found = set(starts)
    waiting = list(found)
    while waiting:
        fresh = set(following(waiting.pop())) - found
        found |= fresh
        waiting += fresh
    return found


class Rules:
    """What the manifests of a project ask."""

    def __init__(self, project: Project) -> None:
        self.project = project
        self.root = Instance(ROOT, project.target.name)
        self.off: frozenset[Instance] = frozenset()
        self.off = self._switched_off()

    def root_needs(self) -> list[Need]:
        """Lists the needs from which all else follows."""
        features = [CORE, *self.project.asked_features]
        features += [DEFAULT] if self.project.default_features else []
        return [Need(self.root, feature) for feature in features]

    def demands(self, manifest: Manifest, instance: Instance, feature: str) -> list[Fact]:
        """Lists what a manifest asks for a feature of an instance."""
        if feature == DEFAULT:
            return self._requested(instance, manifest.default_features, instance.triplet)
        facts: list[Fact] = []
        for dependency in self._applicable(manifest, instance, feature):
            facts += self._dependency_demands(instance, dependency)
        return facts

    def needs(self, manifest: Manifest, need: Need) -> list[Need]:
        """Lists the needs that a manifest asks where it is looked at for a need."""
        demands = self.demands(manifest, need.instance, need.feature)
        return [demand for demand in demands if isinstance(demand, Need)]

    def _dependency_demands(self, instance: Instance, dependency: Dependency) -> list[Fact]:
        """Lists what one dependency of an instance asks."""
        wanted = self._wanted(instance, dependency)
        facts: list[Fact] = []
        facts += self._requested(wanted, dependency.features, instance.triplet)
        if wanted != instance:
            facts.append(Need(wanted, CORE))
            facts += [] if wanted in self.off else [Need(wanted, DEFAULT)]
        heeds_minimums = wanted != self.root and not self.project.pages[wanted.port].is_pinned()
        if dependency.minimum is not None and heeds_minimums:
            facts.append(Floor(wanted.port, dependency.minimum))
        return facts

    def _requested(
        self, wanted: Instance, requests: Iterable[FeatureRequest], triplet: str
    ) -> list[Need]:
        """Lists the needs of those requested features that are wanted for a triplet."""
        marks = self.project.marks_of(triplet)
        return [Need(wanted, request.name) for request in requests if request.platform.holds(marks)]

    def _applicable(self, manifest: Manifest, instance: Instance, name: str) -> list[Dependency]:
        """Lists the dependencies of a feature that apply."""
        marks = self.project.marks_of(instance.triplet)
        dependencies = manifest.features.get(name, Feature()).dependencies
        return [dependency for dependency in dependencies if dependency.platform.holds(marks)]

    def _wanted(self, instance: Instance, dependency: Dependency) -> Instance:
        """Returns the instance that a dependency names; the root's own name is the root."""
        triplet = self.project.host.name if dependency.host else instance.triplet
        names_root = instance == self.root and dependency.port == self.project.name
        if names_root and triplet == self.root.triplet:
            return self.root
        return Instance(dependency.port, triplet)

    def _own_needs(self, need: Need) -> list[Need]:
        """Lists the needs of the root that a need of the root asks for."""
        needs = self.needs(self.project.root, need)
        return [following for following in needs if following.instance == self.root]

    def _switched_off(self) -> frozenset[Instance]:
        """Returns the instances whose default features the root switches off."""
        wishes: dict[Instance, set[bool]] = defaultdict(set)
        for need in reachable(self.root_needs(), self._own_needs):
            for dependency in self._applicable(self.project.root, self.root, need.feature):
                wishes[self._wanted(self.root, dependency)].add(dependency.default_features)
        return frozenset(instance for instance, wished in wishes.items() if True not in wished)


class Reasons:
    """The least list in its order: each fact with its number and its cause."""

    def __init__(self, rules: Rules) -> None:
        self.rules = rules
        self.numbers: dict[Fact, int] = {}
        self.causes: dict[Fact, Cause] = {}
        self.floors: dict[str, list[Version]] = defaultdict(list)
        fresh: dict[Fact, Cause] = {need: Cause(CauseKind.ROOT) for need in rules.root_needs()}
        while fresh:
            self._add_rank(fresh)
            fresh = self._next_rank()

    def lines(self) -> list[str]:
        """Prints the reasons."""
        return [f"{number} {fact} {self.causes[fact]}" for fact, number in self.numbers.items()]

    def top_floors(self) -> dict[str, list[Version]]:
        """Returns for each port its floors that no other floor is above."""
        pages = self.rules.project.pages
        return {port: pages[port].maximal(floors) for port, floors in self.floors.items()}

    def _add_rank(self, fresh: dict[Fact, Cause]) -> None:
        """Adds the facts of one rank in their order."""
        for fact in sorted(fresh, key=lambda fact: (KIND_ORDER.index(type(fact)), fact)):
            self.numbers[fact] = len(self.numbers) + 1
            self.causes[fact] = fresh[fact]
            if isinstance(fact, Floor):
                self.floors[fact.port].append(fact.version)

    def _next_rank(self) -> dict[Fact, Cause]:
        """Returns the facts that follow and aren't listed yet, each with its first cause."""
        fresh: dict[Fact, Cause] = {}
        for fact in self.numbers:
            for following, cause in self._consequences(fact).items():
                if following not in self.numbers:
                    fresh.setdefault(following, cause)
        return fresh

    def _consequences(self, fact: Fact) -> dict[Fact, Cause]:
        """Returns what follows from a fact; visits count with their needs."""
        if isinstance(fact, Floor):
            return {}
        if fact.instance == self.rules.root:
            return self._asked(self.rules.project.root, fact)
        page = self.rules.project.pages[fact.instance.port]
        if isinstance(fact, Visit):
            return self._asked(page.rows[fact.version].manifest, fact)
        return {} if page.given is None else self._looked_at(page, page.given, fact)

    def _asked(self, manifest: Optional[Manifest], fact: Union[Need, Visit]) -> dict[Fact, Cause]:
        """Returns what a manifest asks where a fact looks at it."""
        if manifest is None:
            return {}
        line = (self.numbers[fact],)
        causes = {Need: Cause(CauseKind.FROM, line), Floor: Cause(CauseKind.MINIMUM, line)}
        demands = self.rules.demands(manifest, fact.instance, fact.feature)
        return {demand: causes[type(demand)] for demand in demands}

    def _looked_at(self, page: Page, given: Version, need: Need) -> dict[Fact, Cause]:
        """Returns the given floor of a needed port and the visits."""
        port, line = need.instance.port, self.numbers[need]
        following: dict[Fact, Cause] = {Floor(port, given): Cause(page.given_kind, (line,))}
        for version in filter(page.is_visited, self.floors[port]):
            lines = (line, self.numbers[Floor(port, version)])
            following[Visit(need.instance, need.feature, version)] = Cause(CauseKind.FROM, lines)
        return following


def file_fault(project: Project, fact: Fact) -> Optional[str]:
    """Returns what is wrong with the files that a fact meets, without the number."""
    if isinstance(fact, Floor):
        page = project.pages[fact.port]
        is_known = page.fault is not None or fact.version in page.rows
        return None if is_known else f"no-version {fact.port} {fact.version}"
    if fact.instance.port == ROOT:
        return None
    page = project.pages[fact.instance.port]
    return page.rows[fact.version].fault if isinstance(fact, Visit) else page.fault


def file_faults(reasons: Reasons) -> list[str]:
    """Lists the faults of files and tables, each with the first line that meets it."""
    first_lines: dict[str, int] = {}
    for fact, number in reasons.numbers.items():
        fault = file_fault(reasons.rules.project, fact)
        if fault is not None:
            first_lines.setdefault(fault, number)
    return [f"{fault} {number}" for fault, number in first_lines.items()]


def conflicts(reasons: Reasons) -> list[str]:
    """Lists the conflicts, each with the first two floors that no other floor is above."""
    faults = []
    for port, floors in reasons.top_floors().items():
        told = [f"{version} {reasons.numbers[Floor(port, version)]}" for version in floors[:2]]
        faults += [" ".join(["conflict", port, *told])] if len(told) > 1 else []
    return faults


class Plan:
    """What the chosen versions ask for, where no file is wrong and no port is in conflict."""

    def __init__(self, reasons: Reasons) -> None:
        self.rules = reasons.rules
        self.numbers = reasons.numbers
        # A top floor that is the only one of its port is at or above all others.
        self.choices = {port: floors[0] for port, floors in reasons.top_floors().items()}
        self.needs = sorted(reachable(self.rules.root_needs(), self._following))
        self.edges: dict[Instance, set[Instance]] = defaultdict(set)
        for need in self.needs:
            wanted = {following.instance for following in self._following(need)}
            self.edges[need.instance] |= wanted - {need.instance}
        del self.edges[self.rules.root]

    def _manifest(self, instance: Instance) -> Manifest:
        """Returns the manifest of the root or of the chosen version."""
        if instance == self.rules.root:
            return self.rules.project.root
        rows = self.rules.project.pages[instance.port].rows
        return rows[self.choices[instance.port]].manifest

    def _following(self, need: Need) -> list[Need]:
        """Lists the needs that follow from a planned need."""
        return self.rules.needs(self._manifest(need.instance), need)

    def faults(self) -> list[str]:
        """Lists the planned features that are lacking or aren't supported."""
        return [fault for fault in map(self._fault, self.needs) if fault]

    def _fault(self, need: Need) -> Optional[str]:
        """Returns what is wrong with a planned need."""
        feature = self._manifest(need.instance).features.get(need.feature)
        marks = self.rules.project.marks_of(need.instance.triplet)
        if need.feature == DEFAULT or feature is not None and feature.supports.holds(marks):
            return None
        word = "no-feature" if feature is None else "unsupported"
        version = self.choices.get(need.instance.port, "-")
        return f"{word} {need.instance} {need.feature} {version} {self.numbers[need]}"

    def _height(self, instance: Instance) -> int:
        """Returns the height of an instance, where there is no cycle."""
        return max((self._height(wanted) + 1 for wanted in self.edges[instance]), default=0)

    def cycles(self) -> list[str]:
        """Lists the cycle from the least instance that lies on any, if there is one."""
        walks = [walk for walk in map(self._way_back, sorted(self.edges)) if walk]
        return [" ".join(["cycle", *map(str, walk)]) for walk in walks[:1]]

    def _way_back(self, start: Instance) -> list[Instance]:
        """Returns the shortest walk from an instance to itself, the first by names."""
        walks = deque([[start]])
        seen: set[Instance] = set()
        while walks:
            walk = walks.popleft()
            if start in self.edges[walk[-1]]:
                return walk
            fresh = sorted(self.edges[walk[-1]] - seen)
            seen.update(fresh)
            walks.extend([*walk, instance] for instance in fresh)
        return []

    def lines(self) -> list[str]:
        """Prints the items, each behind all that it depends on, where there is no cycle."""
        order = sorted(self.edges, key=lambda instance: (self._height(instance), instance))
        items = [f"{number} {self._item(item)}" for number, item in enumerate(order, start=1)]
        return ["status planned", f"plan {len(items)}", *items]

    def _item(self, instance: Instance) -> str:
        """Prints an item without its number."""
        version = self.choices[instance.port]
        line = self.numbers[Floor(instance.port, version)]
        features = {need.feature for need in self.needs if need.instance == instance}
        names = ",".join([CORE, *sorted(features - {CORE, DEFAULT})])
        return f"{instance} {version} {line} {names}"


def refused(faults: list[str]) -> list[str]:
    """Prints the faults of one phase."""
    return ["status refused", f"faults {len(faults)}", *sorted(faults)]


def outcome(reasons: Reasons) -> list[str]:
    """Prints the plan, or the faults of the first phase that has any."""
    early_faults = file_faults(reasons) or conflicts(reasons)
    if early_faults:
        return refused(early_faults)
    plan = Plan(reasons)
    late_faults = plan.faults() or plan.cycles()
    return refused(late_faults) if late_faults else plan.lines()


def plan_report(project: Project) -> str:
    """Returns the report of a project."""
    reasons = Reasons(Rules(project))
    told = [f"reasons {len(reasons.numbers)}", *reasons.lines(), "end"]
    return "\n".join(["vcpkg-plan 1", *outcome(reasons), *told, ""])
