"""A registry as people keep them, and four projects over it.

One to thirty versions a port, of every scheme; dependencies and dependants with heavy tails;
features, some of them on by default; the build tools as host dependencies nearly everywhere;
platforms that hold and that don't; a minimum on one dependency in twenty.

Every project has a plan for x64-linux: a port asks only for ports before it, a version keeps the
features of the one before, and every version that is asked for stands in its table.
"""
import random

import shapes

TOOLS = ["vcpkg-cmake", "vcpkg-cmake-config", "vcpkg-get-python", "vcpkg-tool-meson"]
BEGINNINGS = """aws azure qt5 open lib tiny fast nano micro mini simple easy super hyper meta
multi poly uni omni inter trans bio geo astro chem crypto net http web json xml yaml csv sql mem
file disk block stream audio video image pixel font string regex math matrix vector tensor graph
tree ring lock thread task event signal clock date trace mock fuzz plot chart map mesh voxel
shade scene phys sim robot can serial usb midi mqtt amqp rpc proto zip arch hash sha tls ssh
boost""".split()
ENDINGS = """kit core utils tools plus engine parser writer reader codec client server driver
proxy bridge binding wrapper framework runtime sdk api store cache pool queue index search model
view forms grid tables sets buffer loader packer format schema check guard vault field space flow
pipe hub node link port gate way path route""".split()
FEATURES = """ssl tools gui python zlib bzip2 lzma zstd openssl http2 opengl vulkan cuda openmp
tbb png jpeg tiff webp x11 wayland sqlite postgres mysql examples docs xml json yaml icu ffmpeg
openblas simd avx2 threads async cli fortran mpi""".split()
HOLDS = ["!uwp", "!windows", "linux", "linux | osx", "!(windows & !mingw)", "!android",
         "x64 | arm64", "!windows & !osx", "linux & !android", "native"]
HOLDS_NOT = ["windows", "osx", "windows & !uwp", "android", "!linux", "uwp", "osx | ios",
             "emscripten", "arm64 & windows"]
SCHEMES = {"version": 52, "version-semver": 28, "version-date": 14, "version-string": 6}
SIZES_OF_PROJECTS = [10, 50, 200, 1000]


class Port:
    """A port over all its versions, the earliest first."""

    def __init__(self, name, scheme, versions, baseline):
        self.name = name
        self.scheme = scheme
        self.versions = versions
        self.baseline = baseline
        self.supports = None
        self.only_windows = False
        self.dependencies = []
        self.features = {}
        self.defaults = []


def port_names(choose, size):
    names = dict.fromkeys(TOOLS)
    while len(names) < size:
        name = choose.choice(BEGINNINGS) + choose.choice(["", "-"]) + choose.choice(ENDINGS)
        if choose.random() < 0.25:
            name += choose.choice(["-cpp", "-c", "2", "3", "-" + choose.choice(ENDINGS)])
        names[name] = None
    return list(names)


def with_port_versions(choose, texts, count):
    """The first `count` versions: each text, and sometimes the same text packed once more."""
    versions = []
    for text in texts:
        again = 0
        while again == 0 or choose.random() < 0.3:
            versions.append((text, again))
            again += 1
            if len(versions) == count:
                return versions


def numbered_texts(choose):
    numbers = [choose.randint(0, 12), choose.randint(0, 20), choose.randint(0, 9)]
    while True:
        yield ".".join(map(str, numbers))
        raised = choose.choice([0, 1, 2, 2])
        numbers[raised] += choose.randint(1, 2)
        numbers[raised + 1:] = [0] * (2 - raised)


def dated_texts(choose):
    months = 12 * choose.randint(2016, 2021) + choose.randrange(12)
    while True:
        yield f"{months // 12}-{months % 12 + 1:02}-{choose.randint(1, 28):02}"
        months += choose.randint(1, 5)


def versions_of(choose, scheme, count):
    if scheme == "version-string":
        text = f"release-{choose.randint(100, 2000)}"
        return [(text, again) for again in range(min(count, 8))]
    texts = dated_texts if scheme == "version-date" else numbered_texts
    return with_port_versions(choose, texts(choose), count)


def new_port(choose, name):
    scheme = choose.choices(list(SCHEMES), SCHEMES.values())[0]
    if name in TOOLS:
        scheme = "version-date"
    count = min(30, 1 + int(choose.lognormvariate(1.35, 0.95)))
    versions = versions_of(choose, scheme, count)
    behind = 0 if choose.random() < 0.75 else choose.randint(1, 4)
    return Port(name, scheme, versions, max(0, len(versions) - 1 - behind))


def ask(version):
    text, again = version
    return f"{text}#{again}" if again else text


def some_version(choose, port):
    """Mostly one that the baseline meets, else a later one."""
    if choose.random() < 0.6:
        return port.versions[choose.randint(0, port.baseline)]
    return choose.choice(port.versions[port.baseline:])


def feature_items(choose, port):
    names = choose.sample(list(port.features), min(len(port.features), choose.randint(1, 2)))
    return [{"name": name, "platform": choose.choice(HOLDS)} if choose.random() < 0.1 else name
            for name in names]


def dependency(choose, port):
    item = {"name": port.name}
    if port.only_windows:
        item["platform"] = "windows"
    elif choose.random() < 0.16:
        item["platform"] = choose.choice(HOLDS if choose.random() < 0.6 else HOLDS_NOT)
    if port.features and choose.random() < 0.2:
        item["default-features"] = False
    if port.features and choose.random() < 0.35:
        item["features"] = feature_items(choose, port)
    if choose.random() < 0.02:
        item["host"] = True
    if choose.random() < 0.055:
        item["version>="] = ask(some_version(choose, port))
    return item if len(item) > 1 else port.name


def earlier(choose, ports, count):
    """At most that many of the ports, the first ones most often, so that a few are popular."""
    if not ports:
        return []
    places = dict.fromkeys(int(len(ports) * choose.random() ** 2.6) for _ in range(2 * count))
    return [ports[place] for place in list(places)[:count]]


def add_features(choose, port, before):
    count = min(12, int(choose.paretovariate(1.1)))
    for name in choose.sample(FEATURES, count):
        asked = [dependency(choose, other)
                 for other in earlier(choose, before, choose.choice([0, 1, 1, 1, 2, 3]))]
        if port.features and choose.random() < 0.15:
            own = {"name": port.name, "default-features": False,
                   "features": [next(iter(port.features))]}
            asked.append(own)
        feature = {"description": f"Build with {name}"}
        if asked:
            feature["dependencies"] = asked
        if choose.random() < 0.08:
            feature["supports"] = choose.choice(HOLDS)
        port.features[name] = feature
    for name in port.features:
        if choose.random() < 0.3:
            item = {"name": name, "platform": choose.choice(HOLDS + HOLDS_NOT)}
            port.defaults.append(item if choose.random() < 0.15 else name)


def fill(choose, port, before):
    """What the port asks for, of the ports before it."""
    if before and choose.random() < 0.03:
        port.only_windows = True
        port.supports = "windows"
    elif choose.random() < 0.18:
        port.supports = choose.choice(HOLDS)
    count = min(40, int(choose.paretovariate(1.25)) - 1)
    port.dependencies = [dependency(choose, other) for other in earlier(choose, before, count)]
    for tool, share in zip(TOOLS, [0.86, 0.74, 0.02, 0.07]):
        if choose.random() < share:
            port.dependencies.append({"name": tool, "host": True})
    if choose.random() < 0.32:
        add_features(choose, port, before)


def version_keys(port, version):
    text, again = version
    keys = {port.scheme: text}
    if again:
        keys["port-version"] = again
    return keys


def manifest(choose, port, place):
    value = {"name": port.name, **version_keys(port, port.versions[place]),
             "description": f"The library {port.name}, in the words of its own page.",
             "license": choose.choice(["MIT", "Apache-2.0", "BSD-3-Clause", "Zlib"])}
    if port.supports:
        value["supports"] = port.supports
    dependencies = list(port.dependencies)
    if dependencies and place < port.baseline and choose.random() < 0.3:
        dependencies.pop(choose.randrange(len(dependencies)))
    if dependencies:
        value["dependencies"] = dependencies
    if port.defaults:
        value["default-features"] = port.defaults
    if port.features:
        value["features"] = port.features
    return value


def files_of(choose, port):
    rows = []
    for place, version in enumerate(port.versions):
        folder = f"ports/{port.name}/{version[0]}_{version[1]}"
        rows.append({**version_keys(port, version), "path": "$/" + folder})
        yield f"reg/{folder}/vcpkg.json", shapes.pretty(manifest(choose, port, place))
    yield shapes.table_path(port.name), shapes.pretty({"versions": rows[::-1]})


def root_item(choose, port):
    item = {"name": port.name}
    if port.features and choose.random() < 0.3:
        item["features"] = [choose.choice(list(port.features))]
    if port.features and choose.random() < 0.1:
        item["default-features"] = False
    if choose.random() < 0.12:
        item["version>="] = ask(choose.choice(port.versions))
    if choose.random() < 0.05:
        item["platform"] = choose.choice(HOLDS)
    return item if len(item) > 1 else port.name


def root_manifest(choose, ports, count):
    """Asks for that many ports at random, and overrides one in fifty of them at its baseline."""
    usable = [port for port in ports[len(TOOLS):] if not port.only_windows]
    direct = choose.sample(usable, min(count, len(usable)))
    overrides = [{"name": port.name, **version_keys(port, port.versions[port.baseline])}
                 for port in choose.sample(direct, max(1, len(direct) // 50))]
    return {"name": f"app-{count}", "version": "0.1.0",
            "dependencies": [root_item(choose, port) for port in direct],
            "overrides": overrides}


def registry(size, seed):
    choose = random.Random(seed)
    ports = [new_port(choose, name) for name in port_names(choose, size)]
    libraries = ports[len(TOOLS):]
    for place, port in enumerate(libraries):
        fill(choose, port, libraries[:place])
    baseline = {port.name: {"baseline": port.versions[port.baseline][0],
                            "port-version": port.versions[port.baseline][1]} for port in ports}
    yield "reg/versions/baseline.json", shapes.pretty({"default": dict(sorted(baseline.items()))})
    for port in ports:
        yield from files_of(choose, port)
    for count in SIZES_OF_PROJECTS:
        root = root_manifest(random.Random(f"{seed} {count}"), ports, count)
        yield from shapes.project(root, "../../reg", f"projects/{count}/")
