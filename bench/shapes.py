"""The shapes of a few lines each. Each yields the path and the text of every file."""
import json
import random

TRIPLET = """\
set(VCPKG_TARGET_ARCHITECTURE x64)
set(VCPKG_CRT_LINKAGE dynamic)
set(VCPKG_LIBRARY_LINKAGE static)

set(VCPKG_CMAKE_SYSTEM_NAME Linux)
"""


def compact(value):
    return json.dumps(value, separators=(",", ":"))


def pretty(value):
    return json.dumps(value, indent=2) + "\n"


def project(root, registry, folder="", show=pretty):
    """The files of a project whose ports all come from the registry at that path."""
    default = {"kind": "filesystem", "path": registry}
    yield folder + "vcpkg.json", show(root)
    yield folder + "vcpkg-configuration.json", show({"default-registry": default})
    yield folder + "triplets/x64-linux.cmake", TRIPLET


def table_path(port):
    return f"reg/versions/{port[0]}-/{port}.json"


def plain(size, seed, rows=6):
    """Reading and nothing else: every port stands at its baseline and asks for nothing."""
    ports = [f"port-{number:05}" for number in range(size)]
    order = list(ports)
    random.Random(seed).shuffle(order)
    yield from project({"dependencies": order}, "reg")
    newest = f"1.{rows}.0"
    entry = {"baseline": newest, "port-version": 0}
    yield "reg/versions/baseline.json", pretty({"default": {port: entry for port in ports}})
    for port in ports:
        folder = f"ports/{port}/{newest}"
        versions = [f"1.{row}.0" for row in range(rows, 0, -1)]
        table = [{"version": version, "port-version": 0, "path": f"$/ports/{port}/{version}"}
                 for version in versions]
        manifest = {"name": port, "version": newest, "license": "MIT",
                    "description": "A port that is there to be read"}
        yield table_path(port), pretty({"versions": table})
        yield f"reg/{folder}/vcpkg.json", pretty(manifest)


def folders(size, seed, files=6, bytes_each=3200):
    """ABI texts: as `plain` with one version a port, and some twenty thousand bytes of files each."""
    yield from plain(size, seed, rows=1)
    lines = random.Random(seed)
    for number in range(size):
        for file in range(files):
            text = "".join(f"line {lines.getrandbits(96):024x}\n" for _ in range(bytes_each // 30))
            yield f"reg/ports/port-{number:05}/1.1.0/patches/{file:02}.diff", text


def shared(size, seed):
    """Registries in one folder: each port has an entry of its own in the configuration."""
    configuration = "vcpkg-configuration.json"
    ports = [f"port-{number:05}" for number in range(size)]
    entries = [{"kind": "filesystem", "path": "reg", "packages": [port]} for port in ports]
    for path, text in plain(size, seed, rows=1):
        if path != configuration:
            yield path, text
    yield configuration, pretty({"default-registry": None, "registries": entries})


def load(size, _seed):
    """Closing and nothing else: 8 * size + 2 facts, half of them from superseded versions."""
    ports = [f"p{number:04}" for number in range(size)]
    root = {"dependencies": [{"name": ports[0], "version>=": "1.1"}]}
    yield from project(root, "reg", show=compact)
    baseline = {port: {"baseline": "1.0"} for port in ports}
    yield "reg/versions/baseline.json", compact({"default": baseline})
    for number, port in enumerate(ports):
        following = ports[number + 1:number + 2]
        further = ports[2 * number + 1:2 * number + 2] if number else []
        asked = {"1.0": following + further,
                 "1.1": [{"name": name, "version>=": "1.1"} for name in following]}
        rows = [{"version": version, "path": f"$/ports/{port}/{version}"} for version in asked]
        yield table_path(port), compact({"versions": rows})
        for version, dependencies in asked.items():
            manifest = {"name": port, "version": version, "dependencies": dependencies}
            yield f"reg/ports/{port}/{version}/vcpkg.json", compact(manifest)


def conflict(size, seed):
    """Each port's two versions are texts without an order; the root asks for the other one."""
    choose = random.Random(seed)
    ports = [f"port-{number:05}" for number in range(size)]
    asked = []
    baseline = {}
    tables = []
    for port in ports:
        first, second = choose.sample(["amber", "basalt", "cobalt", "dolomite"], 2)
        baseline[port] = {"baseline": first}
        asked.append({"name": port, "version>=": second})
        tables.append((port, [first, second]))
    yield from project({"dependencies": asked}, "reg")
    yield "reg/versions/baseline.json", pretty({"default": baseline})
    for port, versions in tables:
        yield from string_port(port, versions)


def string_port(port, versions):
    rows = [{"version-string": version, "path": f"$/ports/{port}/{version}"}
            for version in versions]
    yield table_path(port), pretty({"versions": rows})
    for version in versions:
        manifest = {"name": port, "version-string": version}
        yield f"reg/ports/{port}/{version}/vcpkg.json", pretty(manifest)


def cycle(size, seed):
    """A ring of ports in an order that the seed gives; the root asks for one of them."""
    ports = [f"port-{number:05}" for number in range(size)]
    baseline = {port: {"baseline": "1.0"} for port in ports}
    ring = list(ports)
    random.Random(seed).shuffle(ring)
    yield from project({"dependencies": ring[:1]}, "reg")
    yield "reg/versions/baseline.json", pretty({"default": baseline})
    for place, port in enumerate(ring):
        after = ring[(place + 1) % size]
        rows = [{"version": "1.0", "path": f"$/ports/{port}/1.0"}]
        manifest = {"name": port, "version": "1.0", "dependencies": [after]}
        yield table_path(port), pretty({"versions": rows})
        yield f"reg/ports/{port}/1.0/vcpkg.json", pretty(manifest)
