#!/usr/bin/env python3
"""Prints the rows of crates/vk_making_rows with their answers, as a second opinion.

The answers come from a making of its own over files in a dictionary, written from the definitions
(vk_make/specs/Makes, vk_look/specs/Looks, vk_gather/specs/Gathers, vk_publish/specs/Publish and
Aside, vk_walk/specs/WalkProtocol, vk_spec/specs/Calls), with hashlib for digests. Nothing of the
program is read or run.

    compare/second_making.py > crates/vk_making_rows/stdin
"""
import hashlib

MOST_LIST = 67108864


def token(data):
    if isinstance(data, str):
        data = data.encode()
    return "".join(chr(b) if 32 < b < 127 and b != 37 else "%%%02X" % b for b in data)


def sha(data):
    return hashlib.sha256(data).digest()


def parts(path):
    return tuple(path.split("/"))


def text(path):
    return "/".join(path)


# ---- files

class Tree:
    """Files by their paths, each a tuple of parts; `fails` says that calls fail."""

    def __init__(self, files):
        self.files = dict(files)
        self.fails = False
        self.calls = []

    def below(self, path):
        n = len(path)
        return [p for p in self.files if p[:n] == path]

    def stands(self, path):
        return bool(self.below(path))

    def listing(self, path):
        """Names and whether each is a folder, by name; nothing where it is no folder."""
        n, names = len(path), {}
        for p in self.files:
            if p[:n] == path and len(p) > n:
                names[p[n]] = len(p) > n + 1
        return sorted(names.items())

    def call(self, call):
        """What a call replies; None where it fails."""
        what, path = call[0], call[1]
        self.calls.append(call)
        if self.fails:
            if what == "write":
                self.files[path] = call[2][: len(call[2]) // 2]
            return None
        if what == "kind":
            if path in self.files:
                return ("ok", "file")
            return ("ok", "folder" if self.stands(path) else "absent")
        if what == "read":
            if path not in self.files:
                return ("no", "missing")
            data = self.files[path]
            return ("no", "too large") if len(data) > call[2] else ("ok", data)
        if what == "list":
            entries = self.listing(path)
            if not entries:
                return ("no", "missing")
            return ("no", "many") if len(entries) > 100000 else ("ok", entries)
        if what == "write":
            self.files[path] = call[2]
            return ("ok", None)
        if what == "rename":
            to = call[2]
            if not self.stands(path):
                return ("no", "missing")
            if self.stands(to):
                return ("no", "exists")
            for p in self.below(path):
                self.files[to + p[len(path):]] = self.files.pop(p)
            return ("ok", None)
        raise ValueError(what)


# ---- what an entry holds

def contents_text(package):
    lines = ["contents 1"]
    lines += ["file %s %d %s" % (token(p), len(b), sha(b).hex()) for p, b in package]
    return ("\n".join(lines + ["end"]) + "\n").encode()


def read_contents(data):
    """The lines of a list, or None; only lists as these rows have them, or broken ones."""
    try:
        lines = data.decode().split("\n")
        if lines[0] != "contents 1" or lines[-2:] != ["end", ""]:
            return None
        found = []
        for line in lines[1:-2]:
            word, path, size, digest = line.split(" ")
            if word != "file" or len(digest) != 64:
                return None
            found.append((path, int(size), bytes.fromhex(digest)))
        if any(a[0] >= b[0] for a, b in zip(found, found[1:])):
            return None
        return found
    except (ValueError, UnicodeDecodeError, IndexError):
        return None


def entry_files(abi, package):
    files = [(("files",) + parts(p), b) for p, b in package]
    return files + [(("contents.txt",), contents_text(package)), (("abi.txt",), abi)]


# ---- the calls, as generators: each yields a call and is sent its reply

def walk(path, left, found):
    """Files below a folder, or the word of a limit."""
    if left == 0:
        return "depth"
    reply = yield ("list", path)
    if reply == ("no", "many"):
        return "entries"
    for name, folder in reply[1] if reply[0] == "ok" else []:
        if folder:
            over = yield from walk(path + (name,), left - 1, found)
            if over:
                return over
        else:
            found.append(path + (name,))
    return None


def look(cache, digest, abi, room):
    entry = cache + ("abi2", digest.hex())
    kind = (yield ("kind", entry))[1]
    if kind == "absent":
        return ("absent",)
    if kind == "file":
        return ("damaged", "text")
    reply = yield ("read", entry + ("abi.txt",), max(MOST_LIST, len(abi)))
    if reply[0] == "no" or sha(reply[1]) != digest:
        return ("damaged", "text")
    kept = reply[1]
    reply = yield ("read", entry + ("contents.txt",), MOST_LIST)
    listed = None if reply[0] == "no" else read_contents(reply[1])
    if listed is None:
        return ("damaged", "contents")
    found = []
    if (yield from walk(entry, 65, found)):
        return ("damaged", "extra")
    places = [entry + ("abi.txt",), entry + ("contents.txt",)]
    places += [entry + ("files",) + parts(p) for p, _, _ in listed]
    if set(found) - set(places):
        return ("damaged", "extra")
    if set(places) - set(found):
        return ("damaged", "missing")
    package = []
    for path, size, digest_of in listed:
        reply = yield ("read", entry + ("files",) + parts(path), size)
        if reply[0] == "no":
            return ("damaged", "size" if reply[1] == "too large" else "missing")
        if len(reply[1]) != size:
            return ("damaged", "size")
        if sha(reply[1]) != digest_of:
            return ("damaged", "hash")
        package.append((path, reply[1]))
    if kept != abi:
        return ("collision", kept)
    if sum(size for _, size, _ in listed) > room:
        return ("over",)
    return ("hit", package)


def free_name(agent, reply, full):
    """The least free name, or the word of a limit behind None."""
    if reply[0] == "no" and reply[1] != "missing":
        return None, "entries"
    taken = {name for name, _ in reply[1]} if reply[0] == "ok" else set()
    for n in range(10000):
        name = "%s-%04d" % (agent, n)
        if name not in taken:
            return name, None
    return None, full


def aside(cache, agent, digest):
    reply = yield ("list", cache + ("damaged",))
    name, over = free_name(agent, reply, "damaged")
    if over:
        return over
    yield ("rename", cache + ("abi2", digest.hex()), cache + ("damaged", name))
    return None


def gather(folder, most):
    found = []
    over = yield from walk(folder, 65, found)
    if over:
        return over, None
    room, files = most, []
    for path in sorted(found, key=lambda p: text(p[len(folder):])):
        reply = yield ("read", path, room)
        if reply == ("no", "too large"):
            return "bytes %d" % most, None
        if reply[0] == "ok":
            files.append((text(path[len(folder):]), reply[1]))
            room -= len(reply[1])
    return None, files


def publish(cache, agent, digest, abi, package):
    reply = yield ("list", cache + ("tmp",))
    name, over = free_name(agent, reply, "tmp")
    if over:
        return over
    for path, data in entry_files(abi, package):
        yield ("write", cache + ("tmp", name) + path, data)
    yield ("rename", cache + ("tmp", name), cache + ("abi2", digest.hex()))
    return None


def make(cache, agent, most, tasks):
    """Yields calls, and ("wait", place, files of the folder, packages so far), to which a package is
    sent, or None. Ends in ("made", [(mark, package)]) or ("ended", why)."""
    made, seen, room = [], set(), most
    for place, task in enumerate(tasks):
        if task["digest"] in seen:
            return ("ended", "collision %d" % place)
        seen.add(task["digest"])
        digest, abi = task["digest"], task["text"]
        found = yield from look(cache, digest, abi, room)
        if found[0] == "hit":
            mark, package = "restored", found[1]
        elif found[0] == "collision":
            return ("ended", "collision %d" % place)
        elif found[0] == "over":
            return ("ended", "limit bytes %d" % most)
        else:
            mark = "built"
            if found[0] == "damaged":
                mark = "rebuilt " + found[1]
                over = yield from aside(cache, agent, digest)
                if over:
                    return ("ended", "limit " + over)
            over, files = yield from gather(parts(task["folder"]), most)
            if over:
                return ("ended", "limit " + over)
            package = yield ("wait", place, files, [p for _, p in made])
            if package is None:
                return ("ended", "refused")
            if sum(len(b) for _, b in package) > room:
                return ("ended", "limit bytes %d" % most)
            over = yield from publish(cache, agent, digest, abi, package)
            if over:
                return ("ended", "limit " + over)
        made.append((mark, package))
        room -= sum(len(b) for _, b in package)
    return ("made", made)


# ---- installers and their turns

CACHE = ("cache",)


def supplied(words, files, packages):
    if words == ["refused"]:
        return None
    package = {}
    for word in words:
        if "=" in word:
            path, data = word.split("=", 1)
            package[path] = untoken(data)
        elif "<" in word:
            path, name = word.split("<", 1)
            package[path] = dict(files)[name]
        else:
            path, name = word.split("@", 1)
            place, name = name.split(":", 1)
            package[path] = dict(packages[int(place)])[name]
    return sorted(package.items())


def untoken(word):
    out, i = bytearray(), 0
    while i < len(word):
        if word[i] == "%":
            out.append(int(word[i + 1:i + 3], 16))
            i += 3
        else:
            out.append(ord(word[i]))
            i += 1
    return bytes(out)


class Installer:
    def __init__(self, name, most, items):
        self.name, self.items = name, items
        self.machine = make(CACHE, name, most, items)
        self.end, self.next, self.wait = None, None, None
        self.go(None)

    def go(self, reply):
        try:
            asked = self.machine.send(reply)
        except StopIteration as stop:
            self.end, self.next, self.wait = stop.value, None, None
            return
        self.next, self.wait = (None, asked) if asked[0] == "wait" else (asked, None)

    def is_live(self):
        return self.next is not None

    def step(self, tree):
        if self.next is None:
            return
        reply = tree.call(self.next)
        if reply is None:
            self.end, self.next = ("ended", "failed"), None
        else:
            self.go(reply)

    def supply(self):
        if self.wait:
            _, place, files, packages = self.wait
            self.go(supplied(self.items[place]["words"], files, packages))

    def turn(self, tree):
        self.step(tree)
        self.supply()

    def stage(self):
        if self.next:
            return "calls"
        if self.wait:
            return "builds %d" % self.wait[1]
        return "done" if self.end[0] == "made" else "ended"

    def results(self):
        if self.end is None:
            return "not ended"
        if self.end[0] == "ended":
            return self.end[1]
        if not self.end[1]:
            return "nothing"
        return " and ".join(mark + files_text(package) for mark, package in self.end[1])


def files_text(package):
    return "".join(" %s=%s" % (token(p), token(b)) for p, b in package)


# ---- a case

class Case:
    def __init__(self, title):
        self.rows = ["case " + title]
        self.files, self.items, self.agents = {}, {}, []
        self.tree = None

    # what it begins with

    def file(self, path, data):
        self.files[parts(path)] = data
        self.rows.append("file %s %s" % (token(path), token(data)))

    def fill(self, front, count):
        for n in range(count):
            self.files[parts("%s-%04d" % (front, n))] = b""
        self.rows.append("fill %s %d" % (front, count))

    def item(self, name, abi, folder, *words, key=None):
        self.items[name] = {
            "name": name, "text": abi.encode(), "folder": folder, "words": list(words),
            "digest": sha((key or abi).encode()),
        }
        told = token(abi) if key is None else token(key) + ":" + token(abi)
        self.rows.append(" ".join(["item", name, told, folder] + list(words)))

    def agent(self, name, most, *items):
        self.agents.append((name, most, items))
        self.rows.append(" ".join(["agent", name, str(most)] + list(items)))

    def entry(self, name, change=None):
        """Puts the entry of an item, as `change` changes its files by their paths in it."""
        item = self.items[name]
        package = supplied(item["words"], [], [])
        files = {text(p): b for p, b in entry_files(item.get("kept", item["text"]), package)}
        if change:
            files = change(files)
        at = "cache/abi2/" + item["digest"].hex()
        for path, data in sorted(files.items()):
            self.file(at + "/" + path if path else at, data)

    # turns

    def begin(self):
        tree = Tree(self.files)
        whos = [Installer(n, m, [self.items[i] for i in items]) for n, m, items in self.agents]
        return tree, whos

    def started(self):
        if self.tree is None:
            self.tree, self.whos = self.begin()
        return {w.name: w for w in self.whos}

    def say(self, question, answer):
        if "\n" in answer:
            self.rows.append(question)
            self.rows += ["    " + line for line in answer.split("\n")]
        else:
            self.rows.append("%s => %s" % (question, answer))

    def turn(self, name, count=1):
        who = self.started()[name]
        for _ in range(count):
            who.turn(self.tree)
        self.say("turn %s" % name + ("" if count == 1 else " %d" % count), who.stage())

    def fail(self, name):
        who = self.started()[name]
        self.tree.fails = True
        who.turn(self.tree)
        self.tree.fails = False
        self.say("fail " + name, who.stage())

    def finish(self, name):
        who, turns = self.started()[name], 0
        while who.is_live():
            who.turn(self.tree)
            turns += 1
        self.say("finish " + name, "%s after %d" % (who.stage(), turns))

    def step(self, name):
        who = self.started()[name]
        who.step(self.tree)
        self.say("step " + name, who.stage())

    def folder(self, name):
        self.say("folder " + name, "folder" + files_text(self.started()[name].wait[2]))

    def package(self, name, place):
        who = self.started()[name]
        self.say("package %s %d" % (name, place), "package" + files_text(who.wait[3][place]))

    def supply(self, name):
        who = self.started()[name]
        who.supply()
        self.say("supply " + name, who.stage())

    def refuse(self, name):
        who = self.started()[name]
        who.go(None)
        self.say("refuse " + name, who.stage())

    def play(self, order):
        self.started()
        for k in order:
            self.whos[k].turn(self.tree)
        stages = " ".join(w.stage() for w in self.whos)
        self.say("play " + " ".join(map(str, order)), stages)

    def results(self, name):
        self.say("results " + name, self.started()[name].results())

    def no_row(self, question):
        self.started()
        self.say(question, "no row")

    # what stands there

    def calls(self):
        self.started()
        lines = [call_text(call) for call in self.tree.calls]
        self.tree.calls = []
        if len(lines) == 1:
            self.rows += ["calls", "    " + lines[0]]
        else:
            self.say("calls", "\n".join(lines) or "none")

    def all_files(self, folder):
        self.started()
        found = sorted(self.tree.below(parts(folder)))
        told = "\n".join("%s=%s" % (token(text(p)), token(self.tree.files[p])) for p in found)
        self.say("files " + folder, told or "none")

    def names(self, folder):
        self.started()
        self.say("names " + folder, "names" + names_text(self.tree, parts(folder)))

    def count(self, folder):
        self.started()
        self.say("count " + folder, str(len(self.tree.listing(parts(folder)))))

    def look(self, name):
        self.started()
        self.say("entry " + name, entry_text(self.tree, self.items[name]))

    # orders

    def play_out(self, pick, failing):
        tree, whos = self.begin()
        made = 0
        while True:
            live = [w for w in whos if w.is_live()]
            if not live:
                return self.outcome(tree, whos)
            who = live[pick(len(live))]
            if failing and who.name == failing[0]:
                made += 1
                tree.fails = made == failing[1]
            who.turn(tree)
            tree.fails = False

    def outcome(self, tree, whos):
        told = ["%s %s" % (w.name, w.results()) for w in whos]
        told += ["%s %s" % (i["name"], entry_text(tree, i)) for i in self.items.values()]
        told += ["tmp" + names_text(tree, CACHE + ("tmp",))]
        told += ["damaged" + names_text(tree, CACHE + ("damaged",))]
        return ", ".join(told)

    def tally(self, question, outcomes):
        counts, total = {}, 0
        for outcome in outcomes:
            counts[outcome] = counts.get(outcome, 0) + 1
            total += 1
        lines = ["%d: %s" % (count, outcome) for outcome, count in counts.items()]
        self.say(question, "\n".join(["%d orders" % total] + lines))

    def orders(self, failing=None):
        def outcomes():
            steps = []
            while True:
                at = [0]

                def pick(of):
                    if at[0] == len(steps):
                        steps.append([0, of])
                    at[0] += 1
                    return steps[at[0] - 1][0]

                yield self.play_out(pick, failing)
                while steps and steps[-1][0] + 1 == steps[-1][1]:
                    steps.pop()
                if not steps:
                    return
                steps[-1][0] += 1

        self.tally("orders" + failing_text(failing), outcomes())

    def random(self, seed, count, failing=None):
        state = [seed]

        def pick(of):
            state[0] = (state[0] * 6364136223846793005 + 1442695040888963407) % 2 ** 64
            return (state[0] >> 33) % of

        question = "random %d %d" % (seed, count) + failing_text(failing)
        self.tally(question, (self.play_out(pick, failing) for _ in range(count)))


def failing_text(failing):
    return " %s %d" % failing if failing else ""


def names_text(tree, folder):
    names = [" " + token(name) for name, _ in tree.listing(folder)]
    return "".join(names) or " none"


def entry_text(tree, item):
    machine = look(CACHE, item["digest"], item["text"], 2 ** 64)
    still = Tree(tree.files)
    try:
        call = next(machine)
        while True:
            call = machine.send(still.call(call))
    except StopIteration as stop:
        found = stop.value
    if found[0] == "hit":
        return "whole" + files_text(found[1])
    if found[0] == "collision":
        return "collision " + token(found[1])
    return " ".join(found)


def call_text(call):
    told = "%s %s" % (call[0], token(text(call[1])))
    return told + " " + token(text(call[2])) if call[0] == "rename" else told


# ---- changes of an entry's files

def without(name):
    return lambda files: {p: b for p, b in files.items() if p != name}


def with_file(name, data):
    return lambda files: {**files, name: data}


# ---- the rows

OUT = []


def group(title):
    OUT.append("group " + title)
    OUT.append("")


def show(case):
    OUT.extend(case.rows)
    OUT.append("")


def header(case, *agents, folder="ports/a"):
    """A port with one file, and an item with one file."""
    case.file("ports/a/recipe", b"r")
    case.item("a", "text-a", "ports/a", "include/a.h=abc")
    for name in agents:
        case.agent(name, 1000, "a")


def one_alone():
    group("One installer")

    c = Case("an item that isn't in the cache is built: eight calls, of which the last moves the entry there")
    header(c, "one")
    c.finish("one")
    c.calls()
    c.all_files("cache")
    c.look("a")
    c.results("one")
    show(c)

    c = Case("call by call: where an item waits its folder is seen, and nothing more is called until it is supplied")
    header(c, "one")
    for _ in range(3):
        c.step("one")
        c.calls()
    c.step("one")
    c.calls()
    c.folder("one")
    c.no_row("package one 0")
    c.supply("one")
    c.no_row("folder one")
    for _ in range(5):
        c.step("one")
        c.calls()
    c.step("one")
    c.calls()
    c.results("one")
    show(c)

    c = Case("an item that is in the cache is restored: its entry is asked for, then read, listed and read")
    header(c, "one")
    c.entry("a")
    c.finish("one")
    c.calls()
    c.results("one")
    c.names("cache/tmp")
    show(c)

    c = Case("a plan of nothing is done before any call")
    c.agent("one", 1000)
    c.step("one")
    c.finish("one")
    c.calls()
    c.results("one")
    show(c)

    c = Case("a package is refused: nothing is written")
    c.file("ports/a/recipe", b"r")
    c.item("a", "text-a", "ports/a", "refused")
    c.agent("one", 1000, "a")
    c.finish("one")
    c.calls()
    c.all_files("cache")
    c.results("one")
    show(c)

    c = Case("it is refused by hand where it waits")
    header(c, "one")
    for _ in range(3):
        c.step("one")
    c.refuse("one")
    c.step("one")
    c.results("one")
    show(c)

    c = Case("the folders of a port are walked by their names, and its files read by the texts of their paths")
    for name in ("b/x", "b.c", "a/z", "a/b/y"):
        c.file("ports/a/" + name, name.encode())
    c.item("a", "text-a", "ports/a", "x<b/x", "y<a/b/y", "both/k=k")
    c.agent("one", 1000, "a")
    c.step("one")
    for _ in range(20):
        c.step("one")
        if c.whos[0].wait:
            break
    c.calls()
    c.folder("one")
    c.supply("one")
    c.finish("one")
    c.calls()
    c.results("one")
    show(c)

    c = Case("a port without files, and a package without files, which is whole")
    c.item("a", "text-a", "ports/a")
    c.agent("one", 1000, "a")
    c.finish("one")
    c.calls()
    c.all_files("cache")
    c.look("a")
    c.results("one")
    show(c)

    c = Case("two items, the second of which has a file of the first one's package")
    c.file("ports/a/recipe", b"r")
    c.file("ports/b/recipe", b"s")
    c.item("a", "text-a", "ports/a", "include/a.h=abc", "lib/a=%00%FF")
    c.item("b", "text-b", "ports/b", "include/b.h@0:include/a.h", "own<recipe")
    c.agent("one", 1000, "a", "b")
    c.turn("one", 8)
    for _ in range(4):
        c.step("one")
    c.package("one", 0)
    c.no_row("package one 1")
    c.folder("one")
    c.supply("one")
    c.finish("one")
    c.look("a")
    c.look("b")
    c.results("one")
    show(c)

    c = Case("two items, of which the first is in the cache and is seen by the second")
    c.file("ports/b/recipe", b"s")
    c.item("a", "text-a", "ports/a", "include/a.h=abc")
    c.item("b", "text-b", "ports/b", "include/b.h@0:include/a.h")
    c.agent("one", 1000, "a", "b")
    c.entry("a")
    c.finish("one")
    c.results("one")
    show(c)

    c = Case("two items of one text: a collision at the second one, before any call for it")
    header(c)
    c.agent("one", 1000, "a", "a")
    c.finish("one")
    c.calls()
    c.results("one")
    show(c)


def harms():
    group("A damaged entry is set aside as it is, and another one is built")

    listed = contents_text([("include/a.h", b"abc")])
    changes = [
        ("a file stands at the entry's path", lambda files: {"": b"x"}),
        ("its text isn't there", without("abi.txt")),
        ("its text is another one", with_file("abi.txt", b"text-b")),
        ("its list isn't there", without("contents.txt")),
        ("its list has no end", with_file("contents.txt", listed[:-4])),
        ("a file is there that isn't listed", with_file("files/x", b"x")),
        ("a listed file isn't there", without("files/include/a.h")),
        ("a listed file is shorter", with_file("files/include/a.h", b"ab")),
        ("a listed file is longer", with_file("files/include/a.h", b"abcd")),
        ("a listed file has another byte", with_file("files/include/a.h", b"abd")),
    ]
    for title, change in changes:
        c = Case(title)
        header(c, "one")
        c.entry("a", change)
        c.look("a")
        c.finish("one")
        c.calls()
        c.all_files("cache/damaged")
        c.look("a")
        c.names("cache/tmp")
        c.results("one")
        show(c)

    c = Case("what was set aside before stays, and the least free name is taken")
    header(c, "one")
    c.file("cache/damaged/one-0000/f", b"0")
    c.file("cache/damaged/one-0002", b"2")
    c.file("cache/damaged/two-0001/f", b"1")
    c.file("cache/tmp/one-0000/f", b"0")
    c.entry("a", without("abi.txt"))
    c.finish("one")
    c.names("cache/damaged")
    c.names("cache/tmp")
    c.look("a")
    c.results("one")
    show(c)

    c = Case("a valid entry of another text: a collision, and nothing is changed")
    c.file("ports/a/recipe", b"r")
    c.item("a", "text-a", "ports/a", "include/a.h=abc", key="text-b")
    c.items["a"]["kept"] = b"text-b"
    c.entry("a")
    c.agent("one", 1000, "a")
    c.look("a")
    c.finish("one")
    c.calls()
    c.look("a")
    c.names("cache/damaged")
    c.results("one")
    show(c)

    c = Case("the same where it is the second item")
    header(c)
    c.file("ports/b/recipe", b"s")
    c.item("b", "text-b", "ports/b", "b=b", key="text-c")
    c.items["b"]["kept"] = b"text-c"
    c.entry("b")
    c.agent("one", 1000, "a", "b")
    c.finish("one")
    c.results("one")
    show(c)


def limits():
    group("Limits")

    c = Case("a package has exactly as many bytes as it may have, the port's file too")
    c.file("ports/a/recipe", b"rrr")
    c.item("a", "text-a", "ports/a", "include/a.h=abc")
    c.agent("one", 3, "a")
    c.finish("one")
    c.results("one")
    show(c)

    c = Case("a package has a byte more: nothing is written")
    c.file("ports/a/recipe", b"r")
    c.item("a", "text-a", "ports/a", "include/a.h=abc")
    c.agent("one", 2, "a")
    c.finish("one")
    c.calls()
    c.all_files("cache")
    c.results("one")
    show(c)

    c = Case("an entry's package has a byte more: it stays in the cache")
    header(c)
    c.entry("a")
    c.agent("one", 2, "a")
    c.finish("one")
    c.look("a")
    c.results("one")
    show(c)

    c = Case("the files of a port's folder have a byte more together: nothing is supplied")
    c.file("ports/a/one", b"rr")
    c.file("ports/a/two", b"ss")
    c.item("a", "text-a", "ports/a")
    c.agent("one", 3, "a")
    c.finish("one")
    c.calls()
    c.results("one")
    show(c)

    for most in (5, 6):
        c = Case("two packages of three bytes each, where both may have %d together" % most)
        header(c)
        c.file("ports/b/recipe", b"s")
        c.item("b", "text-b", "ports/b", "b=def")
        c.agent("one", most, "a", "b")
        c.finish("one")
        c.look("a")
        c.look("b")
        c.results("one")
        show(c)

    c = Case("the same where both are in the cache")
    header(c)
    c.item("b", "text-b", "ports/b", "b=def")
    c.entry("a")
    c.entry("b")
    c.agent("one", 5, "a", "b")
    c.agent("two", 6, "b", "a")
    c.finish("one")
    c.finish("two")
    c.results("one")
    c.results("two")
    show(c)

    c = Case("folders 65 levels deep in a port's folder")
    c.file("ports/a/" + "d/" * 65 + "f", b"f")
    c.item("a", "text-a", "ports/a")
    c.agent("one", 1000, "a")
    c.finish("one")
    c.results("one")
    show(c)

    c = Case("64 of them")
    c.file("ports/a/" + "d/" * 64 + "f", b"f")
    c.item("a", "text-a", "ports/a")
    c.agent("one", 1000, "a")
    c.finish("one")
    c.results("one")
    show(c)

    c = Case("all names of the agent stand where packages are made: it ends there, and another agent doesn't")
    header(c, "one", "two")
    c.fill("cache/tmp/one", 10000)
    c.finish("one")
    c.calls()
    c.count("cache/tmp")
    c.look("a")
    c.finish("two")
    c.count("cache/tmp")
    c.look("a")
    c.results("one")
    c.results("two")
    show(c)

    c = Case("one name is left")
    header(c, "one")
    c.fill("cache/tmp/one", 9999)
    c.turn("one", 5)
    c.all_files("cache/tmp/one-9999")
    c.finish("one")
    c.results("one")
    show(c)

    c = Case("all names of the agent stand where damaged packages are: the entry stays")
    header(c, "one", "two")
    c.entry("a", without("files/include/a.h"))
    c.fill("cache/damaged/one", 10000)
    c.finish("one")
    c.look("a")
    c.finish("two")
    c.count("cache/damaged")
    c.look("a")
    c.results("one")
    c.results("two")
    show(c)


def several():
    group("Two installers on one cache")

    c = Case("one is about to move its entry there as two goes to its end: both have built the one package, and what the one made stays where it is")
    header(c, "one", "two")
    c.turn("one", 7)
    c.finish("two")
    c.turn("one")
    c.calls()
    c.all_files("cache")
    c.look("a")
    c.results("one")
    c.results("two")
    show(c)

    c = Case("two comes after one: it restores what the other one built")
    header(c, "one", "two")
    c.finish("one")
    c.finish("two")
    c.names("cache/tmp")
    c.look("a")
    c.results("one")
    c.results("two")
    show(c)

    c = Case("the third call of one fails, and two goes to its end")
    header(c, "one", "two")
    c.turn("one", 2)
    c.fail("one")
    c.turn("one")
    c.finish("two")
    c.names("cache/tmp")
    c.look("a")
    c.results("one")
    c.results("two")
    show(c)

    c = Case("they take turns")
    header(c, "one", "two")
    for _ in range(8):
        c.turn("one")
        c.turn("two")
    c.all_files("cache")
    c.results("one")
    c.results("two")
    show(c)

    c = Case("two begins where the entry of one has just come: it is read")
    header(c, "one", "two")
    c.turn("one", 7)
    c.turn("one")
    c.turn("two")
    c.finish("two")
    c.calls()
    c.results("two")
    show(c)

    c = Case("every order of their calls")
    header(c, "one", "two")
    c.orders()
    show(c)

    c = Case("every order where two finds the item in the cache, and one has to build it first")
    header(c)
    c.item("b", "text-b", "ports/b", "b=def")
    c.entry("b")
    c.agent("one", 1000, "a")
    c.agent("two", 1000, "b")
    c.orders()
    show(c)

    c = Case("plans of two items in two orders: a thousand orders of their calls")
    header(c)
    c.item("b", "text-b", "ports/b", "b=def")
    c.agent("one", 1000, "a", "b")
    c.agent("two", 1000, "b", "a")
    c.random(1, 1000)
    show(c)

    c = Case("three installers: a thousand orders")
    header(c, "one", "two", "three")
    c.random(2, 1000)
    show(c)

    c = Case("a damaged entry: a thousand orders")
    header(c, "one", "two")
    c.entry("a", without("files/include/a.h"))
    c.random(3, 1000)
    show(c)


def failing():
    group("An installer fails at one of its calls, and another one goes to its end")

    halves = range(1, 9)
    for k in halves:
        c = Case("one fails at its call %d" % k)
        header(c, "one", "two")
        if k > 1:
            c.turn("one", k - 1)
        c.fail("one")
        c.calls()
        c.all_files("cache/tmp")
        c.finish("two")
        c.names("cache/tmp")
        c.look("a")
        c.results("one")
        c.results("two")
        show(c)

    for k in halves:
        c = Case("every order of their calls, where the call %d of one fails" % k)
        header(c, "one", "two")
        c.orders(("one", k))
        show(c)

    for k in (1, 2, 3, 4, 5, 6, 7, 8, 9):
        c = Case("a damaged entry, and one fails at its call %d" % k)
        header(c, "one", "two")
        c.entry("a", without("contents.txt"))
        if k > 1:
            c.turn("one", k - 1)
        c.fail("one")
        c.calls()
        c.names("cache/damaged")
        c.finish("two")
        c.names("cache/damaged")
        c.look("a")
        c.results("one")
        c.results("two")
        show(c)


def plays():
    group("Turns by a list of numbers")

    c = Case("one, then two, then one")
    header(c, "one", "two")
    c.play([0] * 7 + [1] * 8 + [0])
    c.names("cache/tmp")
    c.results("one")
    c.results("two")
    show(c)

    c = Case("one after the other, and turns of who is done")
    header(c, "one", "two")
    c.play([0] * 8)
    c.play([0, 1, 0, 1, 1, 1, 1, 1, 1])
    c.play([1])
    c.calls()
    c.results("one")
    c.results("two")
    show(c)


one_alone()
harms()
limits()
several()
failing()
plays()
print("\n".join(OUT).rstrip("\n"))
