"""Policies made at random, as texts, and what a maker of calls has to know of them."""

import json
import os
from dataclasses import dataclass, field

NAMES = ["A", "B", "HOME", "LANG", "a", "Ä", "LONG_NAME_OF_A_VARIABLE", "x y", "PATH", "C"]
TEXTS = ["", "1", "/home", "é€😀", "a=b", "some words", "x" * 40, "\t\"quoted\"\\"]
PARTS = ["a", "b", "c", "a-b", "ab", "f", "d", "é", "x y", ".hidden", "..x", "...", "A", "aa", "a.b", "n" * 255]
FOLDERS = ["/", "/srv", "/data", "/tmp", "work", "", "/srv/data", "é"]


def quoted(s):
    return json.dumps(s, ensure_ascii=False)


@dataclass
class Tree:
    """A tree under its name: each path with "folder", the bytes of a file, or the text of a link's target."""

    name: str
    nodes: dict
    mounted: bool = False

    def lines(self, number):
        out = ["[[fs.tree]]", f"name = {quoted(self.name)}"]
        if self.mounted:
            return [*out, f"mount = {quoted(f'mount{number}')}"]
        files = [f"{quoted(path)} = {{ {shown(it)} }}" for path, it in self.nodes.items() if isinstance(it, bytes)]
        links = [f"{quoted(path)} = {quoted(it[1])}" for path, it in self.nodes.items() if isinstance(it, tuple)]
        folders = [quoted(path) for path, it in self.nodes.items() if it == "folder"]
        if files:
            out.append(f"files = {{ {', '.join(files)} }}")
        if folders:
            out.append(f"folders = [{', '.join(folders)}]")
        if links:
            out.append(f"links = {{ {', '.join(links)} }}")
        return out

    def has_links(self):
        return any(isinstance(it, tuple) for it in self.nodes.values())

    def write(self, folder, number):
        """Makes the folder that is mounted."""
        if not self.mounted:
            return
        root = os.path.join(folder, f"mount{number}")
        os.makedirs(root, exist_ok=True)
        for path, it in self.nodes.items():
            at = os.path.join(root, path)
            os.makedirs(at if it == "folder" else os.path.dirname(at), exist_ok=True)
            if it != "folder":
                with open(at, "wb") as file:
                    file.write(it)


def shown(content):
    try:
        text = content.decode()
    except UnicodeDecodeError:
        return f"hex = {quoted(content.hex())}"
    return f"text = {quoted(text)}" if text.isprintable() else f"hex = {quoted(content.hex())}"


@dataclass
class Rule:
    """An address family (4 or 6), a network as a number, the length of its prefix, and ranges of ports."""

    family: int
    network: int
    length: int
    ports: list

    def text(self):
        if self.family == 4:
            address = ".".join(str(it) for it in self.network.to_bytes(4, "big"))
        else:
            made = self.network.to_bytes(16, "big")
            address = ":".join(f"{made[i] * 256 + made[i + 1]:x}" for i in range(0, 16, 2))
        ports = ", ".join(str(a) if a == b else f"{{ from = {a}, to = {b} }}" for a, b in self.ports)
        return f"{{ network = {quoted(f'{address}/{self.length}')}{f', ports = [{ports}]' if self.ports else ''} }}"


@dataclass
class Policy:
    """What a policy says, in the words of its text; a word of None is left out."""

    name: str = "policy"
    deny: str | None = None
    limit: int | None = None
    slots: int | None = None
    env_pass: bool = False
    allow: list = field(default_factory=list)
    set: dict = field(default_factory=dict)
    arguments: object = False
    cwd: object = False
    stdio: dict = field(default_factory=dict)
    wall: object = "deny"
    monotonic: object = "deny"
    random: str = "deny"
    exit: str = "deny"
    sockets: str = "deny"
    connect: list = field(default_factory=list)
    bind: list = field(default_factory=list)
    names: bool = False
    host: str = "deny"
    passes: list = field(default_factory=list)
    trees: list = field(default_factory=list)
    scratch: tuple | None = None

    def text(self):
        out = [f"version = {2 if any(it.has_links() for it in self.trees) else 1}"]
        out += [f"{key} = {value}" for key, value in [("transfer-limit", self.limit), ("slots", self.slots)] if value is not None]
        out += [f"deny = {quoted(self.deny)}"] if self.deny else []
        out += [f"random = {quoted(self.random)}", f"exit = {quoted(self.exit)}", f"sockets = {quoted(self.sockets)}"]
        out += ["[env]", f"pass = {str(self.env_pass).lower()}", f"allow = [{', '.join(map(quoted, self.allow))}]"]
        out.append(f"set = {{ {', '.join(f'{quoted(k)} = {quoted(v)}' for k, v in self.set.items())} }}")
        out += [f"arguments = {word(self.arguments)}", f"cwd = {word(self.cwd)}", "[stdio]"]
        out += [f"{stream} = {quoted(it)}" for stream, it in self.stdio.items()]
        wall = f"{{ seconds = {self.wall[0]}, nanoseconds = {self.wall[1]} }}" if isinstance(self.wall, tuple) else quoted(self.wall)
        out += ["[clocks]", f"wall = {wall}", f"monotonic = {quoted(self.monotonic) if isinstance(self.monotonic, str) else self.monotonic}"]
        if self.sockets == "rules":
            out += ["[net]", f"names = {str(self.names).lower()}"]
            out += [f"{key} = [{', '.join(it.text() for it in rules)}]" for key, rules in [("connect", self.connect), ("bind", self.bind)]]
        out += ["[fs]", f"host = {quoted(self.host)}"]
        if self.passes:
            out.append(f"pass = [{', '.join(f'{{ host = {quoted(a)}, as = {quoted(b)} }}' for a, b in self.passes)}]")
        if self.scratch:
            name, blocks, files = self.scratch
            out += ["[fs.scratch]", f"name = {quoted(name)}", f"blocks = {blocks}", f"files = {files}"]
        for i, tree in enumerate(self.trees):
            out += tree.lines(i)
        return "\n".join(out) + "\n"

    def write(self, folder):
        """Writes the text, and the folders that it mounts, into a folder, where programs are to be run."""
        for i, tree in enumerate(self.trees):
            tree.write(folder, i)
        with open(os.path.join(folder, "policy.toml"), "w", encoding="utf-8") as file:
            file.write(self.text())


def word(value):
    if isinstance(value, bool):
        return str(value).lower()
    return f"[{', '.join(map(quoted, value))}]" if isinstance(value, list) else quoted(value)


# ---- trees at random


def some_bytes(rng):
    length = rng.choice([0, 0, 1, 2, 3, 5, 17, 40, 100, rng.randrange(5000)])
    return rng.randbytes(length) if rng.random() < 0.3 else (b"abcdefgh " * (length // 9 + 1))[:length]


def folders_of(nodes):
    """The folders, those that are made without being named among them."""
    found = {""}
    for path, it in nodes.items():
        parts = path.split("/")
        found |= {"/".join(parts[:i]) for i in range(1, len(parts))}
        if it == "folder":
            found.add(path)
    return found


def add_node(rng, nodes, made, parts):
    """Adds a file, a folder or a link in a folder where its name is free."""
    above = rng.choice(sorted(folders_of(nodes)))
    path = f"{above}/{rng.choice(parts)}" if above else rng.choice(parts)
    if path not in nodes and path not in folders_of(nodes) and path.count("/") < 8:
        nodes[path] = made


def target(rng, nodes):
    """The target of a link: mostly a way to something that is there, by `..` and through other links."""
    there = rng.choice([*sorted(nodes), *sorted(folders_of(nodes))] or ["a"])
    kind = rng.random()
    if kind < 0.45:
        return there or "."
    if kind < 0.6:
        return "../" * rng.randrange(1, 3) + there
    if kind < 0.7:
        return there.split("/")[-1] or "."
    if kind < 0.78:
        return f"./{there}/."
    if kind < 0.84:
        return f"{there}//"
    return rng.choice(["/a", "..", ".", "none", "a/../b", "../..", "a/", "a/b/../../a", f"{there}/.."])


def add_chain(rng, nodes, length):
    """Links in a row: the last of `length` names is a chain of that many."""
    nodes["end"] = b"end of the chain"
    for i in range(length):
        before = f"k{i - 1}" if i else "end"
        nodes[f"k{i}"] = ("link", before if i % 3 else f"./{before}")


def tree(rng, name, count, links, wide=0, chain=0):
    nodes = {}
    for _ in range(count):
        kind = rng.random()
        add_node(rng, nodes, some_bytes(rng) if kind < 0.6 else "folder", PARTS)
    for _ in range(links):
        add_node(rng, nodes, ("link", target(rng, nodes)), PARTS)
    if wide:
        above = rng.choice(["", "w/", "w/w/"])
        nodes.update({f"{above}n{i}": str(i).encode() for i in range(wide)})
    if chain:
        add_chain(rng, nodes, chain)
    return Tree(name, nodes, not links and not chain and rng.random() < 0.3)


def some_trees(rng, rich):
    names = rng.sample(["/t", "/u", "/etc", "tree", "é", ""], rng.randrange(1, 4) if rich else 1)
    links = rng.choice([0, 0, 6, 20]) if rich else rng.choice([0, 2])
    wide = rng.choice([0, 0, 0, 260, 300]) if rich else 0
    chain = rng.choice([0, 0, 42]) if rich else 0
    return [tree(rng, name, rng.randrange(14), links, wide if not i else 0, chain if not i else 0) for i, name in enumerate(names)]


# ---- rules at random


def rule(rng):
    family = rng.choice([4, 4, 6])
    bits = 32 if family == 4 else 128
    ports = []
    for _ in range(rng.choice([0, 1, 1, 2, 3])):
        a = rng.choice([0, 1, 80, 443, 8000, 65535, rng.randrange(65536)])
        ports.append((a, min(65535, a + rng.choice([0, 0, 1, 80]))))
    length = rng.choice([0, bits, bits // 2, bits - 1, 1, rng.randrange(bits + 1), 63 % bits, 64 % bits, 65 % bits])
    return Rule(family, rng.getrandbits(bits), length, ports)


def rules(rng):
    return [rule(rng) for _ in range(rng.choice([0, 1, 2, 3, 8]))]


# ---- policies


def allowed(rng):
    streams = {stream: "allow" for stream in ["stdin", "stdout", "stderr"]}
    return Policy("allowed", env_pass=True, arguments=True, cwd=True, stdio=streams, wall="allow", monotonic="allow", random="allow", exit="allow", sockets="allow", host="all")


def denied(rng):
    return Policy("denied", deny=rng.choice([None, "trap", "error"]))


def virtual(rng):
    made = Policy("virtual")
    made.set = {name: rng.choice(TEXTS) for name in rng.sample(NAMES, rng.randrange(4))}
    made.arguments = rng.choice([False, [], ["one"], ["build", "", "--é"], ["x" * 9] * 20])
    made.cwd = rng.choice([False, "", "/", "/home/é"])
    made.stdio = {stream: "ignore" for stream in ["stdin", "stdout", "stderr"]}
    made.wall, made.monotonic = some_time(rng), rng.choice([0, 1, (1 << 63) - 1, rng.getrandbits(40)])
    made.trees = some_trees(rng, True)
    made.scratch = some_scratch(rng)
    return made


def some_time(rng):
    return rng.choice([(0, 0), (1700000000, 5), ((1 << 63) - 1, 999999999), (rng.getrandbits(50), rng.randrange(1000000000))])


def some_scratch(rng):
    return (rng.choice(["/tmp", "scratch", "ü"]), rng.choice([1, 1, 2, 3, 5, 20, 64]), rng.choice([1, 1, 2, 3, 8, 256]))


def ruled(rng):
    made = mixed(rng)
    made.name, made.sockets, made.connect, made.bind, made.names = "rules", "rules", rules(rng), rules(rng), rng.random() < 0.6
    return made


def scratch(rng):
    made = mixed(rng)
    made.name, made.scratch = "scratch", some_scratch(rng)
    return made


def mixed(rng):
    """Each key by itself."""
    made = Policy("mix", deny=rng.choice([None, "trap", "error", "error"]))
    made.slots = rng.choice([None, None, 1, 2, 3, 5, 16, 4096])
    made.env_pass = rng.random() < 0.3
    made.allow = rng.sample(NAMES, rng.choice([0, 0, 1, 3, 8]))
    made.set = {name: rng.choice(TEXTS) for name in rng.sample(NAMES, rng.choice([0, 1, 2, 5]))}
    made.arguments = rng.choice([False, True, True, [], ["one", "two"]])
    made.cwd = rng.choice([False, True, True, "/w"])
    words = ["allow", "allow", "ignore", "ignore", "deny"]
    made.stdio = {stream: rng.choice(words) for stream in ["stdin", "stdout", "stderr"]}
    made.wall = rng.choice(["allow", "deny", some_time(rng)])
    made.monotonic = rng.choice(["allow", "allow", "deny", rng.getrandbits(30)])
    made.random, made.exit = rng.choice(["allow", "allow", "deny"]), rng.choice(["allow", "deny"])
    made.sockets = rng.choice(["allow", "allow", "deny", "rules"])
    if made.sockets == "rules":
        made.connect, made.bind, made.names = rules(rng), rules(rng), rng.random() < 0.6
    made.host = rng.choice(["all", "deny", "deny"])
    if made.host == "deny" and rng.random() < 0.5:
        made.passes = [(rng.choice(FOLDERS), f"as{i}") for i in range(rng.randrange(1, 5))]
    made.trees = some_trees(rng, rng.random() < 0.4) if rng.random() < 0.6 else []
    made.scratch = some_scratch(rng) if rng.random() < 0.5 else None
    return made


def full(rng):
    """Few places for handles."""
    made = mixed(rng)
    made.name, made.slots = "full", rng.choice([1, 1, 2, 3])
    return made


def limited(rng):
    """A small limit on strings and lists, over a host that is asked for much."""
    made = mixed(rng) if rng.random() < 0.4 else allowed(rng)
    made.name, made.limit = "limited", 65536 + rng.choice([0, 0, 1, 7, 8, 9, 500])
    made.env_pass, made.random, made.arguments = True, "allow", True
    made.set = {} if rng.random() < 0.5 else made.set
    if rng.random() < 0.5:
        made.host, made.passes = "all", []
    made.stdio = {stream: "allow" for stream in ["stdin", "stdout", "stderr"]}
    return made


PROFILES = {it.__name__: it for it in [denied, mixed, allowed, virtual, ruled, scratch, full, limited]}
