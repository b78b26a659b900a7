#!/usr/bin/env python3
"""The lines that `wasi-inspect` is to put, worked out without it: the names of interfaces, types and functions come from the tables of
crates/wasi_listed, what a component imports from its bytes, and what a policy leaves of it from the rules of docs/POLICY.md.

usage: tools/inspect_lines.py COMPONENT [POLICY]      prints the lines
       tools/inspect_lines.py --check [INSPECT VIRT]  compares the built programs with them, over the components and policies of
                                                      crates/engine_rows/data and of examples/. What `virt` writes has to import exactly what
                                                      the `output` lines say, and where it refuses, both have to refuse alike.

Needs Python 3.11, for its reader of TOML. Without words after --check the programs are crates/wasi_inspect_cli/out/wasi_inspect_cli, which
./wasi-inspect builds, and crates/virt_cli/out/virt_cli. Ends with 1 if something comes out otherwise.
"""

import glob
import os
import re
import subprocess
import sys
import tempfile
import tomllib
from dataclasses import dataclass

TOP = os.path.dirname(os.path.dirname(os.path.abspath(__file__)))


# ---- the tables

# words of types that name none
WORDS = re.compile(r"_|bool|[su](8|16|32|64)|string|own|borrow|list|option|result|tuple\d|->")


def names_in(words):
    return [word for word in words if not WORDS.fullmatch(word)]


@dataclass
class Function:
    name: str
    names: list
    borrows: list


class Interface:
    def __init__(self, text, definers):
        self.name, *items = text.split(";")
        self.uses, self.types, self.functions = [], {}, []
        for item in items:
            self.read(item.split(","), definers)

    def read(self, lines, definers):
        (kind, name, *rest), more = lines[0].split(), [line.split() for line in lines[1:]]
        if kind == "function":
            self.add(name, rest)
        elif kind == "use":
            self.uses.append(name)
        else:
            definers.setdefault(name, []).append(self)
            parts = {"type": [rest], "record": [line[1:] for line in more], "variant": [line[1:] for line in more]}
            self.types[name] = [it for words in parts.get(kind, []) for it in names_in(words)]
        if kind == "resource":
            for method, *words in more:
                self.add(f"[method]{name}.{method}", ["borrow", name, *words])

    def add(self, name, words):
        borrows = [words[at + 1] for at, word in enumerate(words) if word == "borrow"]
        self.functions.append(Function(name, names_in(words), borrows))


def read_tables():
    """The interfaces in order. A name that one uses is of the interface that defined it last before."""
    found, definers = [], {}
    for group in ["io", "fs", "net"]:
        with open(f"{TOP}/crates/wasi_listed/src/{group}_table.rt", encoding="utf-8") as file:
            table = file.read().split('"')[1]
        for text in re.sub(r"\\\n *", "", table).split("."):
            interface = Interface(text.strip(), definers)
            interface.definers = {name: definers[name][-1] for name in interface.uses}
            found.append(interface)
    return found


# ---- what a component imports

class Bytes:
    def __init__(self, data, at=0):
        self.data, self.at = data, at

    def byte(self):
        self.at += 1
        return self.data[self.at - 1]

    def leb(self):
        value = shift = 0
        while True:
            it = self.byte()
            value |= (it & 127) << shift
            shift += 7
            if it < 128:
                return value

    def text(self):
        count = self.leb()
        self.at += count
        return self.data[self.at - count : self.at].decode()

    def name(self):
        self.byte()
        return self.text()

    def many(self, read):
        return [read() for _ in range(self.leb())]

    def perhaps(self, read):
        return read() if self.byte() else None

    # (a type is a byte or an index; both are read alike)
    def labelled(self):
        return self.text(), self.leb()

    def case(self):
        self.text()
        self.perhaps(self.leb)
        self.byte()

    def sort(self):
        it = self.byte()
        return (it, self.byte()) if it == 0 else it

    def alias(self):
        sort, target = self.sort(), self.byte()
        self.leb()
        if target == 2:
            self.leb()
        else:
            self.text()
        return sort

    def described(self):
        """What an import or an export is: its kind, and its type where that is an index."""
        kind = self.byte()
        if kind == 0:
            self.byte()
        if kind == 3 and self.byte() == 1:
            return kind, None
        return kind, self.leb()

    def declaration(self):
        kind = self.byte()
        if kind == 1:
            self.definition()
        elif kind == 2:
            self.alias()
        elif kind == 4:
            return self.name(), self.described()[0]
        else:
            raise ValueError(f"declaration {kind}")
        return None

    def definition(self):
        """A type; of an instance type what it exports, as names and kinds."""
        kind = self.byte()
        if kind == 0x42:
            return [it for it in self.many(self.declaration) if it]
        if kind == 0x40:
            self.many(self.labelled)
            if self.byte() == 0:
                self.leb()
            else:
                self.byte()
        elif kind == 0x3F:
            self.byte()
            self.perhaps(self.leb)
        elif kind == 0x72:
            self.many(self.labelled)
        elif kind == 0x71:
            self.many(self.case)
        elif kind in (0x70, 0x6B, 0x69, 0x68):
            self.leb()
        elif kind == 0x6F:
            self.many(self.leb)
        elif kind in (0x6E, 0x6D):
            self.many(self.text)
        elif kind == 0x6A:
            self.perhaps(self.leb)
            self.perhaps(self.leb)
        elif not 0x73 <= kind <= 0x7F:
            raise ValueError(f"type {kind:#x}")
        return None

    def import_(self):
        return self.name(), *self.described()

    def export(self):
        self.name()
        sort = self.sort()
        self.leb()
        self.perhaps(self.described)
        return sort


def imports_of(path):
    """Of each imported instance its name, and the names in it with whether each is a function's."""
    with open(path, "rb") as file:
        source = Bytes(file.read(), 8)
    types, found = [], []
    while source.at < len(source.data):
        kind, size = source.byte(), source.leb()
        end = source.at + size
        if kind == 7:
            types += source.many(source.definition)
        elif kind == 6:
            types += [None for sort in source.many(source.alias) if sort == 3]
        elif kind == 11:
            types += [None for sort in source.many(source.export) if sort == 3]
        elif kind == 10:
            for name, sort, index in source.many(source.import_):
                if sort == 3:
                    types.append(None)
                elif sort == 5:
                    found.append((name, [(it, what == 1) for it, what in types[index]]))
        source.at = end
    return found


# ---- what a policy leaves of it

# the key of each interface in a policy
FAMILIES = {"cli/environment": "env", "cli/exit": "exit", "cli": "stdio", "io": "io", "clocks": "clocks", "random": "random", "filesystem": "fs", "sockets": "sockets"}

ADDRESSED = [
    "[method]tcp-socket.start-connect",
    "[method]tcp-socket.start-bind",
    "[method]udp-socket.start-bind",
    "[method]udp-socket.stream",
    "[method]outgoing-datagram-stream.send",
]


def family_of(interface):
    path = interface.name.removeprefix("wasi:")
    return FAMILIES.get(path) or FAMILIES[path.split("/")[0]]


class Policy:
    def __init__(self, path):
        with open(path, "rb") as file:
            said = tomllib.load(file)
        self.env, self.stdio, self.clocks, self.fs, self.net = (said.get(key, {}) for key in ["env", "stdio", "clocks", "fs", "net"])
        self.random, self.exit, self.sockets = (said.get(key, "deny") for key in ["random", "exit", "sockets"])
        self.hosted = self.kinds()

    def stream(self, name):
        return self.stdio.get(name, "deny")

    def folders(self):
        return self.fs.get("host") == "all" or bool(self.fs.get("pass"))

    def kinds(self):
        """The kinds of resources of which a handle can come from the machine."""
        sockets, folders = self.sockets != "deny", self.folders()
        stdin, stdout, stderr = (self.stream(name) == "allow" for name in ["stdin", "stdout", "stderr"])
        reads, writes = stdin or folders or sockets, stdout or stderr or folders or sockets
        found = {
            "error": reads or writes,
            "pollable": reads or writes or self.clocks.get("monotonic") == "allow",
            "input-stream": reads,
            "output-stream": writes,
            "terminal-input": stdin,
            "terminal-output": stdout or stderr,
            "descriptor": folders,
            "directory-entry-stream": folders,
        }
        return {name for name, can in found.items() if can} | (SOCKET_KINDS if sockets else set())

    def word(self, interface, function):
        """What the keys say of a function, whatever its handles."""
        words = {"allow": "asked", "deny": "refused", "ignore": "value", "rules": "asked"}
        package, name = interface.name.removeprefix("wasi:").split("/")
        if package == "cli":
            return self.word_of_cli(name, function, words)
        if package == "clocks":
            clock = self.clocks.get(name.removesuffix("-clock"), "deny")
            return words[clock] if isinstance(clock, str) else "value"
        if package == "random":
            return words[self.random]
        if name == "preopens":
            return "asked" if self.folders() else "value"
        return words[self.sockets] if name.endswith(("create-socket", "instance-network")) else "asked"

    def word_of_cli(self, name, function, words):
        if name == "exit":
            return words[self.exit]
        if name.startswith("terminal-std"):
            return "asked" if self.stream(name.removeprefix("terminal-")) == "allow" else "value"
        if name.startswith("std"):
            return words[self.stream(name)]
        if function.name == "get-environment":
            return "asked" if self.env.get("pass") or self.env.get("allow") else "value"
        return "asked" if self.env.get({"get-arguments": "arguments", "initial-cwd": "cwd"}[function.name]) is True else "value"

    def is_shut(self, function):
        """Whether the rules allow nothing to it."""
        if self.sockets != "rules":
            return False
        if function.name == "resolve-addresses":
            return not self.net.get("names")
        keys = {"[method]tcp-socket.start-connect": "connect", "[method]tcp-socket.start-bind": "bind", "[method]udp-socket.start-bind": "bind"}
        return function.name in keys and not self.net.get(keys[function.name])

    def fate(self, interface, function):
        word = self.word(interface, function)
        if word != "asked":
            return word
        if self.is_shut(function):
            return "refused"
        if not set(function.borrows) <= self.hosted:
            return "own"
        return "ruled" if self.sockets == "rules" and function.name in ADDRESSED else "asked"


SOCKET_KINDS = {"network", "resolve-address-stream", "tcp-socket", "udp-socket", "incoming-datagram-stream", "outgoing-datagram-stream"}


# ---- the lines

def reached(interface, name, into):
    """The types after a name in an interface, through others too."""
    if (interface.name, name) in into:
        return
    into.add((interface.name, name))
    if name in interface.definers:
        reached(interface.definers[name], name, into)
    for other in interface.types.get(name, []):
        reached(interface, other, into)


def output_lines(tables, asked, versions):
    """What an output imports for which the machine is asked these functions of each interface."""
    types = set()
    for interface in tables:
        for function in asked.get(interface.name, []):
            for name in function.names:
                reached(interface, name, types)
    for interface in tables:
        names = [name for name in [*interface.uses, *interface.types] if (interface.name, name) in types]
        names += [function.name for function in asked.get(interface.name, [])]
        for name in names:
            yield f"output {interface.name}@{versions.get(interface.name, '0.2.0')}#{name}"


def lines_of(component, policy=None):
    tables, imports = read_tables(), imports_of(component)
    versions = dict(name.split("@") for name, _ in imports)
    wanted = {name.split("@")[0]: {it for it, is_function in items if is_function} for name, items in imports}
    lines, fates, asked = [], [], {}
    for interface in tables:
        for function in interface.functions:
            if function.name in wanted.get(interface.name, ()):
                line = f"import {interface.name}@{versions[interface.name]}#{function.name} {family_of(interface)}"
                if policy:
                    fates.append(policy.fate(interface, function))
                    line += f" {fates[-1]}"
                    if fates[-1] in ("asked", "ruled"):
                        asked.setdefault(interface.name, []).append(function)
                lines.append(line)
    last = f"functions: {len(lines)} imported"
    if policy:
        last += "".join(f", {fates.count(word)} {word}" for word in ["asked", "ruled", "refused", "value", "own"])
        lines += output_lines(tables, asked, versions)
    return [*lines, last]


# ---- comparing the programs

def put_by(program, *words):
    ran = subprocess.run([program, *words], stdout=subprocess.PIPE, stderr=subprocess.DEVNULL, check=False)
    return ran.returncode, ran.stdout.decode()


def compare(inspect, virt, component, policy):
    """What is otherwise of a component under a policy."""
    status, text = put_by(inspect, component, "-p", policy)
    with tempfile.TemporaryDirectory() as room:
        out = os.path.join(room, "out.wasm")
        wrapped, said = put_by(virt, "virt", component, "-p", policy, "-o", out)
        if wrapped:
            if (status, text) != (wrapped, said):
                yield f"virt answers {wrapped} {said!r}, inspect {status} {text!r}"
            return
        due = lines_of(component, Policy(policy))
        if (status, text.splitlines()) != (0, due):
            yield f"status {status}, lines {sorted(set(text.splitlines()) ^ set(due))}"
        has = sorted(f"output {name}#{it}" for name, items in imports_of(out) for it, _ in items)
        if has != sorted(line for line in text.splitlines() if line.startswith("output ")):
            yield "the output imports something else"


def compare_alone(inspect, component):
    status, text = put_by(inspect, component)
    if status == 0 and text.splitlines() != lines_of(component):
        yield "without a policy: other lines"


def check(inspect, virt):
    os.chdir(TOP)
    components = sorted(glob.glob("crates/engine_rows/data/*.wasm") + glob.glob("examples/**/*.wasm", recursive=True))
    policies = sorted(glob.glob("crates/engine_rows/data/*.toml") + glob.glob("examples/**/*.toml", recursive=True))
    wrong = 0
    for component in components:
        for policy in policies:
            for what in compare(inspect, virt, component, policy):
                wrong += 1
                print(f"{component} {policy}: {what}")
        for what in compare_alone(inspect, component):
            wrong += 1
            print(f"{component}: {what}")
    print(f"{len(components)} components under {len(policies)} policies, {wrong} otherwise")
    return wrong


def main():
    words = sys.argv[1:]
    if words[:1] == ["--check"]:
        built = [f"{TOP}/crates/{name}/out/{name}" for name in ["wasi_inspect_cli", "virt_cli"]]
        sys.exit(1 if check(*map(os.path.abspath, words[1:] or built)) else 0)
    if len(words) not in (1, 2):
        sys.exit(__doc__)
    print("\n".join(lines_of(words[0], Policy(words[1]) if len(words) == 2 else None)))


main()
