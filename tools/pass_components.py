#!/usr/bin/env python3
"""Writes the components of crates/engine_rows that pass each call on to WASI, so that a script says what a program asks for.

usage: tools/pass_components.py FOLDER: the interfaces are read from the tables of crates/wasi_listed.

Each listed function is exported under its name: a method as RESOURCE-METHOD, a function of a clock as CLOCK-FUNCTION. In its type each
handle is a u32: what stands there is the index in the component's own table of handles. `drop-RESOURCE` drops such an index. Of the
component's code a function only calls the imported one, with a place for its result where that takes one.
"""

import os
import re
import sys

from encoders import (
    FUNC,
    I32,
    I64,
    MODULE,
    TYPE,
    aliases,
    an_instance,
    borrow,
    canons,
    component,
    core_instances,
    core_module,
    declares,
    exports,
    exports_func,
    exports_type,
    from_core,
    from_instance,
    func,
    imports,
    instance_type,
    leb,
    lift,
    lower,
    many,
    memory_option,
    of_core_items,
    of_module,
    outer_type,
    own,
    prim,
    realloc_option,
    resource_drop,
    section,
    signed,
    text,
    types,
    write_all,
)

CRATES = os.path.join(os.path.dirname(os.path.abspath(__file__)), "..", "crates")

PRIMS = {"bool": 0x7F, "u8": 0x7D, "u16": 0x7B, "u32": 0x79, "u64": 0x77, "string": 0x73}

# forms of types that stand under a name
NAMED = ("record", "variant", "enum", "flags")


# ---- the tables

def read_type(words, known):
    """The type that begins here, as (form, ..); the words after it are left."""
    word = words.pop(0)
    if word in PRIMS:
        return ("prim", word)
    if word == "_":
        return None
    if word in ("own", "borrow"):
        return (word, words.pop(0))
    if word in ("list", "option"):
        return (word, read_type(words, known))
    if word == "result":
        return (word, read_type(words, known), read_type(words, known))
    if word.startswith("tuple"):
        return ("tuple", [read_type(words, known) for _ in range(int(word[5:]))])
    return known[word]


def read_function(words, known):
    """The parameters and the result."""
    params = []
    while words and words[0] != "->":
        params.append(read_type(words, known))
    return params, read_type(words[1:], known) if words else None


def read_item(item, home, known, functions):
    """Adds what an item of an interface defines; of a resource or a named type its name."""
    lines = [line.split() for line in item.split(",")]
    kind, name, *rest = lines[0]
    if kind == "type":
        known[name] = read_type(rest, known)
    elif kind in ("enum", "flags"):
        known[name] = (kind, rest, name, home)
    elif kind == "record":
        known[name] = (kind, [(field, read_type(words, known)) for field, *words in lines[1:]], name, home)
    elif kind == "variant":
        known[name] = (kind, [(case, read_type(words, known) if words else None) for case, *words in lines[1:]], name, home)
    elif kind == "resource":
        for method, *words in lines[1:]:
            params, result = read_function(words, known)
            functions[f"{name}-{method}"] = (f"[method]{name}.{method}", [("borrow", name)] + params, result)
        return [name]
    elif kind == "function":
        functions[name] = (name, *read_function(rest, known))
    return []


def read_tables():
    """Of each interface its resources and its functions; of a function its name there, its parameters and its result."""
    found, known = {}, {}
    for group in ["io", "fs", "net"]:
        with open(os.path.join(CRATES, "wasi_listed", "src", f"{group}_table.rt"), encoding="utf-8") as file:
            table = file.read().split('"')[1]
        for interface in re.sub(r"\\\n *", "", table).split("."):
            name, *items = interface.split(";")
            functions = {}
            resources = [r for item in items for r in read_item(item, name, known, functions)]
            if name.endswith("-clock"):
                functions = {f"{name.split('/')[1]}-{f}": at for f, at in functions.items()}
            found[name] = (resources, functions)
    return found


# ---- types

def parts(ty):
    """The types right in one."""
    if ty is None or ty[0] in ("prim", "own", "borrow", "enum", "flags"):
        return []
    if ty[0] in ("record", "variant"):
        return [inner for _, inner in ty[1]]
    return ty[1] if ty[0] == "tuple" else list(ty[1:])


def resources_in(ty):
    if ty is not None and ty[0] in ("own", "borrow"):
        return {ty[1]}
    return {name for inner in parts(ty) for name in resources_in(inner)}


def named_in(ty):
    """The types in one that stand under names, each after those in it."""
    found = [name for inner in parts(ty) for name in named_in(inner)]
    return [*found, ty] if ty is not None and ty[0] in NAMED else found


def spelled(ty, define, leaf):
    """The bytes that name a type: `define` takes a definition and gives its index, and `leaf` gives that of a handle or of a named type."""

    def part(inner):
        return b"\0" if inner is None else b"\1" + spelled(inner, define, leaf)

    form = ty[0]
    if form == "prim":
        return prim(PRIMS[ty[1]])
    if form in ("own", "borrow", *NAMED):
        return leaf(ty)
    if form == "list":
        made = b"\x70" + spelled(ty[1], define, leaf)
    elif form == "option":
        made = b"\x6b" + spelled(ty[1], define, leaf)
    elif form == "result":
        made = b"\x6a" + part(ty[1]) + part(ty[2])
    else:
        made = b"\x6f" + many([spelled(inner, define, leaf) for inner in ty[1]])
    return signed(define(made))


def spelled_named(ty, define, leaf):
    """The definition of a type that stands under a name."""
    form = ty[0]
    if form == "record":
        return b"\x72" + many([text(name) + spelled(inner, define, leaf) for name, inner in ty[1]])
    if form == "variant":
        return b"\x71" + many([text(name) + (b"\0" if inner is None else b"\1" + spelled(inner, define, leaf)) + b"\0" for name, inner in ty[1]])
    return {"flags": b"\x6e", "enum": b"\x6d"}[form] + many([text(label) for label in ty[1]])


def plain_label(place):
    return f"p{place}"


def spelled_func(params, result, define, leaf, label=plain_label):
    names = [("self" if i == 0 else label(i), spelled(ty, define, leaf)) for i, ty in enumerate(params)]
    return define(func(names, None if result is None else spelled(result, define, leaf)))


def flat(ty):
    """The core types of a value."""
    if ty is None:
        return []
    form = ty[0]
    if form == "prim":
        return [I32, I32] if ty[1] == "string" else [I64 if ty[1] == "u64" else I32]
    if form == "list":
        return [I32, I32]
    if form in ("tuple", "record"):
        return [core for inner in parts(ty) for core in flat(inner)]
    if form in ("variant", "option", "result"):
        joined = []
        for inner in parts(ty):
            for i, core in enumerate(flat(inner)):
                if i == len(joined):
                    joined.append(core)
                elif joined[i] != core:
                    joined[i] = I64
        return [I32] + joined
    return [I32]


class Definitions:
    """Definitions of types, each of which is made once."""

    def __init__(self, next_index, item=bytes):
        self.made, self.items, self.next, self.item = {}, [], next_index, item

    def add(self, item):
        self.items.append(item)
        self.next += 1
        return self.next - 1

    def define(self, made):
        if made not in self.made:
            self.made[made] = self.add(self.item(made))
        return self.made[made]


# ---- a component

class Imported:
    """The instance type of an import in the making. What other imports brought stands outside under its index; what none did is brought here."""

    def __init__(self, outside, uses, label):
        self.outside, self.uses, self.label = outside, uses, label
        self.known, self.brought, self.inside = {}, [], Definitions(0, declares)

    def bring(self, key, made):
        """Exports a new type."""
        self.known[key] = made
        self.brought.append(key)
        return made

    def equal(self, name, index):
        return self.inside.add(b"\4\0" + text(name) + b"\3\0" + leb(index))

    def outer(self, key):
        index = self.inside.add(outer_type(self.outside[key]))
        self.known[key] = self.equal(name_of(key), index) if self.uses else index
        return self.known[key]

    def resource(self, name):
        if name in self.known:
            return self.known[name]
        return self.outer(name) if name in self.outside else self.bring(name, self.inside.add(exports_type(name)))

    def named(self, ty):
        key = ty[2:]
        if key in self.known:
            return self.known[key]
        if key in self.outside:
            return self.outer(key)
        return self.bring(key, self.equal(ty[2], self.inside.define(spelled_named(ty, self.inside.define, self.leaf))))

    def leaf(self, ty):
        if ty[0] in NAMED:
            return signed(self.named(ty))
        return signed(self.inside.define((own if ty[0] == "own" else borrow)(self.resource(ty[1]))))

    def function(self, name, params, result):
        made = spelled_func(params, result, self.inside.define, self.leaf, self.label)
        self.inside.items.append(exports_func(name, made))


def name_of(key):
    """The name of a resource, or of a named type."""
    return key if isinstance(key, str) else key[0]


def typed(params, results):
    return b"\x60" + many([bytes([t]) for t in params]) + many([bytes([t]) for t in results])


# the last place, rounded up to 8, is the answer; the next lies after it
REALLOC = b"\1\1\x7f\x23\0\x41\x07\x6a\x41\x78\x71\x22\4\x20\3\x6a\x24\0\x20\4\x0b"


def library(pages):
    """A memory of that many pages, and a realloc that gives the next place after 4,096."""
    return (
        MODULE
        + section(1, many([typed([I32] * 4, [I32])]))
        + section(3, many([b"\0"]))
        + section(5, many([b"\0" + leb(pages)]))
        + section(6, many([b"\x7f\1\x41" + signed(4096) + b"\x0b"]))
        + section(7, many([text("memory") + b"\2\0", text("realloc") + b"\0\0"]))
        + section(10, many([leb(len(REALLOC)) + REALLOC]))
    )



# where results are written
PLACE = 1024


def core_type(params, result):
    """The core types of a lowered function, and whether its last parameter is the place of its result."""
    ins = [core for ty in params for core in flat(ty)]
    ins = ins if len(ins) <= 16 else [I32]
    outs = flat(result)
    return (ins + [I32], [], True) if len(outs) > 1 else (ins, outs, False)


def passing(lowered):
    """The module whose functions call the imported ones."""
    made = Definitions(0)
    ins, places, codes, outs = [], [], [], []
    for name, (params, results, placed) in lowered:
        ins.append(text("host") + text(name) + b"\0" + leb(made.define(typed(params, results))))
    for i, (name, (params, results, placed)) in enumerate(lowered):
        given = len(params) - placed
        places.append(leb(made.define(typed(params[:given], [I32] if placed else results))))
        place = b"\x41" + signed(PLACE) if placed else b""
        body = many([]) + b"".join(b"\x20" + leb(p) for p in range(given)) + place + b"\x10" + leb(i) + place + b"\x0b"
        codes.append(leb(len(body)) + body)
        outs.append(text(name) + b"\0" + leb(len(lowered) + i))
    return MODULE + section(1, many(made.items)) + section(2, many(ins)) + section(3, many(places)) + section(7, many(outs)) + section(10, many(codes))


class World:
    """What a component imports: the sections that say so, the index of each type, the next free one, and the functions in their order."""

    def __init__(self):
        self.sections, self.indexes, self.next_type, self.instances, self.rows = [], {}, 0, 0, []

    def add(self, name, kept, named, functions, uses, label):
        """An import with these resources, named types and functions."""
        made = Imported(self.indexes, uses, label)
        for it in kept:
            made.resource(it)
        for ty in named:
            made.named(ty)
        for _, at in functions:
            made.function(*at)
        self.sections.append(types(instance_type(*made.inside.items)))
        self.sections.append(imports((name, an_instance(self.next_type))))
        self.next_type += 1
        found = [from_instance(TYPE, self.instances, name_of(it)) for it in made.brought]
        self.sections.append(aliases(*found, *[from_instance(FUNC, self.instances, at[0]) for _, at in functions]))
        for it in made.brought:
            self.indexes[it] = self.next_type
            self.next_type += 1
        self.rows += functions
        self.instances += 1


def wanted_in(tables, names):
    """The functions of each interface that are among these."""
    wanted = {interface: [(name, at) for name, at in functions.items() if name in names] for interface, (_, functions) in tables.items()}
    missing = set(names) - {name for rows in wanted.values() for name, _ in rows}
    if missing:
        sys.exit(f"no functions {missing}")
    return wanted


def met_in(rows):
    """The types of parameters and results."""
    return [ty for _, (_, params, result) in rows for ty in [*params, result]]


def is_spared(wanted, interface, kept, named):
    """Whether others bring all types of an interface that none of the functions stands in, so that it need not be imported."""
    others = [ty for other, rows in wanted.items() if other != interface for ty in met_in(rows)]
    brought = {name for ty in others for name in resources_in(ty)}
    plain = all(not resources_in(ty) and named_in(ty) == [ty] for ty in named)
    return not wanted[interface] and plain and set(kept) <= brought


def world(tables, names, drops, version=lambda interface: "0.2.0", uses=False, label=plain_label, fewer=False):
    """The imports of these functions, and of resources for their drops; an import may export what it uses of others, as tools write it.

    `label` names a parameter by its place, from 1 on. With `fewer` an interface is left out whose types others can bring."""
    wanted = wanted_in(tables, names)
    met = [ty for rows in wanted.values() for ty in met_in(rows)]
    named = []
    for ty in [inner for outer in met for inner in named_in(outer)]:
        if ty not in named:
            named.append(ty)
    kinds = {*drops} | {name for ty in [*met, *named] for name in resources_in(ty)}
    made = World()
    for interface, (resources, _) in tables.items():
        kept = [name for name in resources if name in kinds]
        here = [ty for ty in named if ty[3] == interface]
        if (kept or here or wanted[interface]) and not (fewer and is_spared(wanted, interface, kept, here)):
            made.add(f"{interface}@{version(interface)}", kept, here, wanted[interface], uses, label)
    return made


def passes(tables, names, drops, pages=32):
    """The component that exports these functions, and drops of these resources."""
    imported = world(tables, names, drops)
    sections, indexes, next_type, rows = imported.sections, imported.indexes, imported.next_type, imported.rows
    sections += [core_module(library(pages)), core_instances(of_module(0)), aliases(from_core(2, 0, "memory"), from_core(0, 0, "realloc"))]
    options = [memory_option(0), realloc_option(0)]
    sections.append(canons(*[lower(i, *options) for i in range(len(rows))], *[resource_drop(indexes[name]) for name in drops]))
    cores = [(name, core_type(params, result)) for name, (_, params, result) in rows] + [(f"drop-{name}", ([I32], [], False)) for name in drops]
    sections.append(core_module(passing(cores)))
    items = of_core_items(*[(name, 0, 1 + i) for i, (name, _) in enumerate(cores)])
    sections.append(core_instances(items, of_module(1, host=1)))
    sections.append(aliases(*[from_core(0, 2, name) for name, _ in cores]))
    outside, renamed = Definitions(next_type, types), {}

    def leaf(ty):
        if ty[0] not in NAMED:
            return prim(PRIMS["u32"])
        if not resources_in(ty):
            return signed(indexes[ty[2:]])
        if ty[2:] not in renamed:
            index = outside.define(spelled_named(ty, outside.define, leaf))
            renamed[ty[2:]] = outside.add(exports((f"the-{ty[2]}", TYPE, index)))
        return signed(renamed[ty[2:]])

    signatures = [(params, result) for _, (_, params, result) in rows] + [([("prim", "u32")], None)] * len(drops)
    places = [spelled_func(params, result, outside.define, leaf) for params, result in signatures]
    sections += outside.items
    first = 1 + len(cores)
    sections.append(canons(*[lift(first + i, place, *options) for i, place in enumerate(places)]))
    sections.append(exports(*[(name, FUNC, len(rows) + i) for i, (name, _) in enumerate(cores)]))
    return component(*sections)


DESCRIPTOR = [
    "read-via-stream", "write-via-stream", "append-via-stream", "set-size", "get-flags", "get-type", "read", "write", "read-directory",
    "create-directory-at", "remove-directory-at", "unlink-file-at", "symlink-at", "stat", "stat-at", "link-at", "rename-at", "open-at",
    "readlink-at", "is-same-object", "metadata-hash", "metadata-hash-at",
]

PASSING = {
    "passes_files": (
        ["get-directories", "directory-entry-stream-read-directory-entry", "input-stream-read", "output-stream-write"] + [f"descriptor-{m}" for m in DESCRIPTOR],
        ["descriptor", "directory-entry-stream", "input-stream", "output-stream"],
    ),
    "passes_streams": (
        ["get-stdin", "get-stdout", "input-stream-read", "input-stream-subscribe", "output-stream-check-write", "output-stream-splice", "poll", "pollable-ready", "monotonic-clock-subscribe-duration"],
        ["input-stream", "output-stream", "pollable"],
    ),
    "passes_sockets": (
        [
            "instance-network", "create-tcp-socket", "create-udp-socket", "resolve-addresses", "tcp-socket-start-bind", "tcp-socket-start-connect",
            "udp-socket-start-bind", "udp-socket-stream", "outgoing-datagram-stream-send", "get-random-u64",
        ],
        ["network", "tcp-socket", "udp-socket", "outgoing-datagram-stream"],
    ),
    "passes_bytes": (["get-random-bytes"], []),
}


def all_passing(tables):
    """Each listed function, and drops of each kind."""
    return [name for _, functions in tables.values() for name in functions], [kind for kinds, _ in tables.values() for kind in kinds]


if __name__ == "__main__":
    if len(sys.argv) != 2 or sys.argv[1].startswith("-"):
        sys.exit(__doc__)
    found = read_tables()
    wanted = {**PASSING, "passes_all": all_passing(found)}
    write_all(sys.argv[1], ((name, passes(found, functions, drops)) for name, (functions, drops) in wanted.items()))
