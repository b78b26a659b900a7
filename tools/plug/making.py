"""Components in the making: core modules, listed interfaces, and sections whose indexes are counted."""

from encoders import (
    an_import,
    an_instance,
    borrow,
    declares,
    exports_func,
    exports_type,
    from_core,
    from_instance,
    func,
    inline,
    instance_type,
    leb,
    lift,
    lower,
    many,
    nested,
    of_component,
    of_core_items,
    of_module,
    outer_type,
    own,
    resource_drop,
    resource_new,
    section,
    section_of,
    signed,
    text,
    COMPONENT,
    FUNC,
    INSTANCE,
    MODULE,
    TYPE,
)

CORE = {"i": 0x7F, "L": 0x7E}


# ---- core modules

def core_of(imports=(), functions=(), exports=(), start=None, globals_=()):
    """Imports (module, name, type), functions (type, locals, body), exports (name, kind, index); a type is "iL>i"."""
    tys = []

    def place(t):
        if t not in tys:
            tys.append(t)
        return tys.index(t)

    def core_type(t):
        a, b = t.split(">")
        return b"\x60" + many([bytes([CORE[c]]) for c in a]) + many([bytes([CORE[c]]) for c in b])

    ins = [text(m) + text(n) + b"\0" + leb(place(t)) for m, n, t in imports]
    funcs = [leb(place(t)) for t, _, _ in functions]
    out = MODULE + section_of(1, [core_type(t) for t in tys])
    if ins:
        out += section_of(2, ins)
    if funcs:
        out += section_of(3, funcs)
    if globals_:
        out += section_of(6, [b"\x7f\1\x41" + signed(g) + b"\x0b" for g in globals_])
    if exports:
        out += section_of(7, [text(n) + bytes([k]) + leb(i) for n, k, i in exports])
    if start is not None:
        out += section(8, leb(start))
    bodies = []
    for _, locals_, body in functions:
        code = (many([leb(locals_) + b"\x7f"]) if locals_ else many([])) + body + b"\x0b"
        bodies.append(leb(len(code)) + code)
    return out + (section_of(10, bodies) if bodies else b"")


def const64(n):
    return b"\x42" + signed(n)


def tee(n):
    """`local.tee`."""
    return b"\x22" + leb(n)


# the first global, and sums
GLOBAL, SET_GLOBAL, ADD, ADD64 = b"\x23\0", b"\x24\0", b"\x6a", b"\x7c"


# ---- the listed interfaces that are used here (in the order of all of them)

RES = "resource"
STREAM_ERROR = ("variant", [("last-operation-failed", ("own", "error")), ("closed", None)])
UNIT = ("result", None, "stream-error")
TABLE = {
    "wasi:io/error": dict(uses=[], own={"error": RES}, funcs=[("[method]error.to-debug-string", [("borrow", "error")], "string")]),
    "wasi:io/poll": dict(uses=[], own={"pollable": RES}, funcs=[("[method]pollable.ready", [("borrow", "pollable")], "bool"), ("[method]pollable.block", [("borrow", "pollable")], None)]),
    "wasi:io/streams": dict(
        uses=["error", "pollable"],
        own={"stream-error": STREAM_ERROR, "input-stream": RES, "output-stream": RES},
        funcs=[
            ("[method]input-stream.read", [("borrow", "input-stream"), "u64"], ("result", ("list", "u8"), "stream-error")),
            ("[method]output-stream.check-write", [("borrow", "output-stream")], ("result", "u64", "stream-error")),
            ("[method]output-stream.blocking-write-and-flush", [("borrow", "output-stream"), ("list", "u8")], UNIT),
        ],
    ),
    "wasi:cli/stdin": dict(uses=["input-stream"], own={}, funcs=[("get-stdin", [], ("own", "input-stream"))]),
    "wasi:cli/stdout": dict(uses=["output-stream"], own={}, funcs=[("get-stdout", [], ("own", "output-stream"))]),
    "wasi:cli/stderr": dict(uses=["output-stream"], own={}, funcs=[("get-stderr", [], ("own", "output-stream"))]),
    "wasi:clocks/monotonic-clock": dict(
        uses=["pollable"],
        own={"instant": "u64", "duration": "u64"},
        funcs=[("now", [], "instant"), ("resolution", [], "duration"), ("subscribe-duration", ["duration"], ("own", "pollable"))],
    ),
    "wasi:random/random": dict(uses=[], own={}, funcs=[("get-random-u64", [], "u64")]),
    "wasi:random/insecure": dict(uses=[], own={}, funcs=[("get-insecure-random-u64", [], "u64")]),
}
KINDS = ["error", "pollable", "input-stream", "output-stream"]
PRIMS = {"bool": 0x7F, "u8": 0x7D, "u32": 0x79, "u64": 0x77, "string": 0x73}
DEFINED = {t: d for it in TABLE.values() for t, d in it["own"].items()}


def listed(interface, types, functions):
    """Of an interface these types, uses first, and functions, in its order."""
    it = TABLE[interface]
    known = [*it["uses"], *it["own"]]
    assert set(types) <= set(known), (interface, types)
    return [t for t in known if t in types], [f for f in it["funcs"] if f[0] in functions]


def kinds_in(ty, shown):
    """The kinds that a type holds, where named types that are shown are not looked into."""
    if ty is None or (isinstance(ty, str) and ty in PRIMS):
        return []
    if isinstance(ty, str):
        if DEFINED[ty] == RES:
            return [ty]
        return [] if ty in shown else kinds_in(DEFINED[ty], shown)
    if ty[0] in ("own", "borrow"):
        return [ty[1]]
    if ty[0] == "variant":
        return [k for _, t in ty[1] for k in kinds_in(t, shown)]
    return [k for t in ty[1:] for k in kinds_in(t, shown)]


def labels_of(name, params):
    """Names of parameters."""
    own = ["self"] if name.startswith("[method]") else []
    return [*own, *"abcdef"][: len(params)]


class Declared:
    """The instance type of an interface: these types under their names, and these functions."""

    def __init__(self, interface, types, functions, outside, names, fresh=()):
        """`outside` has the index of each type that stands there; `names` of a function its parameters' names; `fresh` types are new here."""
        self.items, self.next, self.at, self.brought = [], 0, {}, []
        types, functions = listed(interface, types, functions)
        types = self.unlisted(interface, types, functions, outside)
        for t in types:
            self.show(t, outside if t not in fresh else {})
        placed = [(name, self.function(params, result, names.get(name) or labels_of(name, params))) for name, params, result in functions]
        self.items += [exports_func(name, index) for name, index in placed]

    def unlisted(self, interface, types, functions, outside):
        """Names kinds that are held and not listed, without showing them; what stands nowhere is listed after all."""
        used = {k for _, params, result in functions for t in [*params, result] for k in kinds_in(t, types)}
        used |= {k for t in types if DEFINED[t] != RES for k in kinds_in(DEFINED[t], types)}
        for kind in (it for it in KINDS if it in used and it not in types):
            if kind in outside:
                self.at[kind] = self.define(outer_type(outside[kind]))
            else:
                types, _ = listed(interface, [*types, kind], [])
        return types

    def show(self, name, outside):
        """Exports a type: one that stands outside, or a new one."""
        if name in outside:
            self.put(name, self.define(outer_type(outside[name])))
            return
        if DEFINED[name] == RES:
            self.at[name] = self.define(exports_type(name))
        else:
            self.put(name, self.define(declares(self.definition(DEFINED[name]))))
        self.brought.append(name)

    def function(self, params, result, labels):
        """The type of a function."""
        given = [(label, self.value(t)) for label, t in zip(labels, params)]
        return self.define(declares(func(given, None if result is None else self.value(result))))

    def define(self, item):
        self.items.append(item)
        self.next += 1
        return self.next - 1

    def put(self, name, index):
        self.at[name] = self.define(b"\4\0" + text(name) + b"\3\0" + leb(index))

    def definition(self, ty):
        if isinstance(ty, str):
            return bytes([PRIMS[ty]])
        part = lambda t: b"\0" if t is None else b"\1" + self.value(t)
        if ty[0] == "own":
            return own(self.at[ty[1]])
        if ty[0] == "borrow":
            return borrow(self.at[ty[1]])
        if ty[0] == "list":
            return b"\x70" + self.value(ty[1])
        if ty[0] == "result":
            a, b = part(ty[1]), part(ty[2])
            return b"\x6a" + a + b
        return b"\x71" + many([text(n) + part(t) + b"\0" for n, t in ty[1]])

    def value(self, ty):
        if isinstance(ty, str):
            if ty in self.at:
                return leb(self.at[ty])
            return self.value(DEFINED[ty]) if ty not in PRIMS else bytes([PRIMS[ty]])
        return leb(self.define(declares(self.definition(ty))))

    def type(self):
        return instance_type(*self.items)


# ---- components

# sections that are lists
LISTS = (2, 5, 6, 7, 8, 10, 11)


def spelled(parts):
    """Sections of pairs of a section's number and an item; items of one list that follow one another share a section."""
    out, held, last = b"", [], None
    for number, item in [*parts, (None, b"")]:
        if held and (number != last or number not in LISTS):
            out += section_of(last, held) if last in LISTS else section(last, held[0])
            held = []
        held.append(item)
        last = number
    return out


class Making:
    """A component in the making: index spaces are counted."""

    def __init__(self):
        self.parts, self.n = [], dict.fromkeys(["type", "func", "inst", "core", "cinst", "mod", "comp"], 0)
        # the index of each listed type, what is asked of listed interfaces, and the exports
        self.outside, self.asks, self.out = {}, [], []

    def put(self, number, item, *spaces):
        """An item of a section, which adds an index to each of these spaces: that of the first."""
        self.parts.append((number, item))
        for s in spaces:
            self.n[s] += 1
        return self.n[spaces[0]] - 1 if spaces else None

    def type(self, item):
        return self.put(7, item, "type")

    def host(self, interface, types=(), functions=(), version="0.2.0", names={}, fresh=()):
        """An import of a listed interface: its instance; the indexes of its types, and of its functions."""
        declared = Declared(interface, types, functions, self.outside, names, fresh)
        ty = self.type(declared.type())
        name = f"{interface}@{version}"
        inst = self.put(10, an_import(name, an_instance(ty)), "inst")
        for t in declared.brought:
            self.outside[t] = self.alias(TYPE, inst, t)
        self.asks.append((interface, version, list(types), list(functions), names))
        return inst, [self.alias(FUNC, inst, f) for f in functions]

    def imported(self, name, *items):
        """An import of an instance with these declarations."""
        ty = self.type(instance_type(*items))
        return self.put(10, an_import(name, an_instance(ty)), "inst")

    def alias(self, sort, inst, name):
        return self.put(6, from_instance(sort, inst, name), "type" if sort == TYPE else "func")

    def lower(self, f, *options):
        return self.put(8, lower(f, *options), "core")

    def new(self, t):
        return self.put(8, resource_new(t), "core")

    def drop(self, t):
        return self.put(8, resource_drop(t), "core")

    def core(self, module_, **given):
        """An instance of a module, given inline instances of (name, kind, index)."""
        self.put(1, module_, "mod")
        args = {name: self.put(2, of_core_items(*items), "cinst") for name, items in given.items()}
        return self.put(2, of_module(self.n["mod"] - 1, **args), "cinst")

    def core_func(self, cinst, name):
        return self.put(6, from_core(0, cinst, name), "core")

    def lift(self, core, ty, *options):
        return self.put(8, lift(core, ty, *options), "func")

    def inline(self, *items):
        return self.put(5, inline(*items), "inst")

    def nested(self, content):
        return self.put(4, content, "comp")

    def instance(self, comp, *args):
        return self.put(5, of_component(comp, *args), "inst")

    def export(self, name, sort, index, stated=None):
        item = b"\0" + text(name) + bytes([sort]) + leb(index) + (b"\0" if stated is None else b"\1" + stated)
        self.out.append((name, sort))
        return self.put(11, item, {FUNC: "func", TYPE: "type", INSTANCE: "inst"}[sort])

    def imports(self):
        """The names of the imports, in order."""
        return [item[2 : 2 + item[1]].decode() for number, item in self.parts if number == 10]

    def bytes(self):
        return COMPONENT + spelled(self.parts)
