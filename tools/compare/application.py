"""Components made from a list of calls: each exported function makes some of them and returns, as bytes, all that it got back."""

from dataclasses import dataclass, field

from pass_components import core_type, flat, world
from encoders import (
    FUNC,
    INSTANCE,
    aliases,
    canons,
    component,
    core_instances,
    core_module,
    exports,
    from_core,
    func,
    inline,
    instances,
    leb,
    lift,
    lower,
    memory_option,
    of_core_items,
    of_module,
    post_option,
    realloc_option,
    resource_drop,
    types,
)

from . import asm
from .asm import I32, I64
from .listed import KINDS, TABLES, aligned, align, cases, has_cases, placed_fields, points, size

# the memory: what an exported function answers with, the record of a call's result, the handles, then the data
ANSWER, RESULT, HANDLES = 16, 1024, 2048
LOG_SIZE, HEAP_SIZE, PAGE = 1 << 20, 3 << 20, 65536


class Handle:
    """A handle that a call made: which one it is, its kind, and what is known of it."""

    def __init__(self, number, kind, index, content, note=None):
        self.number, self.kind, self.index, self.content, self.note = number, kind, index, content, note

    def place(self):
        return HANDLES + 4 * self.number


@dataclass
class Step:
    """A call of a function, or a drop where there is none: its arguments, in which handles stand as such, its result, and the handles made, with the way to each in the result's record."""

    function: object
    args: list
    result: object = None
    made: list = field(default_factory=list)


@dataclass
class Shape:
    """In what form an application is written, and what it imports beside what it calls."""

    versions: dict
    uses: bool = False
    in_instance: bool = False
    post: bool = False
    label: str = "p"
    more: frozenset = frozenset()
    more_kinds: frozenset = frozenset()
    fewer: bool = False

    def labelled(self, place):
        return f"{self.label}{place}"

    def version(self, interface):
        return self.versions.get(interface, self.versions.get("", "0.2.0"))


class Data:
    """Bytes that stand in the memory from the beginning; long zeros need no segment."""

    def __init__(self, at):
        self.at, self.segments, self.known = at, [], {}

    def put(self, made, to=1):
        if (made, to) not in self.known:
            self.at = aligned(self.at, to)
            self.known[made, to] = self.at
            if made.strip(b"\0"):
                self.segments.append((self.at, made))
            self.at += len(made)
        return self.known[made, to]

    def room(self, length):
        self.at = aligned(self.at, 4)
        self.at += length
        return self.at - length


def stored(ty, value, data):
    """The bytes of a value in memory; what it points to is put into the data. Handles don't stand here."""
    form = ty[0]
    if form == "prim":
        if ty[1] == "string":
            return pointed(ty, value, data)
        return int(value).to_bytes(size(ty), "little")
    if form == "list":
        return pointed(ty, value, data)
    if form == "flags":
        return bytes([flag_bits(ty, value)])
    out = b""
    if form in ("record", "tuple"):
        values = [value[name] for name, _ in ty[1]] if form == "record" else value
        for (at, it), inner in zip(placed_fields(ty), values):
            out = out.ljust(at, b"\0") + stored(it, inner, data)
    else:
        number, payload, inner = case_of(ty, value)
        out = bytes([number])
        if payload is not None:
            out = out.ljust(max([1] + [align(it) for _, it in cases(ty) if it is not None]), b"\0") + stored(payload, inner, data)
    return out.ljust(size(ty), b"\0")


def elements(ty, value, data):
    """The bytes that a text or a list points to, and how many things these are."""
    if ty == ("prim", "string"):
        made = value.encode()
        return made, len(made)
    if ty[1] == ("prim", "u8"):
        return bytes(value), len(value)
    return b"".join(stored(ty[1], it, data) for it in value), len(value)


def pointed(ty, value, data):
    made, count = elements(ty, value, data)
    at = data.put(made, 1 if ty == ("prim", "string") else align(ty[1]))
    return at.to_bytes(4, "little") + count.to_bytes(4, "little")


def flag_bits(ty, value):
    return sum(1 << i for i, label in enumerate(ty[1]) if label in value)


def case_of(ty, value):
    """The number of a value's case, its payload's type, and the payload."""
    if ty[0] == "enum":
        return ty[1].index(value), None, None
    if ty[0] == "option" and value is None:
        return 0, None, None
    label, inner = next(iter(value.items()))
    labels = [it for it, _ in cases(ty)]
    return labels.index(label), dict(cases(ty))[label], inner


class Code:
    """The core module that makes the calls."""

    def __init__(self, rows, drops, count):
        self.module = asm.Module()
        self.data = Data(HANDLES + 4 * count)
        self.functions = {}
        for key, (_, params, result) in rows:
            ins, outs, _ = core_type(params, result)
            self.functions[key] = self.module.import_function("host", key, ins, outs)
        for kind in drops:
            self.functions[f"drop-{kind}"] = self.module.import_function("host", f"drop-{kind}", [I32], [])
        self.reset = self.module.import_function("library", "reset", [], [])
        self.log = self.module.declare([I32, I32], [])
        self.followed = {}
        self.spare = self.module.add_global(0)
        self.log_at = self.module.add_global(0)

    # ---- what is seen

    def define_log(self):
        code = asm.get_global(self.log_at) + asm.get(0) + asm.get(1) + asm.COPY
        code += asm.get_global(self.log_at) + asm.get(1) + asm.ADD + asm.set_global(self.log_at)
        self.module.define(self.log, code)

    def follow(self, ty):
        """The function that shows all that a value at a place points to."""
        key = repr(ty)
        if key not in self.followed:
            self.followed[key] = self.module.declare([I32], [])
            self.module.define(self.followed[key], self.following(ty), [(3, I32)])
        return self.followed[key]

    def inner(self, ty, at):
        """Shows what a part at an offset points to."""
        return asm.get(0) + asm.i32(at) + asm.ADD + asm.call(self.follow(ty)) if points(ty) else b""

    def following(self, ty):
        if ty == ("prim", "string"):
            return asm.get(0) + asm.load() + asm.get(0) + asm.load(4) + asm.call(self.log)
        if ty[0] in ("record", "tuple"):
            return b"".join(self.inner(it, at) for at, it in placed_fields(ty))
        if has_cases(ty):
            offset = max([1] + [align(it) for _, it in cases(ty) if it is not None])
            tests = [(i, self.inner(it, offset)) for i, (_, it) in enumerate(cases(ty)) if it is not None and points(it)]
            return b"".join(asm.get(0) + asm.load_byte() + asm.i32(i) + asm.EQ + asm.when(code) for i, code in tests)
        step = size(ty[1])
        code = asm.get(0) + asm.load() + asm.tee(1) + asm.get(0) + asm.load(4) + asm.tee(2) + asm.i32(step) + asm.MUL + asm.call(self.log)
        if points(ty[1]):
            turn = asm.get(2) + asm.EQZ + asm.leave_if(1) + asm.get(1) + asm.call(self.follow(ty[1]))
            turn += asm.get(1) + asm.i32(step) + asm.ADD + asm.set_(1) + asm.get(2) + asm.i32(1) + asm.SUB + asm.set_(2) + asm.leave(0)
            code += asm.block(asm.loop(turn))
        return code

    # ---- arguments

    def push(self, ty, value):
        form = ty[0]
        if form == "borrow":
            return asm.i32(value.place()) + asm.load()
        if form == "list" and ty[1][0] == "borrow":
            return self.push_handles(value)
        if form == "list" or ty == ("prim", "string"):
            made, count = elements(ty, value, self.data)
            return asm.i32(self.data.put(made, 1 if form == "prim" else align(ty[1]))) + asm.i32(count)
        if form == "prim":
            return asm.i64(value) if ty[1] == "u64" else asm.i32(int(value))
        if form == "flags":
            return asm.i32(flag_bits(ty, value))
        if form in ("record", "tuple"):
            values = [value[name] for name, _ in ty[1]] if form == "record" else value
            return b"".join(self.push(it, inner) for (_, it), inner in zip(placed_fields(ty), values))
        return self.push_case(ty, value)

    def push_case(self, ty, value):
        number, payload, inner = case_of(ty, value)
        code, cores = asm.i32(number), flat(ty)[1:]
        if payload is not None:
            given = flat(payload)
            if given != cores[: len(given)]:
                raise ValueError(f"a case whose numbers are joined: {ty}")
            code, cores = code + self.push(payload, inner), cores[len(given) :]
        return code + b"".join(asm.number(core, 0) for core in cores)

    def push_handles(self, handles):
        """A list of handles is written anew each time."""
        at = self.data.room(4 * len(handles))
        if len(handles) > 64:
            return self.repeated(handles[0], at, len(handles)) + asm.i32(at) + asm.i32(len(handles))
        writes = b"".join(asm.i32(at + 4 * i) + asm.i32(it.place()) + asm.load() + asm.store() for i, it in enumerate(handles))
        return writes + asm.i32(at) + asm.i32(len(handles))

    def repeated(self, handle, at, count):
        """Writes one handle many times, from the last place on."""
        turn = asm.get(2) + asm.EQZ + asm.leave_if(1) + asm.get(2) + asm.i32(4) + asm.SUB + asm.set_(2)
        turn += asm.get(2) + asm.i32(at) + asm.ADD + asm.i32(handle.place()) + asm.load() + asm.store() + asm.leave(0)
        return asm.i32(4 * count) + asm.set_(2) + asm.block(asm.loop(turn))

    # ---- calls

    def call(self, step):
        if step.function is None:
            handle = step.args[0]
            return asm.i32(handle.place()) + asm.load() + asm.call(self.functions[f"drop-{handle.kind}"])
        it = step.function
        _, outs, placed = core_type(it.params, it.result)
        code = asm.i32(RESULT) + asm.i32(0xAA) + asm.i32(size(it.result)) + asm.FILL if placed else b""
        given = b"".join(self.push(ty, value) for ty, value in zip(it.params, step.args))
        if placed:
            given += asm.i32(RESULT)
        code += given + asm.call(self.functions[it.key])
        if outs:
            local = 0 if outs == [I32] else 1
            write = asm.store() if outs == [I32] else asm.store_long()
            code += asm.set_(local) + asm.i32(RESULT) + asm.get(local) + write
        return code + self.seen(it.result) + b"".join(self.keep(way, handle) for way, handle in step.made)

    def seen(self, ty):
        if ty is None:
            return b""
        code = asm.i32(RESULT) + asm.i32(size(ty)) + asm.call(self.log)
        return code + (asm.i32(RESULT) + asm.call(self.follow(ty)) if points(ty) else b"")

    def keep(self, way, handle):
        code = asm.i32(RESULT)
        for offset in way:
            code += asm.load(offset)
        return asm.i32(handle.place()) + code + asm.store()

    def group(self, steps):
        """An exported function: these calls, then the place and the length of what was seen."""
        calls = b"".join(self.call(it) for it in steps)
        begin = asm.call(self.reset) + asm.get_global(self.spare) + asm.set_global(self.log_at)
        end = asm.i32(ANSWER) + asm.get_global(self.spare) + asm.store()
        end += asm.i32(ANSWER) + asm.get_global(self.log_at) + asm.get_global(self.spare) + asm.SUB + asm.store(4) + asm.i32(ANSWER)
        return self.module.add([], [I32], begin + calls + end, [(1, I32), (1, I64), (1, I32)])

    def made(self, groups, post):
        """The module's bytes, how many pages its memory has, and where the heap begins."""
        self.define_log()
        for i, steps in enumerate(groups):
            self.module.export(f"f{i}", 0, self.group(steps))
        if post:
            self.module.export("post", 0, self.module.add([I32], [], b""))
        log = aligned(self.data.at, 16)
        self.module.globals[self.spare] = b"\x7f\1" + asm.i32(log) + b"\x0b"
        self.module.data = self.data.segments
        heap = log + LOG_SIZE
        pages = (heap + HEAP_SIZE) // PAGE + 1
        self.module.import_memory("library", "memory", pages)
        return self.module.bytes(), pages, heap


def library(pages, heap):
    """A memory, a realloc that gives the next place, and a function that begins again."""
    module = asm.Module()
    module.memory = pages
    top = module.add_global(heap)
    begin = asm.get_global(top) + asm.get(2) + asm.ADD + asm.i32(1) + asm.SUB
    code = begin + asm.i32(0) + asm.get(2) + asm.SUB + asm.AND + asm.tee(4) + asm.get(3) + asm.ADD + asm.set_global(top) + asm.get(4)
    module.export("memory", 2, 0)
    module.export("realloc", 0, module.add([I32] * 4, [I32], code, [(1, I32)]))
    module.export("reset", 0, module.add([], [], asm.i32(heap) + asm.set_global(top)))
    return module.bytes()


def application(groups, shape):
    """The component with a function for each group of calls, and the functions' names as a script calls them."""
    steps = [it for group in groups for it in group]
    keys = {it.function.key for it in steps if it.function} | shape.more
    kinds = {it.args[0].kind for it in steps if not it.function} | shape.more_kinds
    drops = [it for it in KINDS if it in kinds]
    handles = [handle for it in steps for _, handle in it.made]
    imported = world(TABLES, keys, drops, shape.version, shape.uses, shape.labelled, shape.fewer)
    code = Code(imported.rows, drops, 1 + max([it.number for it in handles], default=0))
    main, pages, heap = code.made(groups, shape.post)
    sections = [*imported.sections, core_module(library(pages, heap)), core_instances(of_module(0))]
    sections.append(aliases(from_core(2, 0, "memory"), from_core(0, 0, "realloc"), from_core(0, 0, "reset")))
    options = [memory_option(0), realloc_option(0)]
    lowered = [lower(i, *options) for i in range(len(imported.rows))] + [resource_drop(imported.indexes[kind]) for kind in drops]
    if lowered:
        sections.append(canons(*lowered))
    sections.append(core_module(main))
    names = [key for key, _ in imported.rows] + [f"drop-{kind}" for kind in drops]
    items = of_core_items(*[(name, 0, 2 + i) for i, name in enumerate(names)])
    sections.append(core_instances(items, of_module(1, host=1, library=0)))
    made = [f"f{i}" for i in range(len(groups))]
    sections.append(aliases(*[from_core(0, 2, name) for name in [*made, *(["post"] if shape.post else [])]]))
    sections += exported(imported, made, 2 + len(lowered), shape)
    prefix = f"{IN_INSTANCE}#" if shape.in_instance else ""
    return component(*sections), [prefix + name for name in made]


IN_INSTANCE = "made:application/calls@0.1.0"


def exported(imported, made, first, shape):
    """The sections that lift and export the functions."""
    options = [memory_option(0)] + ([post_option(first + len(made))] if shape.post else [])
    index = imported.next_type
    sections = [types(b"\x70\x7d", func([], leb(index)))]
    sections.append(canons(*[lift(first + i, index + 1, *options) for i in range(len(made))]))
    ours = len(imported.rows)
    if not shape.in_instance:
        return [*sections, exports(*[(name, FUNC, ours + i) for i, name in enumerate(made)])]
    inside = inline(*[(name, FUNC, ours + i) for i, name in enumerate(made)])
    return [*sections, instances(inside), exports((IN_INSTANCE, INSTANCE, imported.instances))]
