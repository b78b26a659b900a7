"""Components that others are plugged into: what each exports, and what it asks of the host. Each function fills a component in the making."""

from encoders import (
    an_instance,
    borrow,
    call,
    const,
    exports_type,
    func,
    instance_type,
    leb,
    local,
    own,
    prim,
    DROP,
    FUNC,
    INSTANCE,
    TYPE,
    U32,
    U64,
)
from plug.making import Making, const64, core_of, ADD, ADD64, GLOBAL, SET_GLOBAL

SEVEN, EIGHT = "local:seven/seven", "local:eight/eight"
NOW = "wasi:clocks/monotonic-clock"
F_U32, F_U64 = func([], prim(U32)), func([], prim(U64))


def answering(c, numbers):
    """Functions without parameters that answer these numbers: their indexes."""
    names = "abcdef"[: len(numbers)]
    core = c.core(core_of(functions=[(">i", 0, const(n)) for n in numbers], exports=[(n, 0, i) for i, n in enumerate(names)]))
    cores = [c.core_func(core, n) for n in names]
    ty = c.type(F_U32)
    return [c.lift(k, ty) for k in cores]


def gives(c, name=SEVEN, **items):
    """An instance with functions that answer numbers."""
    fs = answering(c, list(items.values()))
    c.export(name, INSTANCE, c.inline(*[(n, FUNC, f) for n, f in zip(items, fs)]))


def gives_two(c):
    fs = answering(c, [7, 8])
    seven = c.inline(("get", FUNC, fs[0]))
    eight = c.inline(("get", FUNC, fs[1]))
    c.export(SEVEN, INSTANCE, seven)
    c.export(EIGHT, INSTANCE, eight)


def gives_function(c, name=SEVEN):
    c.export(name, FUNC, answering(c, [7])[0])


def gives_type(c, name):
    """`gives`, and a type of this name."""
    gives(c, get=7)
    c.export(name, TYPE, c.type(prim(U64)))


def gives_mute(c):
    """`gives`, and a resource at the outermost level."""
    gives(c, get=7)
    r = c.type(b"\x3f\x7f\0")
    c.export("r", TYPE, r)


def thing_inner():
    """A resource with a constructor, a method and a destructor that counts: `gone` answers how many are gone."""
    c = Making()
    counts = c.core(core_of(
        functions=[("i>", 0, GLOBAL + const(1) + ADD + SET_GLOBAL), (">i", 0, GLOBAL)],
        globals_=[0], exports=[("drop", 0, 0), ("gone", 0, 1)],
    ))
    gone = c.core_func(counts, "drop")
    count = c.core_func(counts, "gone")
    r = c.type(b"\x3f\x7f\1" + leb(gone))
    new = c.new(r)
    makes = c.core(core_of(
        imports=[("r", "new", "i>i")],
        functions=[("i>i", 0, local(0) + call(0)), ("i>i", 0, local(0) + const(1) + ADD)],
        exports=[("make", 0, 1), ("value", 0, 2)],
    ), r=[("new", 0, new)])
    make, value = c.core_func(makes, "make"), c.core_func(makes, "value")
    shown = c.export("thing", TYPE, r)
    o = c.type(own(shown))
    t_make = c.type(func([("n", prim(U32))], leb(o)))
    b = c.type(borrow(shown))
    t_value = c.type(func([("self", leb(b))], prim(U32)))
    t_gone = c.type(F_U32)
    c.export("[constructor]thing", FUNC, c.lift(make, t_make))
    c.export("[method]thing.value", FUNC, c.lift(value, t_value))
    c.export("gone", FUNC, c.lift(count, t_gone))
    return c.bytes()


THINGS = "local:seven/things"


def gives_things(c):
    """Things, and `local:seven/seven` whose `get` answers 7."""
    things = c.instance(c.nested(thing_inner()))
    fs = answering(c, [7])
    seven = c.inline(("get", FUNC, fs[0]))
    c.export(SEVEN, INSTANCE, seven)
    c.export(THINGS, INSTANCE, things)


def gives_same(c):
    """One resource under two names."""
    r = c.type(b"\x3f\x7f\0")
    new = c.new(r)
    core = c.core(core_of(imports=[("r", "new", "i>i")], functions=[(">i", 0, const(5) + call(0))], exports=[("f", 0, 1)]), r=[("new", 0, new)])
    k = c.core_func(core, "f")
    o = c.type(own(r))
    f = c.lift(k, c.type(func([], leb(o))))
    c.export("local:same/same", INSTANCE, c.inline(("t", TYPE, r), ("u", TYPE, r), ("get", FUNC, f)))


IN = "local:in/in"


def gives_stdin(c, typed=False):
    """`get` of the host's stdin, handed on."""
    c.host("wasi:io/streams", ["input-stream"])
    _, [get] = c.host("wasi:cli/stdin", ["input-stream"], ["get-stdin"])
    items = [("get", FUNC, get)]
    if typed:
        items = [("input-stream", TYPE, c.outside["input-stream"]), *items]
    c.export(IN, INSTANCE, c.inline(*items))


def gives_stdout(c):
    """`get` of the host's stdout under the same name."""
    c.host("wasi:io/streams", ["output-stream"])
    _, [get] = c.host("wasi:cli/stdout", ["output-stream"], ["get-stdout"])
    c.export(IN, INSTANCE, c.inline(("get", FUNC, get)))


def gives_stdin_itself(c):
    """Takes the host's stdin and gives it on through its own table."""
    c.host("wasi:io/streams", ["input-stream"])
    _, [get] = c.host("wasi:cli/stdin", ["input-stream"], ["get-stdin"])
    low = c.lower(get)
    core = c.core(core_of(imports=[("h", "g", ">i")], functions=[(">i", 0, call(0))], exports=[("f", 0, 1)]), h=[("g", 0, low)])
    k = c.core_func(core, "f")
    o = c.type(own(c.outside["input-stream"]))
    f = c.lift(k, c.type(func([], leb(o))))
    c.export(IN, INSTANCE, c.inline(("get", FUNC, f)))


def clock_plus(c, imported=True, value=5):
    """The clock: the host's and one, or a number."""
    if imported:
        _, [now] = c.host(NOW, [], ["now"])
        core = c.core(core_of(imports=[("h", "n", ">L")], functions=[(">L", 0, call(0) + const64(1) + ADD64)], exports=[("n", 0, 1)]), h=[("n", 0, c.lower(now))])
    else:
        core = c.core(core_of(functions=[(">L", 0, const64(value))], exports=[("n", 0, 0)]))
    k = c.core_func(core, "n")
    f = c.lift(k, c.type(F_U64))
    c.export(NOW + "@0.2.0", INSTANCE, c.inline(("now", FUNC, f)))


def clock_short(c):
    """A clock with `resolution` alone."""
    core = c.core(core_of(functions=[(">L", 0, const64(1))], exports=[("n", 0, 0)]))
    f = c.lift(c.core_func(core, "n"), c.type(F_U64))
    c.export(NOW + "@0.2.0", INSTANCE, c.inline(("resolution", FUNC, f)))


def clock_u32(c):
    fs = answering(c, [5])
    c.export(NOW + "@0.2.0", INSTANCE, c.inline(("now", FUNC, fs[0])))


def own_poll(c, clock=False):
    """A `pollable` of its own, and a clock whose waits give one."""
    r = c.type(b"\x3f\x7f\0")
    c.export("wasi:io/poll@0.2.0", INSTANCE, c.inline(("pollable", TYPE, r)))
    if clock:
        new = c.new(r)
        core = c.core(core_of(imports=[("r", "new", "i>i")], functions=[("L>i", 0, const(5) + call(0))], exports=[("s", 0, 1)]), r=[("new", 0, new)])
        k = c.core_func(core, "s")
        o = c.type(own(r))
        f = c.lift(k, c.type(func([("a", prim(U64))], leb(o))))
        c.export(NOW + "@0.2.0", INSTANCE, c.inline(("subscribe-duration", FUNC, f)))


def handed_poll(c, fresh=False):
    """The host's `wasi:io/poll`, exported as it is, or with a fresh resource stated."""
    inst, _ = c.host("wasi:io/poll", ["pollable"])
    stated = an_instance(c.type(instance_type(exports_type("pollable")))) if fresh else None
    c.export("wasi:io/poll@0.2.0", INSTANCE, inst, stated)


def handed_streams(c):
    inst, _ = c.host("wasi:io/streams", ["input-stream"])
    c.export("wasi:io/streams@0.2.0", INSTANCE, inst)


RANDOM = "wasi:random/random"


def random_start(c, interface=RANDOM, name="get-random-u64"):
    """`gives`, and a start function that asks for a random number."""
    _, [draw] = c.host(interface, [], [name])
    low = c.lower(draw)
    core = c.core(core_of(imports=[("h", "r", ">L")], functions=[(">", 0, call(0) + DROP), (">i", 0, const(7))], exports=[("g", 0, 2)], start=1), h=[("r", 0, low)])
    f = c.lift(c.core_func(core, "g"), c.type(F_U32))
    c.export(SEVEN, INSTANCE, c.inline(("get", FUNC, f)))


def random_get(c, version="0.2.0"):
    """`local:seven/seven` whose `get` answers a random number."""
    _, [draw] = c.host(RANDOM, [], ["get-random-u64"], version)
    low = c.lower(draw)
    core = c.core(core_of(imports=[("h", "r", ">L")], functions=[(">L", 0, call(0))], exports=[("g", 0, 1)]), h=[("r", 0, low)])
    f = c.lift(c.core_func(core, "g"), c.type(F_U64))
    c.export(SEVEN, INSTANCE, c.inline(("get", FUNC, f)))


LOG = "local:log/log"


def keeper_inner(kind="output-stream", interface="wasi:io/streams"):
    """A component whose resource keeps an own stream, and drops it as it goes."""
    c = Making()
    c.host(interface, [kind])
    drop = c.drop(c.outside[kind])
    gone = c.core(core_of(imports=[("h", "d", "i>")], functions=[("i>", 0, local(0) + call(0))], exports=[("gone", 0, 1)]), h=[("d", 0, drop)])
    r = c.type(b"\x3f\x7f\1" + leb(c.core_func(gone, "gone")))
    new = c.new(r)
    makes = c.core(core_of(imports=[("r", "new", "i>i")], functions=[("i>i", 0, local(0) + call(0))], exports=[("make", 0, 1)]), r=[("new", 0, new)])
    make = c.core_func(makes, "make")
    shown = c.export("log", TYPE, r)
    s = c.type(own(c.outside[kind]))
    o = c.type(own(shown))
    t = c.type(func([("to", leb(s))], leb(o)))
    c.export("[constructor]log", FUNC, c.lift(make, t))
    return c.bytes()


def gives_log(c):
    """A log that owns the stream that it is given."""
    inst, _ = c.host("wasi:io/streams", ["output-stream"])
    log = c.instance(c.nested(keeper_inner()), ("wasi:io/streams@0.2.0", INSTANCE, inst))
    c.export(LOG, INSTANCE, log)


LOOK = "local:look/look"


def gives_look(c, drops):
    """`look` takes a host's pollable for the call; it drops it, or keeps it."""
    c.host("wasi:io/poll", ["pollable"])
    drop = c.drop(c.outside["pollable"])
    core = c.core(core_of(imports=[("h", "d", "i>")], functions=[("i>", 0, local(0) + call(0) if drops else b"")], exports=[("look", 0, 1)]), h=[("d", 0, drop)])
    k = c.core_func(core, "look")
    b = c.type(borrow(c.outside["pollable"]))
    f = c.lift(k, c.type(func([("it", leb(b))])))
    c.export(LOOK, INSTANCE, c.inline(("look", FUNC, f)))


def now_shown(c):
    """Imports the clock's `now`, with its type, and gives 7."""
    c.host(NOW, ["instant"], ["now"])
    gives(c, get=7)


def waits7(c):
    """Imports `subscribe-duration`, whose parameter is `when`, and gives 7."""
    c.host("wasi:io/poll", ["pollable"])
    c.host(NOW, [], ["subscribe-duration"], names={"subscribe-duration": ["when"]})
    gives(c, get=7)


ERR = "local:err/err"


def gives_stderr(c):
    """The host's stderr, handed on with its type."""
    _, [get] = c.host("wasi:cli/stderr", ["output-stream"], ["get-stderr"])
    c.export(ERR, INSTANCE, c.inline(("output-stream", TYPE, c.outside["output-stream"]), ("get", FUNC, get)))
