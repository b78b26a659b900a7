"""Components whose imports are met by others. Each function fills a component in the making."""

from encoders import (
    a_func,
    an_import,
    borrow,
    call,
    const,
    declares,
    exports_func,
    exports_type,
    func,
    leb,
    local,
    outer_type,
    own,
    prim,
    DROP,
    FUNC,
    INSTANCE,
    TYPE,
    U32,
    U64,
)
from plug.making import const64, core_of, tee
from plug.firsts import EIGHT, ERR, F_U32, IN, LOG, LOOK, NOW, RANDOM, SEVEN, THINGS


def passing(c, f, ty=U32, name="f"):
    """Exports a function that calls this one, which takes nothing and answers a number."""
    core_type = ">L" if ty == U64 else ">i"
    core = c.core(core_of(imports=[("h", "g", core_type)], functions=[(core_type, 0, call(0))], exports=[("f", 0, 1)]), h=[("g", 0, c.lower(f))])
    k = c.core_func(core, "f")
    g = c.lift(k, c.type(func([], prim(ty))))
    c.export(name, FUNC, g)


def asking(c, name=SEVEN, item="get", ty=U32):
    """An import of an instance with one function: its instance and its function."""
    inst = c.imported(name, declares(func([], prim(ty))), exports_func(item, 0))
    return inst, c.alias(FUNC, inst, item)


def asks(c, name=SEVEN, item="get", ty=U32):
    _, f = asking(c, name, item, ty)
    passing(c, f, ty)


def asks_both(c):
    """Of `local:seven/seven` `get` and `put`."""
    inst = c.imported(SEVEN, declares(F_U32), exports_func("get", 0), exports_func("put", 0))
    passing(c, c.alias(FUNC, inst, "get"))


def asks_two(c):
    """Two instances; `f` and `g` answer what `get` of each does."""
    _, f = asking(c)
    _, g = asking(c, EIGHT)
    passing(c, f)
    passing(c, g, name="g")


def asks_function(c, name=SEVEN):
    """A function under the name of an instance."""
    t = c.type(F_U32)
    c.put(10, an_import(name, a_func(t)), "func")
    passing(c, 0)


def hands_on(c, name=SEVEN, item="get", out="i"):
    """Exports the instance that it was given."""
    inst, _ = asking(c, name, item)
    c.export(out, INSTANCE, inst)


def things_declared():
    return [
        exports_type("thing"), declares(own(0)), declares(func([("n", prim(U32))], leb(1))), exports_func("[constructor]thing", 2),
        declares(borrow(0)), declares(func([("self", leb(3))], prim(U32))), exports_func("[method]thing.value", 4),
        declares(F_U32), exports_func("gone", 5),
    ]


def asks_things(c):
    """`once`: makes a thing of 41, calls the method, drops it, and answers what the method did. `twice` drops it once more. `gone` counts."""
    inst = c.imported(THINGS, *things_declared())
    r = c.alias(TYPE, inst, "thing")
    make, value, gone = [c.alias(FUNC, inst, n) for n in ("[constructor]thing", "[method]thing.value", "gone")]
    given = [("make", 0, c.lower(make)), ("value", 0, c.lower(value)), ("gone", 0, c.lower(gone)), ("drop", 0, c.drop(r))]
    once = const(41) + call(0) + tee(0) + call(1) + local(0) + call(3)
    core = c.core(core_of(
        imports=[("h", "make", "i>i"), ("h", "value", "i>i"), ("h", "gone", ">i"), ("h", "drop", "i>")],
        functions=[(">i", 1, once), (">i", 1, once + local(0) + call(3)), (">i", 0, call(2))],
        exports=[("once", 0, 4), ("twice", 0, 5), ("gone", 0, 6)],
    ), h=given)
    ks = [c.core_func(core, n) for n in ("once", "twice", "gone")]
    t = c.type(F_U32)
    fs = [c.lift(k, t) for k in ks]
    for n, f in zip(("once", "twice", "gone"), fs):
        c.export(n, FUNC, f)


def gives_thing_back(c):
    """Exports `f`, which answers a thing of the first's."""
    inst = c.imported(THINGS, *things_declared())
    r = c.alias(TYPE, inst, "thing")
    make = c.lower(c.alias(FUNC, inst, "[constructor]thing"))
    core = c.core(core_of(imports=[("h", "make", "i>i")], functions=[(">i", 0, const(1) + call(0))], exports=[("f", 0, 1)]), h=[("make", 0, make)])
    k = c.core_func(core, "f")
    o = c.type(own(r))
    f = c.lift(k, c.type(func([], leb(o))))
    c.export("f", FUNC, f)


def gives_stream_back(c, met=True):
    """Exports `f`, which answers a stream of the host's."""
    if met:
        asking(c)
    c.host("wasi:io/streams", ["input-stream"])
    _, [get] = c.host("wasi:cli/stdin", ["input-stream"], ["get-stdin"])
    core = c.core(core_of(imports=[("h", "g", ">i")], functions=[(">i", 0, call(0))], exports=[("f", 0, 1)]), h=[("g", 0, c.lower(get))])
    k = c.core_func(core, "f")
    o = c.type(own(c.outside["input-stream"]))
    f = c.lift(k, c.type(func([], leb(o))))
    c.export("f", FUNC, f)


def takes_stream(c, host_first=True):
    """Takes a stream of the first's and drops it."""
    def host():
        c.host("wasi:io/streams", ["input-stream"], fresh=["input-stream"])
        return c.outside["input-stream"]

    if host_first:
        r = host()
        inst = c.imported(IN, outer_type(r), declares(own(0)), declares(func([], leb(1))), exports_func("get", 2))
    else:
        inst = c.imported(IN, exports_type("input-stream"), declares(own(0)), declares(func([], leb(1))), exports_func("get", 2))
        r = c.alias(TYPE, inst, "input-stream")
        host()
    get = c.lower(c.alias(FUNC, inst, "get"))
    drop = c.drop(r)
    core = c.core(core_of(imports=[("h", "g", ">i"), ("h", "d", "i>")], functions=[(">", 0, call(0) + call(1))], exports=[("f", 0, 2)]), h=[("g", 0, get), ("d", 0, drop)])
    c.export("f", FUNC, c.lift(c.core_func(core, "f"), c.type(func([]))))


def same_declared():
    return [exports_type("t"), exports_type("u"), declares(own(0)), declares(func([], leb(2))), exports_func("get", 3)]


def takes_same(c):
    """Two resources, of which the first knows one: what `get` gives is dropped under the other's name."""
    inst = c.imported("local:same/same", *same_declared())
    u = c.alias(TYPE, inst, "u")
    get = c.lower(c.alias(FUNC, inst, "get"))
    core = c.core(core_of(imports=[("h", "g", ">i"), ("h", "d", "i>")], functions=[(">", 0, call(0) + call(1))], exports=[("f", 0, 2)]), h=[("g", 0, get), ("d", 0, c.drop(u))])
    c.export("f", FUNC, c.lift(c.core_func(core, "f"), c.type(func([]))))


def asks_now(c, version="0.2.0", seven=False, shown=()):
    """`f` answers the clock's `now`; with `seven` also `local:seven/seven` is imported, before the clock."""
    if seven:
        asking(c)
    _, [now] = c.host(NOW, list(shown), ["now"], version)
    passing(c, now, U64)


def asks_now_twice(c):
    """The clock at 0.2.0 and at 0.2.6: `f` and `g` answer `now` of each."""
    _, [a] = c.host(NOW, [], ["now"])
    _, [b] = c.host(NOW, [], ["now"], "0.2.6")
    passing(c, a, U64)
    passing(c, b, U64, name="g")


def waiting(c, names):
    """`f` waits, and drops the pollable; the names of parameters are these."""
    c.host("wasi:io/poll", ["pollable"])
    _, [wait] = c.host(NOW, [], ["subscribe-duration"], names=names)
    given = [("w", 0, c.lower(wait)), ("d", 0, c.drop(c.outside["pollable"]))]
    body = const64(0) + call(0) + call(1)
    core = c.core(core_of(imports=[("h", "w", "L>i"), ("h", "d", "i>")], functions=[(">", 0, body)], exports=[("f", 0, 2)]), h=given)
    c.export("f", FUNC, c.lift(c.core_func(core, "f"), c.type(func([]))))


def asks_wait(c):
    """`wasi:io/poll`, and the clock whose waits give a pollable."""
    waiting(c, {})


def waits_named(c):
    """The same beside `local:seven/seven`, with another name of the parameter."""
    asking(c)
    waiting(c, {"subscribe-duration": ["d"]})


def asks_stdin_twice(c, seven=False):
    """Streams and stdin with an input-stream each, as two resources."""
    if seven:
        asking(c)
    c.host("wasi:io/streams", ["input-stream"])
    _, [get] = c.host("wasi:cli/stdin", ["input-stream"], ["get-stdin"], fresh=["input-stream"])
    core = c.core(core_of(imports=[("h", "g", ">i"), ("h", "d", "i>")], functions=[(">", 0, call(0) + call(1))], exports=[("f", 0, 2)]), h=[("g", 0, c.lower(get)), ("d", 0, c.drop(c.outside["input-stream"]))])
    c.export("f", FUNC, c.lift(c.core_func(core, "f"), c.type(func([]))))


def random_and_seven(c, version="0.2.0"):
    """A start function that asks for a random number, and `f`, which answers `get` of `local:seven/seven`."""
    _, g = asking(c)
    _, [draw] = c.host(RANDOM, [], ["get-random-u64"], version)
    given = [("r", 0, c.lower(draw)), ("g", 0, c.lower(g))]
    core = c.core(core_of(imports=[("h", "r", ">L"), ("h", "g", ">i")], functions=[(">", 0, call(0) + DROP), (">i", 0, call(1))], exports=[("f", 0, 3)], start=2), h=given)
    c.export("f", FUNC, c.lift(c.core_func(core, "f"), c.type(F_U32)))


def uses_log(c):
    """Gives the host's stdout to a log, and drops the log."""
    c.host("wasi:io/streams", ["output-stream"])
    _, [get] = c.host("wasi:cli/stdout", ["output-stream"], ["get-stdout"])
    s = c.outside["output-stream"]
    inst = c.imported(LOG, exports_type("log"), outer_type(s), declares(own(1)), declares(own(0)), declares(func([("to", leb(2))], leb(3))), exports_func("[constructor]log", 4))
    log = c.alias(TYPE, inst, "log")
    make = c.alias(FUNC, inst, "[constructor]log")
    given = [("o", 0, c.lower(get)), ("m", 0, c.lower(make)), ("d", 0, c.drop(log))]
    core = c.core(core_of(imports=[("h", "o", ">i"), ("h", "m", "i>i"), ("h", "d", "i>")], functions=[(">", 0, call(0) + call(1) + call(2))], exports=[("f", 0, 3)]), h=given)
    c.export("f", FUNC, c.lift(c.core_func(core, "f"), c.type(func([]))))


def lends(c):
    """Lends the first a pollable of the host's clock, and drops it."""
    c.host("wasi:io/poll", ["pollable"])
    _, [wait] = c.host(NOW, [], ["subscribe-duration"])
    p = c.outside["pollable"]
    inst = c.imported(LOOK, outer_type(p), declares(borrow(0)), declares(func([("it", leb(1))])), exports_func("look", 2))
    look = c.alias(FUNC, inst, "look")
    given = [("w", 0, c.lower(wait)), ("l", 0, c.lower(look)), ("d", 0, c.drop(p))]
    core = c.core(core_of(imports=[("h", "w", "L>i"), ("h", "l", "i>"), ("h", "d", "i>")], functions=[(">", 1, const64(0) + call(0) + tee(0) + call(1) + local(0) + call(2))], exports=[("f", 0, 3)]), h=given)
    c.export("f", FUNC, c.lift(c.core_func(core, "f"), c.type(func([]))))


RANDOM_64 = "get-random-u64"

# an instance with one function that answers a number: its name, the function, and the number's type
ONE_FUNCTION = {
    "w": (RANDOM + "@0.2.0", RANDOM_64, U32),
    "n": (NOW + "@0.2.0", "now", U64),
    "t": (NOW + "@0.2.6", "now", U64),
    "tw": (NOW + "@0.2.6", "now", U32),
    "s": (SEVEN, "get", U32),
    "x": (SEVEN, "get", U64),
}


def some(c, *names):
    """Imports in this order: `u` is unlisted, the others have one function."""
    for it in names:
        if it == "u":
            c.imported("local:a/b")
        else:
            name, function, ty = ONE_FUNCTION[it]
            c.imported(name, declares(func([], prim(ty))), exports_func(function, 0))


def shows_type(c):
    """`f` answers the clock's `now`; exports a type besides, and `local:seven/seven` is imported."""
    asks_now(c, seven=True)
    c.export("t", TYPE, c.type(prim(0x7D)))


def asks_resolution(c):
    """The clock's `resolution`, with its type: `g` answers it, and `f` what `get` does."""
    _, g = asking(c)
    _, [r] = c.host(NOW, ["duration"], ["resolution"])
    passing(c, g, name="f")
    passing(c, r, U64, name="g")


def takes_stderr(c):
    """Takes the first's stream and the host's stdout, which is of its kind, and drops both."""
    inst = c.imported(ERR, exports_type("output-stream"), declares(own(0)), declares(func([], leb(1))), exports_func("get", 2))
    r = c.outside["output-stream"] = c.alias(TYPE, inst, "output-stream")
    err = c.alias(FUNC, inst, "get")
    _, [get] = c.host("wasi:cli/stdout", [], ["get-stdout"])
    given = [("e", 0, c.lower(err)), ("o", 0, c.lower(get)), ("d", 0, c.drop(r))]
    core = c.core(core_of(imports=[("h", "e", ">i"), ("h", "o", ">i"), ("h", "d", "i>")], functions=[(">", 0, call(0) + call(2) + call(1) + call(2))], exports=[("f", 0, 3)]), h=given)
    c.export("f", FUNC, c.lift(c.core_func(core, "f"), c.type(func([]))))
