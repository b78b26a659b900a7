#!/usr/bin/env python3
"""Writes the small components of crates/engine_rows that show handles, instances in one another and closed instances.

usage: tools/run_components.py FOLDER
"""

import sys

from encoders import (
    aliases,
    an_instance,
    borrow,
    call,
    canons,
    component,
    const,
    core_instances,
    core_module,
    declares,
    exports,
    exports_func,
    exports_type,
    from_core,
    from_instance,
    func,
    imports,
    instance_type,
    instances,
    leb,
    lift,
    local,
    lower,
    memory_option,
    module,
    nested,
    of_component,
    of_core_items,
    of_module,
    option,
    outer_type,
    own,
    post_option,
    prim,
    realloc_option,
    resource_drop,
    resource_new,
    result,
    types,
    write_all,
    DROP,
    FUNC,
    INSTANCE,
    STRING,
    TYPE,
    U32,
)

# a host with things that can be opened, looked at and given away
THINGS = instance_type(
    exports_type("thing"),
    declares(own(0)),
    declares(func([], leb(1))),
    exports_func("open", 2),
    declares(borrow(0)),
    declares(func([("it", leb(3))], prim(U32))),
    exports_func("look", 4),
    declares(func([("it", leb(1))])),
    exports_func("take", 5),
)

# a host that is told numbers, and that has a name
LOG = instance_type(
    declares(func([("number", prim(U32))])),
    exports_func("log", 0),
    declares(func([], prim(STRING))),
    exports_func("name", 1),
)

NONE, ONE, GIVES, BOTH = (0, 0), (1, 0), (0, 1), (1, 1)


def things():
    """Handles of the host: used, given away, and dropped where there is none."""
    open_, look, take, drop = 0, 1, 2, 3
    main = module(
        imports=[("host", "open", GIVES), ("host", "look", BOTH), ("host", "take", ONE), ("host", "drop", ONE)],
        functions=[
            (GIVES, 1, call(open_) + b"\x22\0" + call(look) + local(0) + call(drop)),
            (NONE, 0, call(open_) + call(take)),
            (NONE, 0, const(1) + call(drop)),
            (NONE, 1, call(open_) + b"\x22\0" + call(drop) + local(0) + call(drop)),
            (GIVES, 1, call(open_) + b"\x22\0" + call(take) + local(0) + call(look)),
            (GIVES, 0, call(open_) + DROP + call(open_) + call(look)),
        ],
        exports=[("once", 0, 4), ("give", 0, 5), ("never", 0, 6), ("twice", 0, 7), ("given", 0, 8), ("two", 0, 9)],
    )
    names = ["once", "give", "never", "twice", "given", "two"]
    gives = {"once", "given", "two"}
    return component(
        types(THINGS),
        imports(("test:host/things", an_instance(0))),
        aliases(from_instance(TYPE, 0, "thing"), from_instance(FUNC, 0, "open"), from_instance(FUNC, 0, "look"), from_instance(FUNC, 0, "take")),
        canons(lower(0), lower(1), lower(2), resource_drop(1)),
        core_module(main),
        core_instances(of_core_items(("open", 0, 0), ("look", 0, 1), ("take", 0, 2), ("drop", 0, 3)), of_module(0, host=0)),
        aliases(*[from_core(0, 1, n) for n in names]),
        types(func([], prim(U32)), func([])),
        canons(*[lift(4 + i, 2 if n in gives else 3) for i, n in enumerate(names)]),
        exports(*[(n, FUNC, 3 + i) for i, n in enumerate(names)]),
    )


def lent():
    """A start function calls a function of its own instance and lends it a handle, which is dropped there."""
    served = module(imports=[("host", "drop", ONE)], functions=[(ONE, 0, const(1) + call(0))], exports=[("f", 0, 1)])
    starts = module(imports=[("host", "open", GIVES), ("host", "f", ONE)], functions=[(NONE, 0, call(0) + call(1))], exports=[], start=2)
    return component(
        types(THINGS),
        imports(("test:host/things", an_instance(0))),
        aliases(from_instance(TYPE, 0, "thing"), from_instance(FUNC, 0, "open")),
        canons(lower(0), resource_drop(1)),
        core_module(served),
        core_instances(of_core_items(("drop", 0, 1)), of_module(0, host=0)),
        aliases(from_core(0, 1, "f")),
        types(borrow(1), func([("it", leb(2))])),
        canons(lift(2, 3), lower(1)),
        core_module(starts),
        core_instances(of_core_items(("open", 0, 0), ("f", 0, 3)), of_module(1, host=2)),
    )


def owner():
    """A component in another defines a resource, whose destructor tells the host of it."""
    log = 0
    core = module(
        imports=[("host", "log", ONE)],
        functions=[(ONE, 0, local(0) + call(log))],
        exports=[("gone", 0, 1)],
    )
    makes = module(
        imports=[("own", "new", BOTH)],
        functions=[(BOTH, 0, local(0) + call(0)), (BOTH, 0, local(0) + const(1) + b"\x6a")],
        exports=[("make", 0, 1), ("value", 0, 2)],
    )
    inner = component(
        types(LOG),
        imports(("log", an_instance(0))),
        aliases(from_instance(FUNC, 0, "log")),
        canons(lower(0)),
        core_module(core),
        core_instances(of_core_items(("log", 0, 0)), of_module(0, host=0)),
        aliases(from_core(0, 1, "gone")),
        # the resource, with its destructor
        types(b"\x3f\x7f\1" + leb(1)),
        canons(resource_new(1)),
        core_module(makes),
        core_instances(of_core_items(("new", 0, 2)), of_module(1, own=2)),
        aliases(from_core(0, 3, "make"), from_core(0, 3, "value")),
        exports(("r", TYPE, 1)),
        types(own(2), func([("number", prim(U32))], leb(3)), borrow(2), func([("it", leb(5))], prim(U32))),
        canons(lift(3, 4), lift(4, 6)),
        exports(("make", FUNC, 1), ("value", FUNC, 2)),
    )
    main = module(
        imports=[("r", "make", BOTH), ("r", "value", BOTH), ("r", "drop", ONE)],
        functions=[
            (BOTH, 1, local(0) + call(0) + b"\x22\1" + call(1) + local(1) + call(2)),
            (BOTH, 1, local(0) + call(0) + b"\x22\1" + call(2) + local(1) + call(1)),
        ],
        exports=[("use", 0, 3), ("gone", 0, 4)],
    )
    return component(
        types(LOG),
        imports(("test:host/log", an_instance(0))),
        nested(inner),
        instances(of_component(0, ("log", INSTANCE, 0))),
        aliases(from_instance(TYPE, 1, "r"), from_instance(FUNC, 1, "make"), from_instance(FUNC, 1, "value")),
        canons(lower(0), lower(1), resource_drop(1)),
        core_module(main),
        core_instances(of_core_items(("make", 0, 0), ("value", 0, 1), ("drop", 0, 2)), of_module(0, r=0)),
        aliases(from_core(0, 1, "use"), from_core(0, 1, "gone")),
        types(func([("number", prim(U32))], prim(U32))),
        canons(lift(3, 2), lift(4, 2)),
        exports(("use", FUNC, 2), ("gone", FUNC, 3)),
    )


def nested_calls():
    """A component calls one in it, which calls back: where the outer one is entered, that traps."""
    back = module(functions=[(GIVES, 0, const(5))], exports=[("back", 0, 0)])
    inside = module(imports=[("outer", "back", GIVES)], functions=[(GIVES, 0, call(0)), (GIVES, 0, const(6))], exports=[("calls-back", 0, 1), ("answers", 0, 2)])
    inner = component(
        types(func([], prim(U32))),
        imports(("back", b"\1" + leb(0))),
        canons(lower(0)),
        core_module(inside),
        core_instances(of_core_items(("back", 0, 0)), of_module(0, outer=0)),
        aliases(from_core(0, 1, "calls-back"), from_core(0, 1, "answers")),
        canons(lift(1, 0), lift(2, 0)),
        exports(("calls-back", FUNC, 1), ("answers", FUNC, 2)),
    )
    main = module(
        imports=[("inner", "calls-back", GIVES), ("inner", "answers", GIVES)],
        functions=[(GIVES, 0, call(0)), (GIVES, 0, call(1))],
        exports=[("re-enters", 0, 2), ("asks", 0, 3)],
    )
    return component(
        core_module(back),
        core_instances(of_module(0)),
        aliases(from_core(0, 0, "back")),
        types(func([], prim(U32))),
        canons(lift(0, 0)),
        nested(inner),
        instances(of_component(0, ("back", FUNC, 0))),
        aliases(from_instance(FUNC, 0, "calls-back"), from_instance(FUNC, 0, "answers")),
        canons(lower(1), lower(2)),
        core_module(main),
        core_instances(of_core_items(("calls-back", 0, 1), ("answers", 0, 2)), of_module(1, inner=1)),
        aliases(from_core(0, 2, "re-enters"), from_core(0, 2, "asks")),
        canons(lift(3, 0), lift(4, 0)),
        # the inner function that calls back may be called from outside: the outer instance is not entered then
        exports(("re-enters", FUNC, 3), ("asks", FUNC, 4), ("calls-back", FUNC, 1)),
    )


def starts():
    """A start function calls the host."""
    main = module(imports=[("host", "log", ONE)], functions=[(NONE, 0, const(3) + call(0))], exports=[], start=1)
    return component(
        types(LOG),
        imports(("test:host/log", an_instance(0))),
        aliases(from_instance(FUNC, 0, "log")),
        canons(lower(0)),
        core_module(main),
        core_instances(of_core_items(("log", 0, 0)), of_module(0, host=0)),
    )


def closed():
    """A realloc and a post-return run while their instance is closed: what they import traps."""
    log = 0
    library = module(
        imports=[("host", "log", ONE)],
        functions=[((4, 1), 0, const(1) + call(log) + const(64)), (ONE, 0, const(2) + call(log)), (ONE, 0, b"")],
        exports=[("memory", 2, 0), ("realloc", 0, 1), ("post", 0, 2), ("quiet", 0, 3)],
        memory=True,
    )
    main = module(
        imports=[("host", "name", ONE), ("host", "log", ONE)],
        functions=[(NONE, 0, const(16) + call(0)), (GIVES, 0, const(9)), (GIVES, 0, const(8) + const(4) + call(1))],
        exports=[("asks", 0, 2), ("returns", 0, 3), ("logs", 0, 4)],
    )
    return component(
        types(LOG),
        imports(("test:host/log", an_instance(0))),
        aliases(from_instance(FUNC, 0, "log"), from_instance(FUNC, 0, "name")),
        canons(lower(0)),
        core_module(library),
        core_instances(of_core_items(("log", 0, 0)), of_module(0, host=0)),
        aliases(from_core(2, 1, "memory"), from_core(0, 1, "realloc"), from_core(0, 1, "post"), from_core(0, 1, "quiet")),
        canons(lower(1, memory_option(0), realloc_option(1))),
        core_module(main),
        core_instances(of_core_items(("name", 0, 4), ("log", 0, 0)), of_module(1, host=2)),
        aliases(from_core(0, 3, "asks"), from_core(0, 3, "returns"), from_core(0, 3, "logs")),
        types(func([]), func([], prim(U32))),
        canons(lift(5, 1), lift(6, 2, post_option(2)), lift(7, 2, post_option(3)), lift(6, 2, post_option(3))),
        exports(("asks", FUNC, 2), ("returns-badly", FUNC, 3), ("logs", FUNC, 4), ("returns", FUNC, 5)),
    )


def lent_stream():
    """The same as `lent` with a stream of the standard input."""
    served = module(imports=[("host", "drop", ONE)], functions=[(ONE, 0, const(1) + call(0))], exports=[("f", 0, 1)])
    starts = module(imports=[("host", "open", GIVES), ("host", "f", ONE)], functions=[(NONE, 0, call(0) + call(1))], exports=[], start=2)
    return component(
        types(instance_type(exports_type("input-stream"))),
        imports(("wasi:io/streams@0.2.0", an_instance(0))),
        aliases(from_instance(TYPE, 0, "input-stream")),
        types(instance_type(outer_type(1), declares(own(0)), declares(func([], leb(1))), exports_func("get-stdin", 2))),
        imports(("wasi:cli/stdin@0.2.0", an_instance(2))),
        aliases(from_instance(FUNC, 1, "get-stdin")),
        canons(lower(0), resource_drop(1)),
        core_module(served),
        core_instances(of_core_items(("drop", 0, 1)), of_module(0, host=0)),
        aliases(from_core(0, 1, "f")),
        types(borrow(1), func([("it", leb(3))])),
        canons(lift(2, 4), lower(1)),
        core_module(starts),
        core_instances(of_core_items(("open", 0, 0), ("f", 0, 3)), of_module(1, host=2)),
    )


def realloc_exits():
    """A realloc asks for the end of the program while a text of the host is lowered."""
    library = module(
        imports=[("host", "exit", ONE)],
        functions=[((4, 1), 0, const(0) + call(0) + const(64))],
        exports=[("memory", 2, 0), ("realloc", 0, 1)],
        memory=True,
    )
    main = module(imports=[("host", "cwd", ONE)], functions=[(NONE, 0, const(16) + call(0))], exports=[("f", 0, 1)])
    return component(
        types(
            instance_type(declares(option(prim(STRING))), declares(func([], leb(0))), exports_func("initial-cwd", 1)),
            instance_type(declares(result()), declares(func([("status", leb(0))])), exports_func("exit", 1)),
        ),
        imports(("wasi:cli/environment@0.2.0", an_instance(0)), ("wasi:cli/exit@0.2.0", an_instance(1))),
        aliases(from_instance(FUNC, 0, "initial-cwd"), from_instance(FUNC, 1, "exit")),
        canons(lower(1)),
        core_module(library),
        core_instances(of_core_items(("exit", 0, 0)), of_module(0, host=0)),
        aliases(from_core(2, 1, "memory"), from_core(0, 1, "realloc")),
        canons(lower(0, memory_option(0), realloc_option(1))),
        core_module(main),
        core_instances(of_core_items(("cwd", 0, 2)), of_module(1, host=2)),
        aliases(from_core(0, 3, "f")),
        types(func([])),
        canons(lift(3, 2)),
        exports(("f", FUNC, 2)),
    )


MADE = {
    "things": things,
    "lent": lent,
    "lent_stream": lent_stream,
    "owner": owner,
    "nested_calls": nested_calls,
    "starts": starts,
    "closed": closed,
    "realloc_exits": realloc_exits,
}


if __name__ == "__main__":
    if len(sys.argv) != 2 or sys.argv[1].startswith("-"):
        sys.exit(__doc__)
    write_all(sys.argv[1], ((name, made()) for name, made in MADE.items()))
