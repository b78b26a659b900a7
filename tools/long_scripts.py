#!/usr/bin/env python3
"""Writes what the measures of long scripts take: a component with many exports, one that calls its host as often as it is told, and
scripts for them.

usage: tools/long_scripts.py FOLDER [EXPORTS] [CALLS] [ANSWERS]: without numbers, 20,000 exports, 100,000 calls and 1,000,000 answers.
"""
import os
import sys

from run_components import (
    FUNC,
    GIVES,
    INSTANCE,
    ONE,
    U32,
    aliases,
    an_instance,
    canons,
    component,
    const,
    core_instances,
    core_module,
    declares,
    exports,
    exports_func,
    from_core,
    from_instance,
    func,
    imports,
    instance_type,
    lift,
    local,
    lower,
    call,
    module,
    of_core_items,
    of_module,
    prim,
    types,
)


def names(count):
    return [f"call-n{n:05}" for n in range(count)]


def many_exports(count):
    """A component with that many functions, each of which returns its number."""
    all_names = names(count)
    main = module(functions=[(GIVES, 0, const(n)) for n in range(count)], exports=[(name, 0, n) for n, name in enumerate(all_names)])
    return component(
        core_module(main),
        core_instances(of_module(0)),
        aliases(*[from_core(0, 0, name) for name in all_names]),
        types(func([], prim(U32))),
        canons(*[lift(n, 0) for n in range(count)]),
        exports(*[(name, FUNC, n) for n, name in enumerate(all_names)]),
    )


# a host that gives numbers
ASKED = instance_type(declares(func([], prim(U32))), exports_func("next", 0))


def asks():
    """A component that asks its host so often for a number."""
    # loop: next, dropped; the count less one; again unless it is zero
    body = b"\x03\x40" + call(0) + b"\x1a" + local(0) + const(1) + b"\x6b\x22\x00\x0d\x00\x0b"
    main = module(imports=[("host", "next", GIVES)], functions=[(ONE, 0, body)], exports=[("ask", 0, 1)])
    return component(
        types(ASKED),
        imports(("test:host/numbers", an_instance(0))),
        aliases(from_instance(FUNC, 0, "next")),
        canons(lower(0)),
        core_module(main),
        core_instances(of_core_items(("next", 0, 0)), of_module(0, host=0)),
        aliases(from_core(0, 1, "ask")),
        types(func([("times", prim(U32))])),
        canons(lift(1, 1)),
        exports(("ask", FUNC, 1)),
    )


def script(answers, calls):
    return f'{{"answers":[{",".join(answers)}],"calls":[{",".join(calls)}]}}'.encode()


def main(folder, count=20_000, calls=100_000, answers=1_000_000):
    made = {
        "many_exports.wasm": many_exports(count),
        "first.json": script([], [f'["{names(count)[0]}",[]]'] * calls),
        "last.json": script([], [f'["{names(count)[-1]}",[]]'] * calls),
        "middle.json": script([], [f'["{names(count)[count // 2]}",[]]'] * calls),
        "asks.wasm": asks(),
        "asked.json": script(['{"value":0}'] * answers, [f'["ask",[{answers}]]']),
        "unasked.json": script(['{"value":0}'] * answers, []),
        "trapped.json": script(['"trap"'] * answers, []),
        "empty_answers.json": script(["{}"] * answers, []),
    }
    for name, held in made.items():
        with open(os.path.join(folder, name), "wb") as file:
            file.write(held)


if __name__ == "__main__":
    main(sys.argv[1], *map(int, sys.argv[2:]))
