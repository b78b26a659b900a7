#!/usr/bin/env python3
"""Writes components whose types are small as they are shared and large when they are written out.

usage: tools/hostile_types.py FOLDER
"""

import sys

from encoders import FUNC, INSTANCE, TYPE, a_func, an_export, an_import, an_instance, component, func, inline, leb, many, of_component, own, pair_of, section, section_of, signed, text, write_all

COMPONENTS, INSTANCES, TYPES, IMPORTS, EXPORTS = 4, 5, 7, 10, 11
U8 = b"\x7d"
RESOURCE = b"\x3f\x7f\x00"
SUB_RESOURCE = b"\x03\x01"


def nested(sections):
    return section(COMPONENTS, component(*sections))


def over(index):
    return func([("x", signed(index))])


# ---- instances

BASE = [section_of(TYPES, [RESOURCE]), section_of(EXPORTS, [an_export("r", TYPE, 0)])]


def twice(levels):
    """Components in one another; each exports the instance of the one in it twice."""
    inner = BASE
    for _ in range(levels):
        inner = [
            nested(inner),
            section_of(INSTANCES, [of_component(0)]),
            section_of(EXPORTS, [an_export("a", INSTANCE, 0), an_export("b", INSTANCE, 0)]),
        ]
    return inner


def apart(levels):
    """As before, but that the two stand in instances of their own."""
    inner = BASE
    for _ in range(levels):
        inner = [
            nested(inner),
            section_of(INSTANCES, [of_component(0), inline(("x", INSTANCE, 0)), inline(("y", INSTANCE, 0))]),
            section_of(EXPORTS, [an_export("a", INSTANCE, 1), an_export("b", INSTANCE, 2)]),
        ]
    return inner


def flat(levels):
    """One component with inline instances, each with the one before it twice; it is instantiated once."""
    made = [inline(("r", TYPE, 0))]
    made += [inline(("a", INSTANCE, i), ("b", INSTANCE, i)) for i in range(levels)]
    inner = [
        section_of(TYPES, [RESOURCE]),
        section_of(INSTANCES, made),
        section_of(EXPORTS, [an_export("i", INSTANCE, levels)]),
    ]
    return [nested(inner), section_of(INSTANCES, [of_component(0)])]


def chain(levels):
    """One component with inline instances in one another; it is instantiated once."""
    made = [inline(("r", TYPE, 0))]
    made += [inline(("a", INSTANCE, i)) for i in range(levels)]
    inner = [
        section_of(TYPES, [RESOURCE]),
        section_of(INSTANCES, made),
        section_of(EXPORTS, [an_export("i", INSTANCE, levels)]),
    ]
    return [nested(inner), section_of(INSTANCES, [of_component(0)])]


def kept(levels):
    """Inline instances in one another, without resources, that nothing instantiates."""
    made = [inline()] + [inline(("a", INSTANCE, i)) for i in range(levels)]
    return [section_of(INSTANCES, made)]


# ---- instance types


def doubling(levels):
    """Instance types; each exports an instance of the one before it twice, and so twice as many resources."""
    made = [b"\x42" + many([b"\x04" + an_import("r", SUB_RESOURCE)])]
    for i in range(levels):
        outer = b"\x02\x03\x02\x01" + leb(i)
        made.append(b"\x42" + many([outer, b"\x04" + an_import("a", an_instance(0)), b"\x04" + an_import("b", an_instance(0))]))
    return [section_of(TYPES, made)]


def handle_tuples(levels, first):
    """An owned handle, and tuples over it in one another: the types from `first` on."""
    return [own(first - 1)] + [pair_of(first + i) for i in range(levels)]


def large_type():
    """An instance type with a function over 18 tuples over a handle of its own resource."""
    declared = [b"\x04" + an_import("r", SUB_RESOURCE)]
    declared += [b"\x01" + t for t in handle_tuples(18, 1)]
    declared += [b"\x01" + over(19), b"\x04" + an_import("f", a_func(20))]
    return b"\x42" + many(declared)


def imports_of_large(count):
    return [
        section_of(TYPES, [large_type()]),
        section_of(IMPORTS, [an_import(f"i{i}", an_instance(0)) for i in range(count)]),
    ]


def functions_over_handles(count, depth=18):
    """Imported functions over tuples over an imported resource's handle."""
    return [
        section_of(IMPORTS, [an_import("r", SUB_RESOURCE)]),
        section_of(TYPES, handle_tuples(depth, 1) + [over(depth + 1)]),
        section_of(IMPORTS, [an_import(f"f{i}", a_func(depth + 2)) for i in range(count)]),
    ]


def functions_given(count, handles, depth=18):
    """A component that imports functions over tuples, and is given them."""
    if handles:
        base = handle_tuples(depth, 1)
        ty, resource = depth + 1, [section_of(IMPORTS, [an_import("r", SUB_RESOURCE)])]
        args = [("r", TYPE, 0)]
    else:
        base = [U8] + [pair_of(i) for i in range(depth)]
        ty, resource, args = depth, [], []
    inner = resource + [
        section_of(TYPES, base + [over(ty)]),
        section_of(IMPORTS, [an_import(f"f{i}", a_func(ty + 1)) for i in range(count)]),
    ]
    return inner + [
        nested(inner),
        section_of(INSTANCES, [of_component(0, *args, *[(f"f{i}", FUNC, i) for i in range(count)])]),
    ]


def functions_exported(count, depth=18):
    """A component that exports functions over tuples over its resource's handle, and is instantiated."""
    inner = [
        section_of(IMPORTS, [an_import("r", SUB_RESOURCE)]),
        section_of(TYPES, handle_tuples(depth, 1) + [over(depth + 1)]),
        section_of(IMPORTS, [an_import("f", a_func(depth + 2))]),
        section_of(EXPORTS, [an_export(f"g{i}", FUNC, 0) for i in range(count)]),
    ]
    return [
        section_of(IMPORTS, [an_import("r", SUB_RESOURCE)]),
        section_of(TYPES, handle_tuples(depth, 1) + [over(depth + 1)]),
        section_of(IMPORTS, [an_import("f", a_func(depth + 2))]),
        nested(inner),
        section_of(INSTANCES, [of_component(0, ("r", TYPE, 0), ("f", FUNC, 0))]),
    ]


def stated(count, depth=18):
    """Exports of one function with its type stated."""
    return [
        section_of(TYPES, [U8] + [pair_of(i) for i in range(depth)] + [over(depth)]),
        section_of(IMPORTS, [an_import("f", a_func(depth + 1))]),
        section_of(EXPORTS, [b"\x00" + text(f"g{i}") + bytes([FUNC]) + leb(0) + b"\x01" + a_func(depth + 1) for i in range(count)]),
    ]


def components():
    for k in (10, 14, 16, 18, 20, 22, 40):
        yield f"twice-{k}", twice(k)
        yield f"apart-{k}", apart(k)
        yield f"flat-{k}", flat(k)
        yield f"doubling-{k}", doubling(k)
    for k in (1_000, 10_000, 20_000, 50_000, 100_000):
        yield f"chain-{k}", chain(k)
        yield f"kept-{k}", kept(k)
    for n in (1, 4, 16, 64, 1_000):
        yield f"large-{n}", imports_of_large(n)
        yield f"handles-{n}", functions_over_handles(n)
        yield f"given-{n}", functions_given(n, False)
        yield f"given-handles-{n}", functions_given(n, True)
        yield f"exported-{n}", functions_exported(n)
        yield f"stated-{n}", stated(n)


if __name__ == "__main__":
    if len(sys.argv) != 2 or sys.argv[1].startswith("-"):
        sys.exit(__doc__)
    write_all(sys.argv[1], ((title, component(*sections)) for title, sections in components()))
