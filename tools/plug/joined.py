"""Two components as one, and its output, by the form alone."""

import sys

from encoders import an_export, an_import, an_instance, from_instance, leb, nested, of_component, COMPONENT, FUNC, INSTANCE, TYPE
from plug.making import Declared, spelled, TABLE


def together(a, b, met):
    """What the imports of both ask of each interface: its version, types, functions, and the names of parameters, where the first's come first."""
    asked = {}
    for c in (a, b):
        for interface, version, types, functions, names in c.asks:
            if c is b and c is not a and f"{interface}@{version}" in met:
                continue
            it = asked.setdefault(interface, (version, [], [], {}))
            if it[0] != version:
                sys.exit(f"two versions of {interface}")
            it[1].extend(types)
            it[2].extend(functions)
            for function in functions:
                it[3].setdefault(function, names.get(function))
    return asked


def imported(asked):
    """The parts that import these interfaces, the instance of each import by its name, and how many types there are."""
    found, outside, instances, next_type = [], {}, {}, 0
    for interface in (it for it in TABLE if it in asked):
        version, types, functions, names = asked[interface]
        declared = Declared(interface, types, functions, outside, names)
        name = f"{interface}@{version}"
        found += [(7, declared.type()), (10, an_import(name, an_instance(next_type)))]
        instances[name], next_type = len(instances), next_type + 1
        for brought in declared.brought:
            found.append((6, from_instance(TYPE, instances[name], brought)))
            outside[brought], next_type = next_type, next_type + 1
    return found, instances, next_type


def exported(outs, instance, next_of):
    """The parts that export what an instance does; `next_of` has the next index of each sort."""
    aliased, exports = [], []
    for name, sort in outs:
        aliased.append((6, from_instance(sort, instance, name)))
        exports.append((11, an_export(name, sort, next_of[sort])))
        next_of[sort] += 1
    return aliased + exports


def around(a, b, met):
    """The parts before the first, those between both, and those after the second."""
    front, instances, types = imported(together(a, b, met))
    n, m = len(instances), len(met)
    given_a = [(name, INSTANCE, instances[name]) for name in a.imports()]
    given_b = [(name, INSTANCE, n + 1 + met.index(name) if name in met else instances[name]) for name in b.imports()]
    between = [(5, of_component(0, *given_a)), *[(6, from_instance(INSTANCE, n, name)) for name in met]]
    back = [(5, of_component(1, *given_b)), *exported(b.out, n + m + 1, {FUNC: 0, TYPE: types, INSTANCE: n + m + 2})]
    return spelled(front), spelled(between), spelled(back)


def plugged(a, b, met):
    """The bytes of two components as one; `met` are the names of the second's imports that the first meets, in their order."""
    front, between, back = around(a, b, met)
    return COMPONENT + front + nested(a.bytes()) + between + nested(b.bytes()) + back


def plugged_text(a, b, met):
    """The same as rows have it, `a` and `b` being pairs of a name and a component."""
    (name_a, a), (name_b, b) = a, b
    front, between, back = (it.hex() for it in around(a, b, met))
    sizes = [leb(len(it.bytes())).hex() for it in (a, b)]
    return f"`empty`{front}04{sizes[0]}`{name_a}`{between}04{sizes[1]}`{name_b}`{back}"


def wrapped(whole, outs):
    """The output of a component that imports nothing: what it exports is `outs`."""
    back = [(5, of_component(0)), *exported(outs, 0, {FUNC: 0, TYPE: 0, INSTANCE: 1})]
    return COMPONENT + nested(whole) + spelled(back)
