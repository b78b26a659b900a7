#!/usr/bin/env python3
"""Prints the components of crates/engine_rows/src/plug_texts.rt, and what two of them are as one.

usage: tools/plug_components.py
       tools/plug_components.py FIRST SECOND [NAME..]

Without words, a line for each component: its name and its digits. With the names of two, where the first meets those imports of the
second whose names follow, in the second's order: how long the two made one are, and how rows spell that. It is written from the form
alone: the types and the import of each listed interface that either takes from the host, in the order of all of them, with what either
lists; the first, its instance, an alias of each instance that the second takes of it; the second, its instance, an alias and an export
of each of its exports. Where nothing is taken from the host, also how long its output is.
"""

import sys

from plug import firsts, seconds
from plug.joined import plugged, plugged_text, wrapped
from plug.making import Making

CLOCK = firsts.NOW + "@0.2.0"

# each component: the function that makes it, and what that is given
FIRSTS = {
    "gives7": (firsts.gives, {"get": 7}),
    "gives_more": (firsts.gives, {"get": 7, "more": 8}),
    "gives_two": (firsts.gives_two, {}),
    "gives_function": (firsts.gives_function, {}),
    "gives_clock_type": (firsts.gives_type, {"name": CLOCK}),
    "gives_mute": (firsts.gives_mute, {}),
    "gives_things": (firsts.gives_things, {}),
    "gives_same": (firsts.gives_same, {}),
    "gives_stdin": (firsts.gives_stdin, {}),
    "gives_stdin_typed": (firsts.gives_stdin, {"typed": True}),
    "gives_stdin_itself": (firsts.gives_stdin_itself, {}),
    "gives_stdout": (firsts.gives_stdout, {}),
    "gives_stderr": (firsts.gives_stderr, {}),
    "clock_plus": (firsts.clock_plus, {}),
    "clock_fixed": (firsts.clock_plus, {"imported": False}),
    "clock_short": (firsts.clock_short, {}),
    "clock_u32": (firsts.clock_u32, {}),
    "own_poll": (firsts.own_poll, {}),
    "own_poll_clock": (firsts.own_poll, {"clock": True}),
    "handed_poll": (firsts.handed_poll, {}),
    "fresh_poll": (firsts.handed_poll, {"fresh": True}),
    "handed_streams": (firsts.handed_streams, {}),
    "random_start": (firsts.random_start, {}),
    "insecure_start": (firsts.random_start, {"interface": "wasi:random/insecure", "name": "get-insecure-random-u64"}),
    "random_get": (firsts.random_get, {}),
    "gives_log": (firsts.gives_log, {}),
    "look_drops": (firsts.gives_look, {"drops": True}),
    "look_keeps": (firsts.gives_look, {"drops": False}),
    "now_shown": (firsts.now_shown, {}),
    "waits7": (firsts.waits7, {}),
}
SECONDS = {
    "asks7": (seconds.asks, {}),
    "asks_u64": (seconds.asks, {"ty": seconds.U64}),
    "asks_put": (seconds.asks_both, {}),
    "asks_upper": (seconds.asks, {"item": "GET"}),
    "asks_SEVEN": (seconds.asks, {"name": "local:SEVEN/seven"}),
    "asks_two": (seconds.asks_two, {}),
    "asks_function": (seconds.asks_function, {}),
    "hands_on": (seconds.hands_on, {}),
    "seven_alone": (seconds.some, ["s"]),
    "asks_things": (seconds.asks_things, {}),
    "thing_back": (seconds.gives_thing_back, {}),
    "stream_back": (seconds.gives_stream_back, {}),
    "stream_back_alone": (seconds.gives_stream_back, {"met": False}),
    "takes_stream": (seconds.takes_stream, {}),
    "takes_stream_late": (seconds.takes_stream, {"host_first": False}),
    "takes_same": (seconds.takes_same, {}),
    "takes_stderr": (seconds.takes_stderr, {}),
    "asks_now": (seconds.asks_now, {}),
    "asks_now_7": (seconds.asks_now, {"seven": True}),
    "asks_now_shown": (seconds.asks_now, {"seven": True, "shown": ["instant"]}),
    "asks_now_twice": (seconds.asks_now_twice, {}),
    "asks_resolution": (seconds.asks_resolution, {}),
    "shows_type": (seconds.shows_type, {}),
    "asks_wait": (seconds.asks_wait, {}),
    "waits_named": (seconds.waits_named, {}),
    "asks_stdin_twice": (seconds.asks_stdin_twice, {}),
    "asks_stdin_twice_7": (seconds.asks_stdin_twice, {"seven": True}),
    "random_and_7": (seconds.random_and_seven, {}),
    "random_and_7_6": (seconds.random_and_seven, {"version": "0.2.6"}),
    "uses_log": (seconds.uses_log, {}),
    "lends": (seconds.lends, {}),
}
IN_ORDER = ["u w", "w u", "n t u", "n tw", "s", "s u w", "s w u", "x u", "u x", "s n t", "s n tw", "n tw x", "u", "w", "n t", "t", "s t", "s tw", "t x", "x t"]
SECONDS.update({"imports_" + names.replace(" ", ""): (seconds.some, names.split()) for names in IN_ORDER})


def made(name):
    """The component of this name."""
    if name not in {**FIRSTS, **SECONDS}:
        sys.exit(f"no component {name}")
    make, given = {**FIRSTS, **SECONDS}[name]
    component = Making()
    if isinstance(given, dict):
        make(component, **given)
    else:
        make(component, *given)
    return component


def tell(first, second, met):
    """Prints what two are as one."""
    a, b = made(first), made(second)
    for name in met:
        if name not in b.imports():
            sys.exit(f"{second} has no import {name}")
    whole = plugged(a, b, met)
    print(f"{len(whole)} bytes: {plugged_text((first, a), (second, b), met)}")
    if not a.imports() and b.imports() == met:
        print(f"{len(wrapped(whole, b.out))} bytes of output")


if __name__ == "__main__":
    if len(sys.argv) == 2 or any(word.startswith("-") for word in sys.argv[1:]):
        sys.exit(__doc__)
    if len(sys.argv) > 2:
        tell(sys.argv[1], sys.argv[2], sys.argv[3:])
    else:
        for each in {**FIRSTS, **SECONDS}:
            print(each, made(each).bytes().hex())
