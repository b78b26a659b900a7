#!/usr/bin/env python3
"""Writes the stored runs in which each listed function is called once where the machine is asked, and once where the policy answers.

usage: tools/each_function.py FOLDER: writes the scripts and the lines that are wanted, for `passes_all` of tools/pass_components.py.

Nothing here asks the program. Where the machine answers, what is seen follows from the tables alone: the call with the machine's handles,
and the answer with the component's. Where the policy answers, the calls stand below with what docs/POLICY.md and WASI say of each.
"""

import json
import os
import sys

from pass_components import read_tables

TABLES = read_tables()
FUNCTIONS = {key: (interface, *at) for interface, (_, functions) in TABLES.items() for key, at in functions.items()}
HOMES = {kind: interface for interface, (kinds, _) in TABLES.items() for kind in kinds}
VERSION = "@0.2.0"


def compact(value):
    """Without spaces, and keys in the order of their bytes, as lines have them."""
    return json.dumps(value, separators=(",", ":"), ensure_ascii=False, sort_keys=True)


# ---- where the machine is asked

NUMBERS = {"u8": 7, "u16": 300, "u32": 70000, "u64": 5000000000}


class Allowed:
    """The run in the making: the machine's name of each of the component's handles, by its index from 1 on."""

    def __init__(self):
        self.host, self.kinds, self.answers, self.calls, self.lines = [], [], [], [], []

    def made(self, kind):
        """A new handle: the machine's name of it, and the component's."""
        self.host.append(100 + len(self.host))
        self.kinds.append(kind)
        return self.host[-1], len(self.host)

    def held(self, kind):
        """The first handle of a kind, as the component and the machine have it."""
        index = self.kinds.index(kind)
        return index + 1, self.host[index]

    def value(self, ty):
        """A value, as the one side has it and as the other: of an own handle first the machine's, of a borrowed one first the component's."""
        if ty is None:
            return None, None
        form, *more = ty
        if form == "prim":
            made = {"bool": True, "string": "text"}.get(more[0], NUMBERS.get(more[0]))
            return made, made
        if form == "own":
            return self.made(more[0])
        if form == "borrow":
            return self.held(more[0])
        if form == "enum":
            return more[0][-1], more[0][-1]
        if form == "flags":
            return more[0][:1], more[0][:1]
        if form == "list":
            both = [self.value(more[0]) for _ in range(2)]
            return [a for a, _ in both], [b for _, b in both]
        if form == "tuple":
            both = [self.value(it) for it in more[0]]
            return [a for a, _ in both], [b for _, b in both]
        if form == "record":
            both = {name: self.value(it) for name, it in more[0]}
            return {name: a for name, (a, _) in both.items()}, {name: b for name, (_, b) in both.items()}
        label, payload = {"option": lambda: ("some", more[0]), "result": lambda: ("ok", more[0]), "variant": lambda: more[0][-1]}[form]()
        a, b = self.value(payload)
        return {label: a}, {label: b}

    def call(self, key, answer=None):
        """A call of a function; `answer` is what the machine says and what the component sees, where no value of the type will do."""
        interface, name, params, result = FUNCTIONS[key]
        both = [self.value(it) for it in params]
        self.calls.append([key, [a for a, _ in both]])
        self.lines.append(["call", interface + VERSION, name, [b for _, b in both]])
        said, seen = answer() if answer else self.value(result)
        self.answers.append({} if result is None else {"value": said})
        self.lines.append(["return"] if result is None else ["return", seen])

    def drop(self, index):
        kind = self.kinds[index - 1]
        self.calls.append([f"drop-{kind}", [index]])
        self.lines.append(["drop", HOMES[kind] + VERSION, kind, self.host[index - 1]])
        self.lines.append(["return"])

    def failed(self):
        """A stream's operation that failed, with the error that tells why."""
        host, own = self.made("error")
        return {"err": {"last-operation-failed": host}}, {"err": {"last-operation-failed": own}}


# those that make the first handle of each kind, each after those that it needs
MAKERS = [
    "get-stdin", "get-stdout", "get-stderr", "get-terminal-stdin", "get-terminal-stdout", "get-terminal-stderr", "instance-network",
    "get-directories", "create-tcp-socket", "create-udp-socket", "input-stream-subscribe", "descriptor-read-directory", "udp-socket-stream",
    "resolve-addresses",
]


def allowed():
    """Each function once, over the machine, and a drop of each handle."""
    run = Allowed()
    for key in MAKERS:
        run.call(key)
    run.call("input-stream-read", run.failed)
    for key in FUNCTIONS:
        if key not in MAKERS and key not in ("input-stream-read", "exit"):
            run.call(key)
    for index in range(1, len(run.host) + 1):
        run.drop(index)
    # exit does not return: what the machine's would be if it did is a trap
    run.calls.append(["exit", [{"ok": None}]])
    run.lines.append(["call", FUNCTIONS["exit"][0] + VERSION, "exit", [{"ok": None}]])
    run.answers.append("trap")
    run.lines.append(["trap"])
    return run.answers, run.calls, run.lines


# ---- where the policy answers (data/virtual_all.toml)

CLOSED = {"err": {"closed": None}}
OK = {"ok": None}
READ_ONLY = {"err": "read-only"}
KEPT = {"no-change": None}


def stat(kind, size):
    return {"ok": {"type": kind, "link-count": 1, "size": size, "data-access-timestamp": None, "data-modification-timestamp": None, "status-change-timestamp": None}}


TREES = [
    # 1 stdin, 2 stdout, 3 stderr
    ("get-stdin", [], 1), ("get-stdout", [], 2), ("get-stderr", [], 3),
    ("get-terminal-stdin", [], None), ("get-terminal-stdout", [], None), ("get-terminal-stderr", [], None),
    ("get-environment", [], [["HOME", "/t"], ["LANG", "C"]]), ("get-arguments", [], ["program", "x"]), ("initial-cwd", [], {"some": "/t"}),
    # a stream without bytes
    ("input-stream-read", [1, 9], CLOSED), ("input-stream-blocking-read", [1, 9], CLOSED), ("input-stream-skip", [1, 9], CLOSED), ("input-stream-blocking-skip", [1, 9], CLOSED),
    # 4 a pollable that is ready
    ("input-stream-subscribe", [1], 4), ("pollable-ready", [4], True), ("pollable-block", [4], ...), ("poll", [[4, 4]], [0, 1]),
    # a stream whose bytes go nowhere
    ("output-stream-check-write", [2], {"ok": 65536}), ("output-stream-write", [2, [1, 2]], OK), ("output-stream-blocking-write-and-flush", [2, [1]], OK),
    ("output-stream-flush", [2], OK), ("output-stream-blocking-flush", [2], OK), ("output-stream-write-zeroes", [2, 5], OK),
    ("output-stream-blocking-write-zeroes-and-flush", [2, 5], OK), ("output-stream-splice", [2, 1, 5], CLOSED), ("output-stream-blocking-splice", [2, 1, 5], CLOSED),
    ("output-stream-subscribe", [2], 5),
    # clocks that stand still
    ("wall-clock-now", [], {"seconds": 1700000000, "nanoseconds": 5}), ("wall-clock-resolution", [], {"seconds": 0, "nanoseconds": 1}),
    ("monotonic-clock-now", [], 42), ("monotonic-clock-resolution", [], 1),
    ("monotonic-clock-subscribe-instant", [9], 6), ("monotonic-clock-subscribe-duration", [9], 7),
    # 8 the tree's root, 9 the scratch folder; 10 the file `a/f` of three bytes
    ("get-directories", [], [[8, "/t"], [9, "/s"]]),
    ("descriptor-open-at", [8, [], "a/f", [], ["read"]], {"ok": 10}),
    ("descriptor-read-via-stream", [10, 1], {"ok": 11}), ("input-stream-read", [11, 9], {"ok": [121, 122]}),
    ("descriptor-write-via-stream", [10, 0], READ_ONLY), ("descriptor-append-via-stream", [10], READ_ONLY),
    ("descriptor-advise", [10, 0, 1, "normal"], OK), ("descriptor-sync-data", [10], OK), ("descriptor-sync", [10], OK),
    ("descriptor-set-size", [10, 1], READ_ONLY), ("descriptor-set-times", [10, KEPT, KEPT], READ_ONLY),
    ("descriptor-get-flags", [10], {"ok": ["read"]}), ("descriptor-get-type", [10], {"ok": "regular-file"}),
    ("descriptor-read", [10, 2, 1], {"ok": [[121, 122], True]}), ("descriptor-write", [10, [1], 0], READ_ONLY),
    # 12 what the root holds
    ("descriptor-read-directory", [8], {"ok": 12}), ("directory-entry-stream-read-directory-entry", [12], {"ok": {"some": {"type": "directory", "name": "a"}}}),
    ("directory-entry-stream-read-directory-entry", [12], {"ok": None}),
    ("descriptor-create-directory-at", [8, "x"], READ_ONLY), ("descriptor-remove-directory-at", [8, "a"], READ_ONLY), ("descriptor-unlink-file-at", [8, "a/f"], READ_ONLY),
    ("descriptor-symlink-at", [8, "a", "x"], READ_ONLY),
    ("descriptor-stat", [10], stat("regular-file", 3)), ("descriptor-stat-at", [8, [], "a"], stat("directory", 0)),
    ("descriptor-set-times-at", [8, [], "a", KEPT, KEPT], READ_ONLY), ("descriptor-link-at", [8, [], "a/f", 8, "x"], READ_ONLY), ("descriptor-rename-at", [8, "a", 8, "x"], READ_ONLY),
    ("descriptor-readlink-at", [8, "a"], {"err": "invalid"}), ("descriptor-is-same-object", [8, 8], True), ("descriptor-is-same-object", [8, 10], False),
    # the root, `a` and `a/f` are the places 0, 1 and 2 of the first tree
    ("descriptor-metadata-hash", [8], {"ok": {"lower": 0, "upper": 1}}), ("descriptor-metadata-hash-at", [8, [], "a/f"], {"ok": {"lower": 2, "upper": 1}}),
]

SCRATCH = [
    # 13 a new file of the scratch folder, and what is written to it
    ("descriptor-open-at", [9, [], "n", ["create"], ["read", "write"]], {"ok": 13}), ("descriptor-write", [13, [1, 2, 3], 0], {"ok": 3}), ("descriptor-read", [13, 2, 1], {"ok": [[2, 3], True]}),
    ("descriptor-write-via-stream", [13, 1], {"ok": 14}), ("output-stream-blocking-write-and-flush", [14, [9]], OK), ("descriptor-append-via-stream", [13], {"ok": 15}), ("output-stream-write", [15, [8]], OK),
    ("descriptor-read-via-stream", [13, 0], {"ok": 16}), ("input-stream-read", [16, 9], {"ok": [1, 9, 3, 8]}), ("descriptor-set-size", [13, 2], OK), ("descriptor-stat", [13], stat("regular-file", 2)),
    ("descriptor-rename-at", [9, "n", 9, "m"], OK),
]

DROPPED = ["input-stream", "output-stream", "output-stream", "pollable", "pollable", "pollable", "pollable", "descriptor", "descriptor", "descriptor", "input-stream", "directory-entry-stream", "descriptor", "output-stream", "output-stream", "input-stream"]


def virtual():
    """Each function that a policy answers, and a drop of each handle: the machine sees nothing."""
    rows = [*TREES, *SCRATCH, *[(f"drop-{kind}", [index + 1], ...) for index, kind in enumerate(DROPPED)]]
    calls = [[key, args] for key, args, _ in rows]
    lines = [["return"] if answer is ... else ["return", answer] for _, _, answer in rows]
    return [], calls, lines


def write(folder, name, answers, calls, lines):
    with open(os.path.join(folder, f"{name}.json"), "w", encoding="utf-8") as file:
        file.write(compact({"answers": answers, "calls": calls}) + "\n")
    with open(os.path.join(folder, f"{name}.lines"), "w", encoding="utf-8") as file:
        file.write("".join(compact(line) + "\n" for line in lines))


def main(folder):
    write(folder, "each_allowed", *allowed())
    write(folder, "each_virtual", *virtual())


if __name__ == "__main__":
    if len(sys.argv) != 2 or sys.argv[1].startswith("-"):
        sys.exit(__doc__)
    main(sys.argv[1])
