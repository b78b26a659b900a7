#!/usr/bin/env python3
"""Writes components that are one short form over and over, for what reading keeps of them.

usage: tools/memory_forms.py FOLDER [BYTES]: of that many bytes each, 1,000,000 without the number
"""

import sys

from encoders import COMPONENT, MODULE, leb, section, write_all


def in_module(*sections):
    return COMPONENT + section(1, MODULE + b"".join(sections))


def forms(size):
    def many(item):
        count = size // len(item)
        return leb(count) + item * count

    def types(item):
        return COMPONENT + section(7, many(item))

    def elements(item):
        return in_module(section(9, b"\1\5\x70" + many(item)))

    def data(item):
        return in_module(section(12, leb(size // len(item))), section(11, many(item)))

    def globals_of(item):
        return in_module(section(6, many(b"\x7f\0" + item)))

    def bodies_of(code):
        body = b"\0" + code
        item = leb(len(body)) + body
        count = size // len(item)
        return in_module(one_type, section(3, leb(count) + b"\0" * count), section(10, many(item)))

    one_type = section(1, b"\1\x60\0\0")
    bodies = size // 3
    own = {
        "select_0": b"\x1c\0",
        "select_1": b"\x1c\1\x7f",
        "select_2": b"\x1c\2\x7f\x7e",
        "select_4": b"\x1c\4" + b"\x7f" * 4,
        "select_5": b"\x1c\5" + b"\x7f" * 5,
        "table_0": b"\x0e\0\0",
        "table_1": b"\x0e\1\0\0",
        "table_3": b"\x0e\3" + b"\0" * 4,
        "table_4": b"\x0e\4" + b"\0" * 5,
    }
    with_own = {}
    for name, code in own.items():
        for times in (1, 7):
            expr = code * times + b"\x0b"
            with_own.update({
                f"{name}_{times}_exprs": elements(expr),
                f"{name}_{times}_offsets": in_module(section(9, many(b"\0" + expr + b"\0"))),
                f"{name}_{times}_data": data(b"\0" + expr + b"\0"),
                f"{name}_{times}_globals": globals_of(expr),
                f"{name}_{times}_bodies": bodies_of(expr),
            })
    all_selects = b"".join(b"\x1c\1" + bytes([ty]) + b"\x0b" for ty in (0x7f, 0x7e, 0x70, 0x6f))
    with_all = MODULE + section(9, b"\1\5\x70\5\x1c\0\x0b" + all_selects)
    return with_own | {
        "select_modules": COMPONENT + section(1, with_all) * (size // (len(with_all) + 2)),
        "custom": COMPONENT + b"\0\1\0" * (size // 3),
        "modules": COMPONENT + section(1, MODULE) * (size // 10),
        "aliases": COMPONENT + section(6, many(b"\3\2\0\0")),
        "types_7f": types(b"\x7f"),
        "types_6f00": types(b"\x6f\0"),
        "types_6f017f": types(b"\x6f\1\x7f"),
        "types_6e0161": types(b"\x6e\1\1a"),
        "types_72": types(b"\x72\1\1a\x7f"),
        "types_40": types(b"\x40\0\1\0"),
        "labels": COMPONENT + section(7, b"\1\x6e" + many(b"\1a")),
        "exprs_1": elements(b"\x0b"),
        "exprs_2": elements(b"\1\x0b"),
        "exprs_3": elements(b"\1\1\x0b"),
        "exprs_4": elements(b"\1\1\1\x0b"),
        "exprs_5": elements(b"\1\1\1\1\x0b"),
        "exprs_ref": elements(b"\xd2\0\x0b"),
        "segments_0": in_module(section(9, many(b"\0\1\x0b\0"))),
        "segments_1": in_module(section(9, many(b"\1\0\0"))),
        "data_0": data(b"\1\0"),
        "data_1": data(b"\1\1a"),
        "bodies": in_module(one_type, section(3, leb(bodies) + b"\0" * bodies), section(10, many(b"\2\0\x0b"))),
        "nops": in_module(one_type, section(3, b"\1\0"), section(10, b"\1" + leb(size + 2) + b"\0" + b"\1" * size + b"\x0b")),
        "core_types": in_module(section(1, many(b"\x60\0\0"))),
        "core_imports": in_module(section(2, many(b"\1a\1a\0\0"))),
    }


if __name__ == "__main__":
    if len(sys.argv) not in (2, 3) or sys.argv[1].startswith("-"):
        sys.exit(__doc__)
    write_all(sys.argv[1], forms(int(sys.argv[2]) if len(sys.argv) > 2 else 1_000_000).items())
