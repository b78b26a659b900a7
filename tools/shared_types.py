#!/usr/bin/env python3
"""Writes the components with many or shared types of docs/MEASURES.md into a folder.

usage: tools/shared_types.py FOLDER
"""

import sys

from encoders import FUNC, TYPE, a_func, an_export, an_import, component, func, pair_of, section_of, signed, write_all

TYPES, IMPORTS, EXPORTS = 7, 10, 11
U8 = b"\x7d"
RESOURCE = b"\x3f\x7f\x00"


def components():
    all_of_them = range(100_000)
    one_type = section_of(TYPES, [func([])])
    imports = section_of(IMPORTS, [an_import(f"f{i}", a_func(0)) for i in all_of_them])
    exports = section_of(EXPORTS, [an_export(f"f{i}", FUNC, i) for i in all_of_them])
    yield "imports", [one_type, imports]
    yield "exports", [
        one_type,
        section_of(IMPORTS, [an_import("g", a_func(0))]),
        section_of(EXPORTS, [an_export(f"f{i}", FUNC, 0) for i in all_of_them]),
    ]
    yield "both", [one_type, imports, exports]
    yield "resources", [
        section_of(TYPES, [RESOURCE for _ in all_of_them]),
        section_of(EXPORTS, [an_export(f"r{i}", TYPE, i) for i in all_of_them]),
    ]
    tuples = [U8] + [pair_of(i) for i in range(18)]
    deepest = signed(18)
    yield "tuples", [
        section_of(TYPES, tuples + [func([("x", deepest)]) for _ in range(10_000)]),
        section_of(IMPORTS, [an_import(f"f{i}", a_func(19 + i)) for i in range(10_000)]),
    ]
    yield "types", [section_of(TYPES, [U8] + [pair_of(0) for _ in all_of_them])]
    nested = b"\x42\x01\x01" * 99 + b"\x42\x00"
    yield "nested", [section_of(TYPES, [nested] * 1_000)]


if __name__ == "__main__":
    if len(sys.argv) != 2 or sys.argv[1].startswith("-"):
        sys.exit(__doc__)
    write_all(sys.argv[1], ((title, component(*sections)) for title, sections in components()))
