#!/usr/bin/env python3
"""Writes a core module that is small for what it asks of a validator that compares types element by element.

usage: tools/hostile_code.py KIND COUNT OUT

  nested   COUNT blocks of one type with COUNT parameters, one after another
  unlike   the same, each block where the parameters of an equal type of another index stand
  results  COUNT functions of a type with COUNT results, each of which calls itself
  labels   a br_table in dead code, after half as many operands, with COUNT labels of a type with COUNT results, its default
           of another such type
  ending   COUNT times a call that leaves COUNT operands, and one that takes all but the first of them
  tables   COUNT br_tables in dead code, each after a call that leaves half as many operands, of two types with COUNT
           results that end alike
"""
import sys

from encoders import MODULE, leb, many, section_of


def func(params, results):
    return b"\x60" + leb(len(params)) + params + leb(len(results)) + results


def module(types, functions, bodies):
    code = [leb(len(b) + 1) + b"\x00" + b for b in bodies]
    return MODULE + section_of(1, types) + section_of(3, map(leb, functions)) + section_of(10, code)


def made(kind, n):
    wide = b"\x7f" * n
    if kind == "nested":
        # each block takes the parameters, and leaves them
        body = b"\x00" + (b"\x02\x00\x0b") * n + b"\x00\x0b"
        return module([func(wide, wide), func(b"", b"")], [1], [body])
    if kind == "unlike":
        body = b"\x00" + (b"\x02\x00\x0b" + b"\x02\x01\x0b") * (n // 2) + b"\x00\x0b"
        return module([func(wide, wide), func(wide, wide), func(b"", b"")], [2], [body])
    if kind == "results":
        return module([func(b"", wide)], [0] * n, [b"\x10" + leb(i) + b"\x0b" for i in range(n)])
    if kind == "labels":
        # two types that differ below the operands which the dead code has; the default is the inner block
        half = n // 2
        other = b"\x7f" * (n - half - 1) + b"\x7e" + b"\x7f" * half
        table = b"\x0e" + many(leb(1) for _ in range(n)) + leb(0)
        body = b"\x02\x00\x02\x01\x00" + b"\x41\x00" * half + table + b"\x0b\x00\x0b\x00\x0b"
        return module([func(b"", wide), func(b"", other), func(b"", b"")], [2], [body])
    if kind == "ending":
        # what the first leaves ends as the types of the second, and is longer
        body = b"\x00" + b"\x10\x00\x10\x01\x1a" * n + b"\x0b"
        return module([func(b"", wide), func(wide[1:], b""), func(b"", b"")], [0, 1, 2], [b"\x00\x0b", b"\x0b", body])
    if kind == "tables":
        half = n // 2
        other = b"\x7f" * (n - half - 1) + b"\x7e" + b"\x7f" * half
        tables = (b"\x10\x00" + b"\x41\x00" + b"\x0e" + many([leb(1)]) + leb(0)) * n
        body = b"\x02\x00\x02\x01\x00" + tables + b"\x0b\x00\x0b\x00\x0b"
        types = [func(b"", wide), func(b"", other), func(b"", b""), func(b"", wide[:half])]
        return module(types, [3, 2], [b"\x00\x0b", body])
    sys.exit(__doc__)


if __name__ == "__main__":
    if len(sys.argv) != 4:
        sys.exit(__doc__)
    made_module = made(sys.argv[1], int(sys.argv[2]))
    with open(sys.argv[3], "wb") as out:
        out.write(made_module)
    print(f"{sys.argv[1]} {sys.argv[2]}: {len(made_module)} bytes")
