#!/usr/bin/env python3
"""Calls the built program with the words of each stored row, over the machine's files, and compares its status and its lines with those stored.

usage: tools/stored_rows.py [PROGRAM]: without one, crates/virt_cli/out/virt_cli, which ./wasi-virt builds. Ends with 1 if a row comes out otherwise.
"""

import os
import subprocess
import sys

ROOT = os.path.dirname(os.path.dirname(os.path.abspath(__file__)))
DATA = f"{ROOT}/crates/engine_rows/data"
BUILT = f"{ROOT}/crates/virt_cli/out/virt_cli"


def rows():
    """Each row of the tables: its status, its name and its words."""
    with open(f"{ROOT}/crates/engine_rows/args", encoding="utf-8") as tables:
        names = tables.read().split()
    for name in names:
        with open(f"{DATA}/{name}", encoding="utf-8") as table:
            for line in table.read().splitlines():
                status, row, words = line.split(" ", 2)
                yield int(status), row, words.split()


def comes_out(program, status, name, words):
    ran = subprocess.run([program, *words], cwd=DATA, capture_output=True, check=False)
    with open(f"{DATA}/{name}.lines", "rb") as lines:
        return ran.returncode == status and ran.stdout == lines.read()


def main(words):
    if len(words) > 1 or words and words[0].startswith("-"):
        sys.exit(__doc__)
    program = os.path.abspath(words[0]) if words else BUILT
    if not os.path.exists(program):
        sys.exit(f"{program} is not there: ./wasi-virt builds it")
    otherwise = [name for status, name, row in rows() if not comes_out(program, status, name, row)]
    for name in otherwise:
        print(f"{name}: otherwise")
    print(f"{len(otherwise)} rows come out otherwise")
    return 1 if otherwise else 0


if __name__ == "__main__":
    sys.exit(main(sys.argv[1:]))
