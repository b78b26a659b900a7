#!/usr/bin/env python3
"""Calls the built programs with words that fail, and some that do not, and compares their status, their standard output and their standard
error with those of a table.

usage: tools/standard_error.py [VIRT INSPECT]: without them, crates/virt_cli/out/virt_cli and crates/wasi_inspect_cli/out/wasi_inspect_cli, which
./wasi-virt and ./wasi-inspect build. Ends with 1 if a row comes out otherwise.
"""
import os
import resource
import subprocess
import sys
import tempfile

ROOT = os.path.dirname(os.path.dirname(os.path.abspath(__file__)))
DATA = f"{ROOT}/crates/engine_rows/data"
BUILT = [f"{ROOT}/crates/{name}/out/{name}" for name in ("virt_cli", "wasi_inspect_cli")]
VIRT, INSPECT = [os.path.abspath(path) for path in sys.argv[1:3]] if len(sys.argv) > 2 else BUILT

# Files by their names, beside the components `seven.wasm` and `clock_reader.wasm`.
FILES = {
    "empty.toml": b"",
    "no_value.toml": b"[env]\nset = \n",
    "unclosed.toml": b"# \xc3\xa4\n\xc3\xa4",
    "twice.toml": b"version = 1\nversion = 1\n",
    "latin.toml": b"# a\n# \xe4\n",
    "key.toml": b"what = 1\n",
    "cut.json": b'{"answers":[',
    "sign.json": b'{"answers":[],\n "calls":[}',
    "behind.json": b'{"answers":[],"calls":[]}\n\n  x',
    "latin.json": b'{"answers":["\xe4"],"calls":[]}',
    "deep.json": b'{"answers":[{"value":' + b"[" * 125 + b"]" * 125 + b'}],"calls":[]}',
    "great.json": b'{"answers":[1e999]}',
    "list.json": b"[]",
    "wrong.json": b'{"answers":[1],"calls":[]}',
    "good.json": b'{"answers":[],"calls":[]}',
}

# Status, words, standard output, standard error; where no file is named that is there, the system's reason in words of its own.
ROWS = """
0|run seven.wasm -s good.json||
3|run seven.wasm -s none.json|file fault: none.json|wasi-virt: none.json: No such file or directory
3|run none.wasm -s good.json|file fault: none.wasm|wasi-virt: none.wasm: No such file or directory
3|run seven.wasm -s .|file fault: .|wasi-virt: .: Is a directory
3|run seven.wasm -s good.json/x|file fault: good.json/x|wasi-virt: good.json/x: Not a directory
3|virt seven.wasm -p none.toml -o out.wasm|file fault: none.toml|wasi-virt: none.toml: No such file or directory
3|virt seven.wasm -p empty.toml -o none/out.wasm|file fault: none/out.wasm|wasi-virt: none/out.wasm: No such file or directory
3|virt seven.wasm -p empty.toml -o .|file fault: .|wasi-virt: .: Is a directory
1|virt seven.wasm -p no_value.toml -o out.wasm|policy refused: not-toml|wasi-virt: no_value.toml: line 2, column 7: *
1|virt seven.wasm -p unclosed.toml -o out.wasm|policy refused: not-toml|wasi-virt: unclosed.toml: line 2, column 1: *
1|virt seven.wasm -p twice.toml -o out.wasm|policy refused: not-toml|wasi-virt: twice.toml: line 2, column 1: *
1|virt seven.wasm -p latin.toml -o out.wasm|policy refused: not-toml|wasi-virt: latin.toml: line 2, column 3: *
1|run clock_reader.wasm -s good.json -p no_value.toml|policy refused: not-toml|wasi-virt: no_value.toml: line 2, column 7: *
1|virt seven.wasm -p key.toml -o out.wasm|policy refused: bad-key what|
7|run seven.wasm -s cut.json|script refused: |wasi-virt: cut.json: EOF while parsing at line 1 column 12
7|run seven.wasm -s sign.json|script refused: |wasi-virt: sign.json: invalid JSON at line 2 column 11
7|run seven.wasm -s behind.json|script refused: |wasi-virt: behind.json: invalid JSON at line 3 column 3
7|run seven.wasm -s latin.json|script refused: |wasi-virt: latin.json: invalid JSON at line 1 column 14
7|run seven.wasm -s deep.json|script refused: |wasi-virt: deep.json: invalid JSON at line 1 column 147
7|run seven.wasm -s great.json|script refused: |wasi-virt: great.json: number out of range at line 1 column 18
7|run seven.wasm -s list.json|script refused: |
7|run seven.wasm -s wrong.json|script refused: answers[0]|
64|run|usage: wasi-virt virt APP -p POLICY -o OUT; run COMPONENT -s SCRIPT [-p POLICY] [--steps N]; gen N OUT; plug A B -p POLICY -o OUT|
"""

# The same of the program that inspects.
INSPECT_ROWS = """
0|seven.wasm|functions: 0 imported|
0|seven.wasm -p empty.toml|functions: 0 imported, 0 asked, 0 ruled, 0 refused, 0 value, 0 own|
3|none.wasm|file fault: none.wasm|wasi-inspect: none.wasm: No such file or directory
3|seven.wasm -p none.toml|file fault: none.toml|wasi-inspect: none.toml: No such file or directory
3|.|file fault: .|wasi-inspect: .: Is a directory
2|empty.toml|application refused: malformed at 0|
1|seven.wasm -p no_value.toml|policy refused: not-toml|wasi-inspect: no_value.toml: line 2, column 7: *
1|none.wasm -p latin.toml|policy refused: not-toml|wasi-inspect: latin.toml: line 2, column 3: *
1|seven.wasm -p key.toml|policy refused: bad-key what|
64||usage: wasi-inspect COMPONENT [-p POLICY]|
"""

NO_RESULT = "wasi-virt: no result: memory ran out, or a bound on it was passed\n"


def line(text):
    return text + "\n" if text else ""


def is_told(found, told):
    """Whether a line is the one of the table; a star at its end stands for words of the reader's own."""
    if told.endswith("*"):
        return found.startswith(told[:-1]) and found.count("\n") == 1 and len(found) > len(told)
    return found == line(told)


def comes_out(program, folder, row):
    status, words, out, told = row.split("|")
    ran = subprocess.run([program, *words.split()], cwd=folder, capture_output=True, text=True, check=False)
    return ran.returncode == int(status) and ran.stdout == line(out) and is_told(ran.stderr, told)


def memory_is_told(folder):
    """A script of a million answers in 16 MB of memory gives no result."""
    with open(f"{folder}/long.json", "w", encoding="utf-8") as script:
        script.write('{"answers":[' + ",".join(['{"value":0}'] * 1_000_000) + '],"calls":[]}')
    ran = subprocess.run(
        [VIRT, "run", "seven.wasm", "-s", "long.json"],
        cwd=folder,
        capture_output=True,
        text=True,
        check=False,
        preexec_fn=lambda: resource.setrlimit(resource.RLIMIT_AS, (1 << 24, 1 << 24)),
    )
    return ran.returncode == 6 and ran.stdout == "" and ran.stderr == NO_RESULT


def pipe_is_read_once(folder):
    """A script from a pipe has nothing more to give: its fault is put, and no place of it is told."""
    ran = subprocess.run(
        [VIRT, "run", "seven.wasm", "-s", "/dev/stdin"], cwd=folder, input="{", capture_output=True, text=True, check=False, timeout=60
    )
    return ran.returncode == 7 and ran.stdout == "script refused: \n" and ran.stderr == ""


with tempfile.TemporaryDirectory() as folder:
    for name, held in FILES.items():
        with open(f"{folder}/{name}", "wb") as file:
            file.write(held)
    for name in ("seven.wasm", "clock_reader.wasm"):
        with open(f"{DATA}/{name}", "rb") as held, open(f"{folder}/{name}", "wb") as file:
            file.write(held.read())
    otherwise = [row for row in ROWS.strip().splitlines() if not comes_out(VIRT, folder, row)]
    otherwise += [row for row in INSPECT_ROWS.strip().splitlines() if not comes_out(INSPECT, folder, row)]
    if not memory_is_told(folder):
        otherwise.append("too little memory")
    if not pipe_is_read_once(folder):
        otherwise.append("a script from a pipe")
for row in otherwise:
    print(f"{row}: otherwise")
print(f"{len(otherwise)} rows come out otherwise")
sys.exit(1 if otherwise else 0)
