#!/usr/bin/env python3
"""Builds a program where it is not built or a source was saved since its build began, and runs it with the caller's words.

usage: build_program.py NAME PROGRAM WORDS..: the name by which it is called, its crate, and the words

The build is the gate's own, `rt ci`, over a copy of the crates that the program stands on, as they are when the build begins. So what the
gate or an earlier build has proved on this machine, of the same text, is taken, and what the build proves is kept for the gate. Edits that
must be refused are not in the copy. `wasi-virt` and `wasi-inspect` at the top call this only where there is something to build.
"""

import fcntl
import os
import re
import shutil
import subprocess
import sys
import tempfile

TOP = os.path.dirname(os.path.dirname(os.path.realpath(__file__)))
NAME, PROGRAM, *WORDS = sys.argv[1:]
NOT_BUILT = 70
# how much memory a check may take
CHECK_BYTES = 4 << 30


def say(text):
    print(f"{NAME}: {text}", file=sys.stderr, flush=True)


def in_program(*parts):
    return os.path.join(TOP, "crates", PROGRAM, "out", *parts)


def crates_below(program):
    """The lines of crates.txt for the crates that the program stands on, and for itself, by their names."""
    with open(os.path.join(TOP, "crates.txt"), encoding="utf-8") as text:
        lines = [line.partition("#")[0].strip() for line in text]
    known = {line.partition(":")[0].split()[0]: line for line in lines if line}
    found, waiting = {}, [program]
    while waiting:
        name = waiting.pop()
        if name in known and name not in found:
            found[name] = known[name]
            waiting += known[name].partition(":")[2].split()
    return found


def is_due(crates):
    """Whether the program is not built, or a source was saved since its build began."""
    try:
        begun = os.stat(in_program("build_begun")).st_mtime_ns
    except OSError:
        return True
    if not (os.path.exists(in_program(PROGRAM)) and os.path.exists(in_program("sources"))):
        return True
    if os.stat(os.path.join(TOP, "crates.txt")).st_mtime_ns > begun:
        return True
    return any(saved_since(begun, os.path.join(TOP, "crates", name)) for name in crates)


def saved_since(begun, folder):
    for at, folders, files in os.walk(folder):
        if at == folder and "out" in folders:
            folders.remove("out")
        # (a folder's own time tells of files that are gone)
        paths = [os.path.join(at, it) for it in files] + ([at] if at != folder else [])
        if any(os.stat(it).st_mtime_ns > begun for it in paths):
            return True
    return False


def copy_sources(crates, room):
    for name in crates:
        source = os.path.join(TOP, "crates", name)
        shutil.copytree(source, os.path.join(room, "crates", name), ignore=shutil.ignore_patterns("out", "must-fail"))
    shutil.copy(os.path.join(TOP, "HANDLES"), room)
    with open(os.path.join(room, "crates.txt"), "w", encoding="utf-8") as file:
        file.writelines(f"{line}\n" for line in crates.values())


def jobs():
    """One check for each processor, as far as the memory goes."""
    memory = os.sysconf("SC_PAGE_SIZE") * os.sysconf("SC_PHYS_PAGES")
    return max(1, min(os.cpu_count() or 1, memory // CHECK_BYTES))


def prove(crates, room):
    """Runs the gate over the copy. Gives what it printed of crates that failed, or None."""
    known = {"RT_JOBS": str(jobs()), **os.environ}
    proved, part, failed = 0, [], []
    with subprocess.Popen(
        ["rt", "ci"], cwd=room, env=known, stdin=subprocess.DEVNULL, stdout=subprocess.PIPE, stderr=subprocess.STDOUT, text=True, errors="replace"
    ) as gate:
        for line in gate.stdout:
            if line.startswith("== "):
                part = []
            part.append(line)
            if done := re.match(r"rt: (\S+) (proved$|is kept)", line):
                proved += 1
                say(f"{'proved' if done[2] == 'proved' else 'taken'}: {done[1]} ({proved} of {len(crates)})")
            elif "NOT PROVED" in line or "FAILED" in line:
                failed += part
                part = []
    # (where it says nothing of a crate, its last words tell)
    return None if gate.returncode == 0 else "".join(failed or part)


def build(crates):
    say(f"building from {len(crates)} crates; what this machine has not proved yet is proved, which takes up to an hour on four processors")
    with tempfile.TemporaryDirectory(prefix="wasi-virt-") as room:
        begun = os.path.join(room, "build_begun")
        with open(begun, "w", encoding="utf-8"):
            pass
        copy_sources(crates, room)
        said = prove(crates, room)
        if said is not None:
            print(said, file=sys.stderr)
            say("not built: the check failed, as is said above")
            sys.exit(NOT_BUILT)
        os.makedirs(in_program(), exist_ok=True)
        made = os.path.join(room, "crates", PROGRAM, "out", PROGRAM)
        # (the program may be running)
        shutil.copy(made, in_program(f"{PROGRAM}.new"))
        os.replace(in_program(f"{PROGRAM}.new"), in_program(PROGRAM))
        note_sources(crates)
        shutil.copy2(begun, in_program("build_begun"))


def note_sources(crates):
    """Notes, for later calls, the folders that the program was built from."""
    with open(in_program("sources"), "w", encoding="utf-8") as file:
        file.writelines(f"crates/{name}\n" for name in crates)


def main():
    crates = crates_below(PROGRAM)
    if is_due(crates):
        # one build at a time: whoever waited finds the program built
        with open(os.path.join(TOP, "crates.txt"), encoding="utf-8") as lock:
            fcntl.flock(lock, fcntl.LOCK_EX)
            if is_due(crates):
                build(crates)
    os.execv(in_program(PROGRAM), [in_program(PROGRAM), *WORDS])


main()
