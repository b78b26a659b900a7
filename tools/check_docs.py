#!/usr/bin/env python3
"""Checks that what the documents name is in the repository.

It reads README.md, docs/, examples/README.md and tools/README.md. Of each text between backquotes, and of each link, it asks:

- a file or folder is there: from the top of the repository, beside the document, or in a crate (`specs/Told`, `plan.rt`). A `*`, and a
  word in capitals (`NAME`), stand for anything, and what is built (`out/`) is passed over;
- `crate::name`: the crate is there and its sources have the name;
- a name of one word is a word of the sources, of crates.txt, of the tools or of the examples. In docs/PROVED.md it is a word of the crates
  that the heading or the line names;
- each crate of crates.txt has a place in docs/ARCHITECTURE.md and docs/PROVED.md, and the map of the layers names no others but those in
  brackets, which are still to come.

usage: check_docs.py
It prints FILE:LINE: what is wrong, a line each, and exits with 1; or nothing, and exits with 0.
"""

import glob
import os
import re
import sys

TOP = os.path.dirname(os.path.dirname(os.path.abspath(__file__)))
WORD = re.compile(r"[A-Za-z_][A-Za-z0-9_]*(?:-[A-Za-z0-9_]+)*")
IDENTIFIER = re.compile(r"[A-Za-z_][A-Za-z0-9_]*$")
KEBAB = re.compile(r"[a-z][a-z0-9]*(?:-[a-z0-9]+)+$")
PATH = re.compile(r"[A-Za-z0-9_.*/-]+$")
ENDINGS = (".md", ".rt", ".antt", ".py", ".sh", ".mjs", ".c", ".toml", ".txt", ".edit", ".wit")
# names of what is not in the repository: files that a reader makes, and programs and toolchains of others
ELSEWHERE = {"wasm-validate", "wasm2wat", "rattle-kit-13f"}


def read(path):
    with open(path, encoding="utf-8", errors="replace") as it:
        return it.read()


def files_below(folder):
    for at, folders, files in os.walk(folder):
        folders[:] = [it for it in folders if it not in ("out", "__pycache__", ".git")]
        for name in sorted(files):
            yield os.path.join(at, name)


def words_in(text):
    """The words of a text; of a word with hyphens its parts too."""
    found = set()
    for word in WORD.findall(text):
        found.add(word)
        found.update(word.split("-"))
    return found


class Sources:
    """What the repository has: the words of each crate, and all words."""

    def __init__(self):
        self.crates = [line.partition(":")[0] for line in read(f"{TOP}/crates.txt").splitlines() if ":" in line and line[0] != "#"]
        self.words = {name: self._crate_words(f"{TOP}/crates/{name}") for name in self.crates}
        self.all = set().union(*self.words.values())
        for path in [f"{TOP}/crates.txt", f"{TOP}/wasi-virt", *files_below(f"{TOP}/tools"), *files_below(f"{TOP}/examples")]:
            if path.endswith((".md", ".wasm")) or path == os.path.abspath(__file__):
                continue
            self.all |= words_in(read(path)) | words_in(os.path.relpath(path, TOP))

    @staticmethod
    def _crate_words(folder):
        found = set()
        for path in files_below(folder):
            found |= words_in(os.path.relpath(path, folder))
            if path.endswith((".rt", ".antt", ".edit")):
                found |= words_in(read(path))
        return found

    def has(self, word, crates=None):
        return word in self.all if crates is None else any(word in self.words[name] for name in crates)


def documents():
    named = [f"{TOP}/README.md", *sorted(glob.glob(f"{TOP}/docs/*.md")), f"{TOP}/examples/README.md", f"{TOP}/tools/README.md"]
    return [path for path in named if os.path.exists(path)]


def file_is_there(text, document):
    """Whether a path is one of a file, with or without its ending, that stands at one of the places from which documents name files."""
    pattern = re.sub(r"(?<![A-Za-z0-9])[A-Z][A-Z0-9]+(?![A-Za-z0-9])(?!\.md)", "*", text.rstrip("/"))
    beside = os.path.dirname(document)
    places = [TOP, beside, f"{beside}/*", f"{TOP}/crates", f"{TOP}/crates/*", f"{TOP}/crates/*/src", f"{TOP}/crates/*/specs", f"{TOP}/crates/*/proofs", f"{TOP}/crates/*/data", f"{TOP}/tools"]
    return any(glob.glob(f"{place}/{pattern}{end}") for place in places for end in ("", ".antt", ".rt"))


def is_path(text):
    if not PATH.match(text) or text in ENDINGS or "/out/" in text:
        return False
    first = text.split("/")[0]
    return text.endswith(ENDINGS) or first in ("docs", "crates", "tools", "examples", "specs", "proofs", "src", "must-fail") and "/" in text


def fault_of(text, document, sources, crates):
    """What is wrong with a text between backquotes, or nothing."""
    if text in ELSEWHERE:
        return None
    if is_path(text):
        return None if file_is_there(text, document) else f"no file `{text}`"
    parts = text.split("::")
    if len(parts) > 1 and all(map(IDENTIFIER.match, parts)):
        within = [parts.pop(0)] if parts[0] in sources.words else crates
        lacking = [it for it in parts if not sources.has(it, within)]
        return f"`{text}`: no `{lacking[0]}` there" if lacking else None
    if IDENTIFIER.match(text):
        is_known = text.isupper() or text in sources.words or sources.has(text, crates)
        return None if is_known else f"no name `{text}`" + (f" in {', '.join(crates)}" if crates else "")
    if KEBAB.match(text):
        return None if sources.has(text) else f"no name `{text}`"
    return None


def links_of(line):
    return [it for it in re.findall(r"\]\(([^)#\s]+)", line) if "://" not in it]


def crates_in(line, sources):
    return [it for it in re.findall(r"`([a-z0-9_]+)`", line) if it in sources.words]


def check(document, sources):
    is_strict = document.endswith("docs/PROVED.md")
    under, fenced = [], False
    for number, line in enumerate(read(document).splitlines(), 1):
        if line.startswith("```"):
            fenced = not fenced
        if fenced or line.startswith("    "):
            continue
        if is_strict and line.startswith("#"):
            under = crates_in(line, sources)
        crates = under + crates_in(line, sources) if is_strict and under else None
        for text in re.findall(r"`([^`]+)`", line):
            fault = fault_of(text, document, sources, crates)
            if fault:
                yield number, fault
        for target in links_of(line):
            if not os.path.exists(os.path.join(os.path.dirname(document), target)):
                yield number, f"no file {target}"


def unplaced(document, sources):
    named = set(re.findall(r"`([a-z0-9_]+)`", read(document)))
    return [(1, f"the crate `{name}` has no place") for name in sources.crates if name not in named]


def map_faults(document, sources):
    """The names in the map of the layers, which stands in lines with arrows, that are no crates."""
    for number, line in enumerate(read(document).splitlines(), 1):
        if not line.startswith("    ") or not re.search(r" (->|<-) ", line) or ";" not in line and "<-" not in line:
            continue
        names = re.findall(r"[a-z][a-z0-9_]*", re.sub(r"\[[^\]]*\]", "", line[18:]))
        yield from ((number, f"no crate {name}") for name in names if name not in sources.words)


def main():
    sources = Sources()
    count = 0
    for document in documents():
        faults = list(check(document, sources))
        if os.path.basename(document) in ("ARCHITECTURE.md", "PROVED.md"):
            faults += unplaced(document, sources)
        if os.path.basename(document) == "ARCHITECTURE.md":
            faults += map_faults(document, sources)
        for number, fault in faults:
            print(f"{os.path.relpath(document, TOP)}:{number}: {fault}")
        count += len(faults)
    return 1 if count else 0


if __name__ == "__main__":
    sys.exit(main())
