#!/usr/bin/env python3
"""Writes docs/TRUSTED.md: the definitions that a reader must believe for what is proved of `wasi_virt` and of `wasi_inspect`.

It reads the clauses of both (crates/virt_engine/src/engine.rt, crates/inspect_engine/src/engine.rt) and the contracts of the traits
`Files` and `Sink`, and follows each name that they mention to its definition in the crates' specs/, and each name in that, to the end. Types that are declared in code
are followed through their fields. Where a name of a definition is also one of a variable, the definition counts, so the list may be
too long by a few and never too short. Standards and sections are those that the head of a file of definitions names.

usage: trusted.py           writes docs/TRUSTED.md
       trusted.py --check   exits with 1 where docs/TRUSTED.md is not what would be written
       trusted.py --why CRATE NAME   says by which names a definition is reached
"""

import collections
import os
import re
import sys

from check_docs import TOP, files_below, read

RESULT = f"{TOP}/docs/TRUSTED.md"
CALLS = [("virt_engine", "engine", "wasi_virt"), ("inspect_engine", "engine", "wasi_inspect")]
TRAITS = [("outside", "Files"), ("outside", "Sink")]

USE = re.compile(r"(?:pub |ghost )*use Rattle\.([a-z_0-9]+)\.specs\.([^ {;]+?)(?:\.\{(.*?)\}| as (\S+?))?;?$")
TOKEN = re.compile(r"[^\s(){}\[\],;:λ]+")
STANDARDS = [
    ("WebAssembly Core 2.0", r"WebAssembly Core 2\.0"),
    ("Component Model, Binary.md", r"Binary\.md"),
    ("Component Model, Explainer.md", r"Explainer\.md"),
    ("Component Model, CanonicalABI.md", r"CanonicalABI\.md|Canonical ABI"),
    ("Component Model, WIT.md", r"WIT\.md"),
    ("JSON, RFC 8259", r"RFC 8259"),
    ("WASI 0.2", r"WASI"),
]
NONE = "none named in the head"


class Definition:
    def __init__(self, home, name, kind):
        self.home, self.name, self.kind = home, name, kind
        self.lines = []
        self.context = ""

    @property
    def key(self):
        return (*self.home, self.name)

    def tokens(self):
        text = self.context + " " + " ".join(line.partition("--")[0] if line.lstrip().startswith("--") else line for line in self.lines)
        return set(TOKEN.findall(text))


class Module:
    """A file of definitions: its head, what it imports, and its definitions, constructors among them."""

    def __init__(self, crate, name, text):
        self.home = (crate, name)
        self.imports, self.aliases, self.definitions, self.parts = {}, {}, {}, {}
        lines = text.splitlines()
        self.head = head_of(lines)
        self._read(lines)

    def _read(self, lines):
        indent, context, current, inside = 0, "", None, None
        for line in lines:
            stripped = line.strip()
            if not stripped or stripped.startswith("--"):
                continue
            at = len(line) - len(line.lstrip())
            if self._is_use(stripped):
                continue
            if at == 0 and re.match(r"(module _|(abbrev |unfoldable )?mutual\s*$)", stripped):
                indent, context, current = 2, stripped if stripped.startswith("module") else "", None
                continue
            if at == 0 and indent == 2:
                indent, context = 0, ""
            begun = self._begun(stripped) if at == indent else None
            if begun:
                current = Definition(self.home, begun[1], begun[0])
                current.context = context
                self.definitions[begun[1]] = current
                inside = begun[0] if begun[0] == "data" else None
            if current is None:
                continue
            current.lines.append(stripped)
            if inside == "data" and at == indent + 2 and not begun:
                self.parts[stripped.split(" ")[0]] = current.name

    def _begun(self, line):
        """The kind and the name of the definition that a line begins, or nothing."""
        found = re.match(r"(?:(?:abbrev|unfoldable|pub) )*(record|data) (\S+)", line)
        if found:
            return found.group(1), found.group(2)
        found = re.match(r"((?:(?:abbrev|unfoldable|pub) )*)([^\s:(){}]+) :(?: |$)", line)
        return ("function", found.group(2)) if found and (found.group(1) or found.group(2) not in self.definitions) else None

    def _is_use(self, line):
        if not re.match(r"(pub |ghost )*use ", line):
            return False
        found = USE.match(line)
        if found:
            crate, path, names, alias = found.groups()
            if alias:
                self.aliases[alias] = (crate, path)
            for each in filter(None, map(str.strip, (names or "").split(","))):
                name, _, other = each.partition(" as ")
                self.imports[other or name] = (crate, path, name)
        return True


def head_of(lines):
    taken = []
    for line in lines:
        if not line.startswith("--"):
            break
        taken.append(line[2:].strip())
    return " ".join(taken)


def camel(text):
    return re.findall(r"[A-Z][A-Za-z0-9]*", text)


class Declared:
    """The types and traits of a crate's code, by name, each with its file and its text; and the models by which contracts see types."""

    START = re.compile(r"(?m)^(?:pub(?:\([a-z]+\))? )?(struct|enum|type|trait) ([A-Z]\w*)")
    MODEL = re.compile(r"(?m)^impl(?:<[^>]*>)? Model for ([A-Z]\w*)")

    def __init__(self, crate):
        self.found, self.models = {}, {}
        for path in files_below(f"{TOP}/crates/{crate}/src"):
            if not path.endswith(".rt"):
                continue
            text = re.sub(r"//[^\n]*", "", read(path))
            for it in self.START.finditer(text):
                self.found.setdefault(it.group(2), (it.group(1), text, text[it.start():self._end(text, it.end())]))
            for it in self.MODEL.finditer(text):
                self.models[it.group(1)] = (text, text[it.start():self._end(text, it.end())])

    @staticmethod
    def _end(text, at):
        """The place after a declaration: at its semicolon, or after the brackets that it opens."""
        depth = 0
        for place in range(at, len(text)):
            if text[place] in "{(":
                depth += 1
            elif text[place] in "})":
                depth -= 1
                if depth == 0 and text[place] == "}":
                    return place
            elif text[place] == ";" and depth == 0:
                return place
        return len(text)


class Library:
    def __init__(self):
        self.crates = [line.partition(":")[0] for line in read(f"{TOP}/crates.txt").splitlines() if ":" in line and line[0] != "#"]
        self.modules, self.declared = {}, {}
        for crate in self.crates:
            folder = f"{TOP}/crates/{crate}/specs"
            for path in files_below(folder):
                if path.endswith(".antt"):
                    name = os.path.relpath(path, folder)[:-5].replace("/", ".")
                    self.modules[crate, name] = Module(crate, name, read(path))

    def code(self, crate):
        if crate not in self.declared:
            self.declared[crate] = Declared(crate)
        return self.declared[crate]

    def types(self, crate):
        return self.code(crate).found

    def models(self, crate):
        return self.code(crate).models

    def named(self, crate, path, name):
        """What `Rattle.crate.specs.path.name` is: a key of a definition, of a type or constant of code or of something of the kit, or nothing."""
        if crate not in self.crates:
            return ("kit", crate, name)
        if path.endswith(".TheConstants"):
            return ("constant", crate, name)
        if path.startswith("declared."):
            # the type is the last part that is no `TheVariants`
            return ("type", crate, [it for it in path.split(".") if it != "TheVariants"][-1])
        module = self.modules.get((crate, path))
        if module is None:
            return None
        return self.within(module, name)

    def within(self, module, name):
        """What a name is in a module: one of its definitions, a part of one, or what it imports."""
        if name in module.definitions:
            return ("definition", *module.home, name)
        if name in module.parts:
            return ("definition", *module.home, module.parts[name])
        if name in module.imports:
            return self.named(*module.imports[name])
        return None

    def met(self, module, tokens):
        """What the tokens of a text name in a module."""
        symbols = {it.replace("◌", ""): it for it in [*module.definitions, *module.imports] if "◌" in it}
        for token in sorted(tokens):
            first, dot, rest = token.partition(".")
            if token in symbols:
                yield self.within(module, symbols[token])
            elif dot and first in module.aliases and rest:
                crate, path = module.aliases[first]
                yield self.named(crate, path, rest.split(".")[0])
            else:
                yield self.within(module, first)


def own_text(crate, text):
    """A file of code as a module: the definitions that its `ghost use` lines import."""
    module = Module(crate, "", "")
    for line in text.splitlines():
        module._is_use(line.strip())
    return module


def clauses_of(text, function):
    """The clauses of a function in a file of code: the comment before each, its name and its text."""
    start = re.search(rf"pub fn {function}\b.*?\) -> \w+\n", text, re.S).end()
    found, said = [], ""
    for line in text[start:].splitlines():
        if line.startswith("{"):
            break
        if line.strip().startswith("//"):
            said = line.strip()[2:].strip()
        clause = re.match(r"\s+ensures (\w+) \{(.*)\}$", line)
        if clause:
            found.append((said, clause.group(1), clause.group(2)))
    return found


def types_in(library, crate, text, body):
    """The types of this repository that a declaration in code names, by the file's `use` lines or in its own crate."""
    origin = {}
    for path, names in re.findall(r"(?m)^(?:pub )?use ([a-z_0-9]+)(?:::[a-z_0-9]+)*::(\{[^}]*\}|\w+);", text):
        for name in camel(names):
            origin[name] = crate if path == "crate" else path
    for name in sorted(set(camel(body))):
        home = origin.get(name, crate)
        if home in library.crates and name in library.types(home):
            yield ("type", home, name)


def followed(library, key):
    """What a definition, or a type or trait of code, mentions."""
    if key[0] == "definition":
        module = library.modules[key[1], key[2]]
        yield from library.met(module, module.definitions[key[3]].tokens())
    elif key[0] == "type":
        found = library.types(key[1]).get(key[2])
        if found:
            kind, text, body = found
            yield from types_in(library, key[1], text, body)
            if kind == "trait":
                yield from library.met(own_text(key[1], text), set(TOKEN.findall(body)))
        if key[2] in library.models(key[1]):
            text, body = library.models(key[1])[key[2]]
            yield from library.met(own_text(key[1], text), set(TOKEN.findall(body)))


def closure(library):
    """The clauses of each call, with the text that they stand in; and all that they reach, each with what it was first reached from."""
    calls, reached, due = [], {}, collections.deque()

    def reach(key, source):
        if key and key not in reached:
            reached[key] = source
            due.append(key)

    for crate, name, function in CALLS:
        text = read(f"{TOP}/crates/{crate}/src/{name}.rt")
        module, clauses = own_text(crate, text), clauses_of(text, function)
        calls.append((function, module, clauses))
        for _, clause, body in clauses:
            for key in library.met(module, set(TOKEN.findall(body))):
                reach(key, ("clause", crate, clause))
    for home, trait in TRAITS:
        reach(("type", home, trait), ("clause", home, "the outside"))
    while due:
        key = due.popleft()
        for other in followed(library, key):
            reach(other, key)
    return calls, reached


def citations(head):
    """What a head says of standards: what stands in brackets there, and names of sections."""
    found = [it for it in re.findall(r"\(([^()]*)\)", head) if any(re.search(pattern, it) for _, pattern in STANDARDS)]
    return "; ".join(it.rstrip(".") for it in found)


def standards_of(head):
    cited = citations(head) or head
    return [name for name, pattern in STANDARDS if re.search(pattern, cited)] or [NONE]


def subject(head):
    """The first sentence of a head, without what it cites."""
    plain = re.sub(r" ?\([^()]*\)", "", head)
    return re.split(r"(?<=[a-z\"`])\. ", plain + " ")[0].strip().rstrip(".") if plain else ""


def crate_head(crate):
    first = re.match(r"//! (.*)", read(f"{TOP}/crates/{crate}/src/lib.rt"))
    return first.group(1) if first else ""


def rows_of(library, reached):
    """By crate: the files of its definitions that are reached, with their names in the order in which they stand; and its types."""
    by_file, types, constants, kit = (collections.defaultdict(set) for _ in range(4))
    for key in reached:
        if key[0] == "definition":
            by_file[key[1], key[2]].add(key[3])
        elif key[0] == "type" and key[2] in library.types(key[1]):
            types[key[1]].add(key[2])
        elif key[0] == "constant":
            constants[key[1]].add(key[2])
        elif key[0] == "kit":
            kit[key[1]].add(key[2])
    return by_file, types, constants, kit


def lines_of(library, home, names):
    return sum(len(library.modules[home].definitions[name].lines) for name in names)


def counted(n, one, many=None):
    return f"{n:,} {one if n == 1 else many or one + 's'}"


def heading(by_file, types, lines, crates):
    total = f"{counted(sum(map(len, by_file.values())), 'definition')} in {counted(len(by_file), 'file')} of `specs/` ({counted(lines, 'line')} without comments)"
    declared = f"{counted(sum(map(len, types.values())), 'type')} that are declared in code, in {counted(len(crates), 'crate')}"
    return f"""# What a reader must believe

What is proved of the two programs is said by the clauses of `wasi_virt` (`crates/virt_engine/src/engine.rt`) and of `wasi_inspect` (`crates/inspect_engine/src/engine.rt`). A clause is made of definitions, and these of others. This list has all of them: {total}, and {declared}. If you have read them and agree with them, you need to read no other code and no proof. `README.md` says what else is trusted: the toolchain and its logic, the C library, the machine's files.

This file is generated: `tools/trusted.py` writes it, and `tools/trusted.py --check` says whether it is stale. `tools/trusted.py --why CRATE NAME` says by which definitions one is reached.
"""


def clause_table(library, calls):
    yield "## The clauses\n\n| Call | Clause | Begins with |\n|---|---|---|"
    for function, module, clauses in calls:
        for _, clause, body in clauses:
            first = sorted({key[3] for key in library.met(module, set(TOKEN.findall(body))) if key and key[0] == "definition"})
            yield f"| `{function}` | `{clause}` | {', '.join(f'`{it}`' for it in first)} |"
    yield "\nThey are said over any `Files` and `Sink`, so the contracts of these traits (`outside`) belong to them.\n"


def standard_table(library, by_file, kit):
    sums = collections.defaultdict(lambda: [0, 0])
    for home, names in by_file.items():
        for standard in standards_of(library.modules[home].head):
            sums[standard][0] += 1
            sums[standard][1] += len(names)
    yield "## By standard\n\nA file counts under each standard that its head names.\n\n| Standard | Files | Definitions |\n|---|---|---|"
    for standard in [*(name for name, _ in STANDARDS), NONE]:
        if standard in sums:
            yield f"| {standard} | {sums[standard][0]} | {sums[standard][1]:,} |"
    named = "; ".join(f"{counted(len(names), 'name')} of `{crate}`" for crate, names in sorted(kit.items()))
    yield f"\nFrom the kit, by which definitions here are written: {named}.\n"


def crate_lines(library, crate, by_file, types, constants):
    files = sorted(home for home in by_file if home[0] == crate)
    count = counted(sum(len(by_file[home]) for home in files), "definition")
    yield f"### `{crate}`: {count}" + (f", {counted(len(types[crate]), 'type')}" if types.get(crate) else "") + "\n"
    for home in files:
        module = library.modules[home]
        names = [it for it in module.definitions if it in by_file[home]]
        cited = citations(module.head)
        yield f"- **{home[1]}** ({len(names)}): {subject(module.head)}." + (f" *{cited}.*" if cited else "") + " " + ", ".join(f"`{it}`" for it in names)
    for what, names in (("Types", types), ("Constants", constants)):
        if names.get(crate):
            models = library.models(crate)
            yield f"- {what} of the code: " + ", ".join(f"`{it}`" + ("*" if it in models else "") for it in sorted(names[crate]))
    yield ""


def document(library):
    calls, reached = closure(library)
    by_file, types, constants, kit = rows_of(library, reached)
    lines = sum(lines_of(library, home, names) for home, names in by_file.items())
    crates = [it for it in library.crates if it in types or any(home[0] == it for home in by_file)]
    out = [heading(by_file, types, lines, crates), *clause_table(library, calls), *standard_table(library, by_file, kit)]
    out.append("## Crate by crate\n\nIn the order of `crates.txt`. A line is a file of `specs/`: what its head says, the standard and the section, and the definitions. A type with a star has a model, by which contracts see it: `impl Model for` it in the crate's `src/`.\n")
    for crate in crates:
        out += crate_lines(library, crate, by_file, types, constants)
    return "\n".join(out).rstrip() + "\n"


def why(library, crate, name):
    _, reached = closure(library)
    for key in [it for it in reached if it[1] == crate and it[-1] == name]:
        chain = []
        while key in reached:
            chain.append(f"{key[1]} {'.'.join(key[2:])}")
            key = reached[key]
        print(" <- ".join([*chain, f"clause {key[2]}"]))


def main(words):
    library = Library()
    if words[:1] == ["--why"] and len(words) == 3:
        return why(library, *words[1:])
    text = document(library)
    if words == ["--check"]:
        if not os.path.exists(RESULT) or read(RESULT) != text:
            print("docs/TRUSTED.md is stale: tools/trusted.py writes it", file=sys.stderr)
            return 1
        return 0
    if words:
        print(__doc__.split("usage: ")[1], file=sys.stderr)
        return 64
    with open(RESULT, "w", encoding="utf-8") as it:
        it.write(text)
    return 0


if __name__ == "__main__":
    sys.exit(main(sys.argv[1:]))
