"""Chooses calls: of which function, with which handles and which other arguments, under a policy."""

from pass_components import parts

from .application import Handle, Step
from .listed import points
from .values import PATHED, Answers, address, anything, around, long_bytes, number, weight

SOURCES = {
    "wasi:cli/stdin": ("stdio", "stdin"),
    "wasi:cli/stdout": ("stdio", "stdout"),
    "wasi:cli/stderr": ("stdio", "stderr"),
    "wasi:cli/exit": ("exit",),
    "wasi:clocks/wall-clock": ("wall",),
    "wasi:clocks/monotonic-clock": ("monotonic",),
    "wasi:random/random": ("random",),
    "wasi:random/insecure": ("random",),
    "wasi:random/insecure-seed": ("random",),
    "wasi:sockets/instance-network": ("sockets",),
    "wasi:sockets/tcp-create-socket": ("sockets",),
    "wasi:sockets/udp-create-socket": ("sockets",),
}
FLAGS = [["read"], ["read"], ["read", "write"], ["read", "write"], ["write"], [], ["mutate-directory"], ["read", "mutate-directory"]]
OPENS = [[], [], [], ["create"], ["create"], ["create"], ["directory"], ["exclusive"], ["create", "exclusive"], ["truncate"], ["create", "truncate"], ["create", "directory"]]


def word_of(policy, source):
    if source[0] == "stdio":
        return policy.stdio.get(source[1], "deny")
    return getattr(policy, source[0])


def is_denied(policy, function):
    source = SOURCES.get(function.interface)
    return source is not None and word_of(policy, source) == "deny"


def asks_host(policy, function, handles):
    """Whether the host is likely to be asked: what the policy says of the function, and all handles being the host's."""
    key, interface = function.key, function.interface
    if key == "get-environment":
        return policy.env_pass or bool(policy.allow)
    if key == "get-arguments":
        return policy.arguments is True
    if key == "initial-cwd":
        return policy.cwd is True
    if interface.startswith("wasi:cli/terminal-"):
        return policy.stdio.get(interface.split("-")[-1], "deny") == "allow"
    if key == "get-directories":
        return policy.host == "all" or bool(policy.passes)
    if interface in SOURCES:
        return word_of(policy, SOURCES[interface]) in ("allow", "rules")
    if key == "resolve-addresses" and policy.sockets == "rules" and not policy.names:
        return False
    return all(it.content == "Host" for it in handles)


def made_content(function, args, path_root):
    """What a handle stands for that a call made without the host."""
    short, first = function.short, args[0].content if args and isinstance(args[0], Handle) else None
    is_scratch = first is not None and first.startswith("Scratch")
    if short.startswith("subscribe"):
        return "Always"
    if short == "open-at" and is_scratch:
        return "ScratchRoot" if path_root else "ScratchFileWrite" if "write" in args[4] else "ScratchFile"
    simple = {
        "get-stdin": "EmptyIn",
        "get-stdout": "Discard",
        "get-stderr": "Discard",
        "read-via-stream": "ScratchIn" if is_scratch else "FileAt",
        "write-via-stream": "ScratchOut",
        "append-via-stream": "ScratchOutEnd",
        "read-directory": "ScratchEntries" if is_scratch else "Entries",
        "open-at": "Node",
    }
    return simple.get(short, "Host")


class Planner:
    """Chooses the next calls. `seen` counts, over all cases, how often a function met certain contents."""

    def __init__(self, rng, policy, functions, drops, seen):
        self.rng, self.policy, self.seen = rng, policy, seen
        self.functions = [it for it in functions if not is_denied(policy, it)]
        self.denied = [it for it in functions if is_denied(policy, it)]
        self.drops, self.live, self.answers = set(drops), [], Answers(rng, policy)
        self.by_function = {}

    def of_kind(self, kind):
        return [it for it in self.live if it.kind == kind]

    def next(self):
        """A call or a drop, and the host's answer where it will be asked for one."""
        rng = self.rng
        droppable = [it for it in self.live if it.kind in self.drops and (it.content != "ScratchRoot" or rng.random() < 0.2)]
        if droppable and rng.random() < (0.25 if len(droppable) > 25 or (self.policy.slots or 99) < 6 else 0.1):
            handle = rng.choice(droppable)
            self.live.remove(handle)
            return Step(None, [handle]), None
        pool = self.denied if self.denied and rng.random() < 0.02 else self.functions
        found = [it for it in (self.candidate(rng.choice(pool)) for _ in range(6)) if it]
        found += [it for it in (self.about_a_handle() for _ in range(4)) if it]
        if not found:
            found = [it for it in map(self.candidate, self.functions) if it]
        if not found:
            return None
        roots = [it for it in self.functions if it.key == "get-directories" and self.lacks_folders()]
        if roots and rng.random() < 0.3:
            found = [(roots[0], [])]
        function, handles = min(found, key=lambda it: self.rank(*it))
        self.by_function[function.key] = self.by_function.get(function.key, 0) + 1
        self.seen[key_of(function, handles)] += 1
        return self.call(function, handles)

    def lacks_folders(self):
        """Whether no folder of the policy is open."""
        own = self.policy.trees or self.policy.scratch
        return own and not any(it.content in ("Node", "ScratchRoot") for it in self.live)

    def rank(self, function, handles):
        """Low for what was rarely called, and for what the policy is about."""
        made = (1 + 2 * self.seen[key_of(function, handles)] + 0.3 * self.by_function.get(function.key, 0)) * self.rng.random()
        return made * 0.3 if is_about(self.policy.name, function, handles) else made

    def call(self, function, handles):
        args = self.arguments(function, handles)
        given = sum(weight(ty, value) for ty, value in zip(function.params, args))
        asked = asks_host(self.policy, function, handles) and not self.is_full(function)
        return Step(function, args), self.answers.of(function, given) if asked else None

    def is_full(self, function):
        """Whether there is no place for a handle of the result."""
        places = self.policy.slots or 256
        return any(len(self.of_kind(kind)) >= places for kind in own_kinds(function.result))

    def candidate(self, function):
        """The function with handles for its borrows, if they are there."""
        handles = []
        for ty in function.params:
            if ty[0] == "borrow":
                there = self.of_kind(ty[1])
                if not there:
                    return None
                contents = sorted({it.content for it in there})
                wanted = self.rng.choice(contents)
                handles.append(self.rng.choice([it for it in there if it.content == wanted]))
        if function.key == "poll":
            handles = self.polled()
            if not handles and self.rng.random() < 0.95:
                return None
        return function, handles

    def about_a_handle(self):
        """A method of a handle, whose content is chosen first."""
        if not self.live:
            return None
        wanted = self.rng.choice(sorted({it.content for it in self.live}))
        handle = self.rng.choice([it for it in self.live if it.content == wanted])
        methods = [it for it in self.functions if it.kind == handle.kind]
        makers = [it for it in methods if own_kinds(it.result) and it.short != "subscribe"]
        opens = [it for it in makers if it.short == "open-at" and handle.content in ("Node", "ScratchRoot")]
        if makers and handle.content != "Host" and self.rng.random() < 0.5:
            methods = opens if opens and self.rng.random() < 0.7 else makers
        found = self.candidate(self.rng.choice(methods)) if methods else None
        return (found[0], [handle, *found[1][1:]]) if found else None

    def polled(self):
        there = self.of_kind("pollable")
        if not there:
            return []
        rng = self.rng
        if rng.random() < 0.4:
            kind = rng.choice(there).content
            there = [it for it in there if it.content == kind]
        if self.policy.limit and rng.random() < 0.3:
            handle = rng.choice(there)
            return [handle] * (around(rng, self.policy.limit if rng.random() < 0.5 else self.policy.limit // 2) // 4)
        return [rng.choice(there) for _ in range(rng.randrange(1, 8))]

    # ---- arguments

    def arguments(self, function, handles):
        if function.key == "poll":
            return [handles]
        left = list(handles)
        return [left.pop(0) if ty[0] == "borrow" else self.argument(function, ty, i, handles) for i, ty in enumerate(function.params)]

    def argument(self, function, ty, place, handles):
        rng, policy = self.rng, self.policy
        if ty == ("prim", "string"):
            return self.text(function, handles, place)
        if ty == ("list", ("prim", "u8")):
            return self.some_bytes()
        if ty[0] == "variant" and ty[2] == "ip-socket-address":
            return address(rng, policy.bind if function.short == "start-bind" else policy.connect)
        if ty[0] == "option" and ty[1][0] == "variant":
            return None if rng.random() < 0.2 else {"some": address(rng, policy.connect)}
        if ty[0] == "list":
            return [self.datagram() for _ in range(rng.choice([0, 1, 1, 2, 3, 6]))]
        if ty[0] == "flags":
            return self.flags(ty, function)
        if ty == ("prim", "u64"):
            return self.length(function, place)
        return anything(rng, ty)

    def length(self, function, place):
        rng = self.rng
        if function.short in ("write", "write-via-stream", "set-size", "write-zeroes", "blocking-write-zeroes-and-flush") and rng.random() < 0.8:
            return rng.choice([0, 1, 3, 10, 100, 4000, 4096, 5000, 8192, 20000])
        return number(rng, 64)

    def flags(self, ty, function):
        if ty[2] == "path-flags":
            return ["symlink-follow"] if self.rng.random() < 0.5 else []
        if ty[2] == "open-flags":
            return self.rng.choice(OPENS) if self.rng.random() < 0.6 else ["create"]
        return self.rng.choice(FLAGS) if self.rng.random() < 0.9 else anything(self.rng, ty)

    def datagram(self):
        there = None if self.rng.random() < 0.2 else {"some": address(self.rng, self.policy.connect)}
        return {"data": self.some_bytes() if self.rng.random() < 0.2 else [1, 2, 3][: self.rng.randrange(4)], "remote-address": there}

    def some_bytes(self):
        rng = self.rng
        if self.policy.limit and rng.random() < 0.2:
            return long_bytes(around(rng, self.policy.limit))
        length = rng.choice([0, 1, 2, 3, 8, 31, 32, 33, 64, 100, 100, rng.randrange(300), 4096, 4097] if rng.random() < 0.3 else [0, 1, 2, 3, 8, 20])
        return list(rng.randbytes(length))

    def text(self, function, handles, place):
        rng = self.rng
        if self.policy.limit and rng.random() < 0.15:
            limit = self.policy.limit if rng.random() < 0.6 else self.policy.limit // 2
            return "y" * around(rng, limit)
        if function.short not in PATHED or not handles:
            return rng.choice(["localhost", "", "example.com", "é.example"])
        if function.short == "symlink-at" and place == 1:
            return rng.choice(["a", "/x", ""])
        handle = handles[-1] if len(handles) > 1 and place > 2 else handles[0]
        return self.path(handle)

    def path(self, handle):
        """A path below a folder: mostly one that is there, or was, with steps aside."""
        rng = self.rng
        if handle.content.startswith("Scratch"):
            if rng.random() < 0.6:
                return rng.choice("abc")
            return rng.choice(["a", "a", "b", "b", "c", "d", "./a", "a/", "b//", ".", "..", "", "/a", "a/b", "x/a", "n" * 255, "n" * 256, "a\0b", "./.", "é", "../a", ".a", "..."])
        if handle.content != "Node":
            return rng.choice(["a", "a/b", ".", "..", "", "/etc", "é", "x" * 300])
        note = handle.note or {}
        nodes = note.get("tree").nodes if note.get("tree") else {}
        below = note.get("path", "")
        there = sorted(nodes)
        if below is not None and below and rng.random() < 0.8:
            there = [it[len(below) + 1 :] for it in there if it.startswith(below + "/")]
        chain = [it for it in there if it.startswith("k") and it[1:].isdigit() and int(it[1:]) > 37]
        if chain and rng.random() < 0.3:
            return rng.choice(chain) + rng.choice(["", "", "/", "/."])
        links = [it for it in there if isinstance(nodes.get(it), tuple)]
        if links and rng.random() < 0.4:
            there = links
        path = rng.choice(there or ["a", "b"])
        if "/" in path and rng.random() < 0.3:
            path = path[: path.rindex("/")]
        return self.aside(path)

    def aside(self, path):
        rng = self.rng
        kind = rng.random()
        if kind < 0.55:
            return path
        if kind < 0.62:
            return path + rng.choice(["/", "/.", "//", "/..", "/./"])
        if kind < 0.69:
            return rng.choice(["./", "../", ".//", "a/../", "d/../"]) + path
        if kind < 0.75:
            return path + "/" + rng.choice(["a", "b", "f", "..", "../a", "c/d"])
        if kind < 0.8:
            return path.replace("/", "//", 1).replace("/", "/./", 1)
        if kind < 0.86:
            return path[:-1] if len(path) > 1 else path + "x"
        return rng.choice(["", ".", "..", "/", "/a", "none", "a\0", "n" * 256, path + "x", "a/b/c", "../..", "é"])

    # ---- what comes of a call

    def note_of(self, function, args, result_index):
        """Where in a tree a handle of a folder or a file stands, as far as the path says it."""
        if function.key == "get-directories":
            return {"tree": self.policy.trees[result_index], "path": ""}
        if function.short != "open-at" or not args[0].note:
            return None
        tree, path = args[0].note["tree"], args[0].note["path"]
        parts = [it for it in args[2].split("/") if it not in ("", ".")]
        full = "/".join([*([path] if path else []), *parts]) if path is not None and ".." not in parts else None
        if full is not None and any(isinstance(tree.nodes.get(full[:i]), tuple) for i in range(1, len(full) + 1)):
            full = None
        return {"tree": tree, "path": full}


def is_about(name, function, handles):
    """Whether a kind of policies is made for the sake of such calls."""
    contents = {it.content for it in handles}
    if name == "scratch":
        return function.short == "open-at" or any(it.startswith("Scratch") for it in contents)
    if name == "virtual":
        return bool(contents & {"Node", "FileAt", "Entries"})
    if name == "rules":
        return function.interface.startswith("wasi:sockets")
    if name == "limited":
        return any(points(ty) for ty in [*function.params, function.result])
    return False


def own_kinds(ty):
    """The kinds of own handles in a type outside lists, where there is a type."""
    if ty is None or ty[0] == "list":
        return []
    return [ty[1]] if ty[0] == "own" else [kind for it in parts(ty) for kind in own_kinds(it)]


def key_of(function, handles):
    contents = [it.content for it in handles]
    if function.key == "poll":
        contents = sorted(set(contents))
    return function.key, "+".join(contents) or "-"
