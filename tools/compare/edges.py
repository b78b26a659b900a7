"""Cases at the edges, made by hand: weights around the limit, full tables, chains of links, the last blocks, addresses beside a rule."""

from .application import Step
from .listed import FUNCTIONS
from .plan import asks_host
from .policies import Policy, Rule, Tree, allowed
from .values import Answers, ipv4, ipv6, rounded

MANY = 1000


class Director:
    """Makes calls one by one. `last` is what the last call gave back, or nothing where it ended the run."""

    def __init__(self, explorer):
        self.explorer, self.planner = explorer, explorer.planner

    def call(self, key, *args, answer=None):
        """A call, with the host's answer, should it be asked."""
        function = FUNCTIONS[key]
        handles = [it for it in (args[0] if key == "poll" else args) if hasattr(it, "content")]
        if answer is None:
            answer = no_trap(self, function)
        asked = asks_host(self.planner.policy, function, handles) and not self.planner.is_full(function)
        return self.attempt(Step(function, list(args)), answer, answer if asked else None)

    def attempt(self, step, answer, given):
        before = len(self.explorer.history.steps)
        again = self.explorer.attempt([(step, given)], MANY)
        if again:
            retried, wanted = again[0]
            self.explorer.attempt([(retried, answer if wanted is not None else None)], MANY)
        made = self.explorer.history.steps[before:]
        return made[0] if made else None

    def drop(self, handle):
        self.planner.live.remove(handle)
        self.explorer.attempt([(Step(None, [handle]), None)], MANY)

    def handle(self, kind, content=None):
        """The newest live handle of a kind."""
        return [it for it in self.planner.of_kind(kind) if content in (None, it.content)][-1]


def ok(value=None):
    return {"value": {"ok": value}}


# ---- weights


def limited_policy(rng, limit):
    policy = allowed(rng)
    policy.limit, policy.set = limit, {}
    return policy


def by_answer(length):
    """Calls without texts and lists, and answers that weigh so much."""
    return [
        ("get-random-bytes", [0], {"value": [0] * length}),
        ("get-arguments", [], {"value": ["x" * (length - 8)]}),
        ("initial-cwd", [], {"value": {"some": "x" * length}}),
        ("get-environment", [], {"value": [["A", "x" * (length - 24)]]}),
        ("get-directories", [], {"value": [[7, "x" * (length - 16)]]}),
        ("input-stream-read", ["input-stream", 5], ok([0] * length)),
        ("descriptor-read", ["descriptor", 5, 0], ok([[0] * length, True])),
        ("descriptor-readlink-at", ["descriptor", "y"], ok("x" * (length - 8))),
        ("descriptor-readlink-at", ["descriptor", "y" * (length // 2)], ok("x" * (length - rounded(length // 2)))),
        ("output-stream-write", ["output-stream", [0] * length], ok()),
        ("descriptor-write", ["descriptor", [0] * length, 3], ok(3)),
        ("descriptor-stat-at", ["descriptor", [], "y" * length], {"value": {"err": "busy"}}),
        ("descriptor-symlink-at", ["descriptor", "y" * (length - 100), "y" * 97], ok()),
    ]


def with_handles(director):
    director.call("get-stdin", answer={"value": 1})
    director.call("get-stdout", answer={"value": 2})
    director.call("get-directories", answer={"value": [[3, "/"]]})


def weighing(place):
    """One of the calls above, a few bytes around the limit."""

    def made(director):
        limit = director.planner.policy.limit
        with_handles(director)
        for over in [-8, -1, 0, 1, 8]:
            key, args, answer = by_answer(limit + over)[place]
            given = [director.handle(it) if it in ("input-stream", "output-stream", "descriptor") else it for it in args]
            director.call(key, *given, answer=answer)

    return made


def polls(director):
    """Polls of as many handles as the limit takes, and of one more: of the host's alone, of those always ready, and of both."""
    limit = director.planner.policy.limit
    director.call("get-stdin", answer={"value": 1})
    director.call("input-stream-subscribe", director.handle("input-stream"), answer={"value": 5})
    hosted = director.handle("pollable", "Host")
    director.call("get-stdout")
    director.call("output-stream-subscribe", director.handle("output-stream"))
    always = director.handle("pollable", "Always")
    for count in [limit // 4 - 1, limit // 4, limit // 4 + 1]:
        director.call("poll", [hosted] * count, answer={"value": []})
        director.call("poll", [always] * count)
    for count in [limit // 8, limit // 8 + 2]:
        director.call("poll", [hosted] * (limit // 8), answer={"value": [1] * count})
    for mixed in [[hosted, always], [always, hosted, always], [hosted, hosted], [always], []]:
        director.call("poll", mixed, answer={"value": [0]})


# ---- tables


MAKERS = [
    ("get-stdin", []),
    ("get-stdout", []),
    ("get-stderr", []),
    ("get-terminal-stdin", []),
    ("get-terminal-stdout", []),
    ("instance-network", []),
    ("create-tcp-socket", ["ipv4"]),
    ("create-udp-socket", ["ipv6"]),
    ("get-directories", []),
    ("input-stream-subscribe", ["input-stream"]),
    ("output-stream-subscribe", ["output-stream"]),
    ("tcp-socket-subscribe", ["tcp-socket"]),
    ("monotonic-clock-subscribe-duration", [5]),
    ("resolve-addresses", ["network", "a"]),
    ("tcp-socket-finish-connect", ["tcp-socket"]),
    ("tcp-socket-accept", ["tcp-socket"]),
    ("udp-socket-stream", ["udp-socket", None]),
    ("input-stream-read", ["input-stream", 4]),
    ("output-stream-splice", ["output-stream", "input-stream", 4]),
    ("filesystem-error-code", ["error"]),
    ("descriptor-open-at", ["descriptor", [], "a", ["create"], ["read", "write"]]),
    ("descriptor-read-via-stream", ["descriptor", 0]),
    ("descriptor-append-via-stream", ["descriptor"]),
    ("descriptor-read-directory", ["descriptor"]),
]


def no_trap(director, function):
    """An answer of the host's other than a trap."""
    while True:
        made = Answers(director.planner.rng, director.planner.policy).of(function, 0)
        if made != "trap":
            return made


def some_answer(director, key):
    """An answer that makes handles."""
    function = FUNCTIONS[key]
    if key == "input-stream-read":
        return {"value": {"err": {"last-operation-failed": 9}}}
    made = no_trap(director, function)
    while function.result[0] == "result" and "ok" not in made["value"]:
        made = no_trap(director, function)
    return made


def tables(director):
    """Whatever makes handles, over and over, while there are few places; then the same after drops."""
    for _ in range(3):
        for key, args in MAKERS:
            there = {it.kind: it for it in director.planner.live}
            if all(not isinstance(it, str) or it not in KINDS_USED or it in there for it in args):
                director.call(key, *[there.get(it, it) if isinstance(it, str) else it for it in args], answer=some_answer(director, key))
    for handle in list(director.planner.live)[::2]:
        director.drop(handle)
    for key, args in MAKERS[:9]:
        director.call(key, *args, answer=some_answer(director, key))


KINDS_USED = {"input-stream", "output-stream", "descriptor", "network", "tcp-socket", "udp-socket", "error"}


# ---- files


def chains(director):
    """Chains of 38 to 42 links, followed or not, with and without something after them."""
    director.call("get-directories")
    root = director.handle("descriptor", "Node")
    for i in range(37, 42):
        for end in ["", "/", "/.", "/x"]:
            for flags in [[], ["symlink-follow"]]:
                director.call("descriptor-stat-at", root, flags, f"k{i}{end}")
    for i in [38, 39, 40, 41]:
        director.call("descriptor-open-at", root, ["symlink-follow"], f"k{i}", [], ["read"])
        director.call("descriptor-readlink-at", root, f"k{i}")
        director.call("descriptor-metadata-hash-at", root, ["symlink-follow"], f"d{i}/n255")
        director.call("descriptor-metadata-hash-at", root, [], f"d{i}")
        director.call("descriptor-open-at", root, [], f"d{i}/../d{i}/n2", [], ["read"])


def chain_tree():
    """42 links in a row to a file, the same to a folder, and a folder of 300 files."""
    nodes = {"end": b"end of the chain", **{f"wide/n{i}": str(i).encode() * (i % 7) for i in range(300)}}
    for i in range(42):
        nodes[f"k{i}"] = ("link", f"k{i - 1}" if i else "end")
        nodes[f"d{i}"] = ("link", f"./d{i - 1}" if i else "wide")
    return Tree("/t", nodes)


def wide(director):
    """Each name of a folder with more than 256 nodes in it, and names between them."""
    director.call("get-directories")
    root = director.handle("descriptor", "Node")
    for i in [0, 1, 9, 10, 99, 100, 127, 128, 200, 254, 255, 256, 257, 298, 299, 300]:
        director.call("descriptor-metadata-hash-at", root, [], f"wide/n{i}")
    director.call("descriptor-open-at", root, [], "wide", ["directory"], ["read"])
    director.call("descriptor-read-directory", director.handle("descriptor", "Node"))
    for _ in range(302):
        director.call("directory-entry-stream-read-directory-entry", director.handle("directory-entry-stream"))


def blocks(director):
    """Files that grow by turns to the last block, shrink, go, and are renamed while they are open."""
    director.call("get-directories")
    root = director.handle("descriptor", "ScratchRoot")
    names = ["a", "b", "c", "d"]
    files = {}
    for name in names:
        if director.call("descriptor-open-at", root, [], name, ["create"], ["read", "write"]).result.get("ok") is not None:
            files[name] = director.handle("descriptor", "ScratchFileWrite")
    for size in [1, 4095, 4096, 4097, 8192, 9000, 12288, 20000, 5, 0, 4096]:
        for it in files.values():
            director.call("descriptor-set-size", it, size)
            director.call("descriptor-write", it, list(b"0123456789"), size)
            director.call("descriptor-read", it, 20, max(0, size - 5))
    for it in files.values():
        director.call("descriptor-append-via-stream", it)
        out = director.handle("output-stream", "ScratchOutEnd")
        for length in [0, 3, 4000, 96, 1, 8000]:
            director.call("output-stream-write", out, list(bytes(i % 251 for i in range(length))))
        director.call("output-stream-blocking-write-zeroes-and-flush", out, 4096)
        director.call("descriptor-read-via-stream", it, 2)
        director.call("input-stream-read", director.handle("input-stream", "ScratchIn"), 30)
        director.call("descriptor-stat", it)
    for old, new in [("a", "b"), ("b", "z"), ("z", "a"), ("c", "c"), ("a", "n" * 256), ("a", "x\0")]:
        director.call("descriptor-rename-at", root, old, root, new)
        director.call("descriptor-unlink-file-at", root, old)
        director.call("descriptor-stat-at", root, [], new)
    for it in list(files.values()):
        director.drop(it)
    for name in [*names, "z"]:
        director.call("descriptor-unlink-file-at", root, name)


# ---- addresses


RULES = [
    Rule(4, 0x0A010203, 17, [(443, 443), (8000, 8080)]),
    Rule(6, 0x20010DB8000000010000000000000001, 65, [(1, 2)]),
    Rule(4, 0xFFFFFFFF, 32, []),
    Rule(6, 1 << 127, 1, [(0, 0), (65535, 65535)]),
    Rule(6, (1 << 128) - 1, 64, [(7, 9)]),
]


def beside(rng, rule):
    """The network's address with one bit turned, for each bit, and each port beside a range."""
    bits = 32 if rule.family == 4 else 128

    def made(port, address):
        return ipv4(port, address) if rule.family == 4 else ipv6(rng, port, address)

    first, last = (rule.ports or [(0, 65535)])[0]
    for bit in sorted({0, 1, bits - rule.length - 1, bits - rule.length, bits - rule.length + 1, bits // 2 - 1, bits // 2, bits - 1}):
        if 0 <= bit < bits:
            yield made(first, rule.network ^ 1 << bit)
    for port in sorted({first - 1, first, last, last + 1, (first + last) // 2}):
        yield made(port % 65536, rule.network)


def gate(director):
    """Each function that goes by rules, with addresses beside each rule."""
    director.call("instance-network", answer={"value": 1})
    director.call("create-tcp-socket", "ipv4", answer=ok(2))
    director.call("create-udp-socket", "ipv4", answer=ok(3))
    network, tcp, udp = (director.handle(it) for it in ["network", "tcp-socket", "udp-socket"])
    director.call("udp-socket-stream", udp, None, answer=ok([4, 5]))
    out = director.handle("outgoing-datagram-stream")
    for rule in RULES:
        for it in beside(director.planner.rng, rule):
            director.call("tcp-socket-start-connect", tcp, network, it, answer=ok())
            director.call("tcp-socket-start-bind", tcp, network, it, answer=ok())
            some = {"some": it}
            director.call("outgoing-datagram-stream-send", out, [{"data": [1], "remote-address": None}, {"data": [], "remote-address": some}], answer=ok(2))
        director.call("udp-socket-start-bind", udp, network, it, answer=ok())
        director.call("udp-socket-stream", udp, {"some": it}, answer={"value": {"err": "timeout"}})
    director.call("resolve-addresses", network, "a", answer=ok(6))


def ruled(rng, names):
    policy = allowed(rng)
    policy.sockets, policy.connect, policy.bind, policy.names = "rules", RULES, RULES[:2], names
    return policy


def with_slots(policy, slots):
    policy.slots = slots
    return policy


def tree_policy(rng):
    return Policy("virtual", trees=[Tree("/first", {"x": b"1"}), chain_tree()])


def scratch_policy(blocks_, files):
    return Policy("scratch", scratch=("/tmp", blocks_, files), trees=[Tree("/t", {"x": b"1"})], stdio={"stdin": "ignore", "stdout": "ignore", "stderr": "ignore"})


def half(rng, limit):
    policy = limited_policy(rng, limit)
    policy.stdio["stdout"] = "ignore"
    return policy


def virtual_slots(rng, slots):
    policy = scratch_policy(2, 3)
    policy.slots, policy.deny, policy.monotonic = slots, "error", 5
    return policy


# each case by its name: its policy, and its calls
EDGES = {
    **{f"weights-{limit}-{i}": (lambda rng, n=limit: limited_policy(rng, n), weighing(i)) for limit in [65536, 65543, 65552] for i in range(13)},
    "polls-65536": (lambda rng: half(rng, 65536), polls),
    "polls-65549": (lambda rng: half(rng, 65549), polls),
    "tables-1": (lambda rng: with_slots(allowed(rng), 1), tables),
    "tables-2": (lambda rng: with_slots(allowed(rng), 2), tables),
    "tables-3": (lambda rng: with_slots(ruled(rng, True), 3), tables),
    "tables-virtual-2": (lambda rng: virtual_slots(rng, 2), tables),
    "tables-virtual-3": (lambda rng: virtual_slots(rng, 3), tables),
    "chains": (tree_policy, chains),
    "wide": (tree_policy, wide),
    "blocks-1": (lambda rng: scratch_policy(1, 1), blocks),
    "blocks-3": (lambda rng: scratch_policy(3, 3), blocks),
    "blocks-7": (lambda rng: scratch_policy(7, 4), blocks),
    "gate": (lambda rng: ruled(rng, False), gate),
    "gate-names": (lambda rng: ruled(rng, True), gate),
}
