"""Values at random: what the host answers, and what calls are given."""

from .listed import cases
from .policies import FOLDERS, NAMES, PARTS, TEXTS

NUMBERS = [0, 0, 1, 1, 2, 3, 5, 7, 8, 10, 100, 4095, 4096, 4097, 8192, 65535, 65536, (1 << 31) - 1, 1 << 31, (1 << 32) - 1, 1 << 32, (1 << 63) - 1, 1 << 63, (1 << 64) - 1]
BITS = {"u8": 8, "u16": 16, "u32": 32, "u64": 64}
SIGNED = {"s8": 8, "s16": 16, "s32": 32, "s64": 64}
PATHED = {"stat-at", "set-times-at", "create-directory-at", "remove-directory-at", "unlink-file-at", "symlink-at", "link-at", "rename-at", "open-at", "readlink-at", "metadata-hash-at"}


def number(rng, bits):
    return rng.choice(NUMBERS) & ((1 << bits) - 1) if rng.random() < 0.8 else rng.getrandbits(bits)


def some_text(rng):
    return rng.choice([*TEXTS, *PARTS]) if rng.random() < 0.8 else "".join(rng.choice("ab/.é€😀 ") for _ in range(rng.randrange(30)))


def anything(rng, ty):
    """A value of a type, in which each handle is a host's name of a thing."""
    form = ty[0]
    if form == "prim":
        if ty[1] in BITS:
            return number(rng, BITS[ty[1]])
        if ty[1] in SIGNED:
            return number(rng, SIGNED[ty[1]]) - (1 << SIGNED[ty[1]] - 1)
        if ty[1] == "char":
            return rng.choice("aZ/é€😀 ")
        return rng.random() < 0.5 if ty[1] == "bool" else some_text(rng)
    if form == "own":
        return rng.choice([rng.randrange(50), rng.randrange(1 << 32), 0, 4294967295, 7, 7])
    if form == "list":
        longest = 24 if ty[1] == ("prim", "u8") else 4
        return [anything(rng, ty[1]) for _ in range(rng.randrange(longest + 1))]
    if form == "record":
        return {name: anything(rng, it) for name, it in ty[1]}
    if form == "tuple":
        return [anything(rng, it) for it in ty[1]]
    if form == "flags":
        return [it for it in ty[1] if rng.random() < 0.5]
    if form == "enum":
        return rng.choice(ty[1])
    return one_case(rng, ty)


def one_case(rng, ty):
    if ty[0] == "result":
        label = "ok" if rng.random() < 0.8 else "err"
    else:
        label = rng.choice([it for it, _ in cases(ty)])
    if ty[0] == "option" and label == "none":
        return None
    payload = dict(cases(ty))[label]
    return {label: None if payload is None else anything(rng, payload)}


# ---- answers of the host


def around(rng, limit):
    """A length of bytes whose weight is 8 bytes around a limit."""
    return max(0, limit + rng.randrange(-17, 10))


def long_bytes(length):
    return [0] * length


class Answers:
    """The host's answers under a policy."""

    def __init__(self, rng, policy):
        self.rng, self.policy = rng, policy

    def of(self, function, given):
        """An answer of a function whose arguments weigh so much."""
        rng, limit = self.rng, self.policy.limit
        if limit and rng.random() < 0.25:
            long = self.near(function, limit - given if rng.random() < 0.7 else limit)
            if long is not None:
                return {"value": long}
        if rng.random() < (0.5 if function.key == "exit" else 0.02):
            return "trap"
        if function.result is None:
            return {}
        if function.key == "get-environment":
            return {"value": self.environment()}
        if function.key == "get-directories":
            return {"value": self.folders()}
        return {"value": anything(rng, function.result)}

    def environment(self):
        names = [*NAMES, *self.policy.allow, *self.policy.set, "other"]
        return [[self.rng.choice(names), self.rng.choice(TEXTS)] for _ in range(self.rng.randrange(9))]

    def folders(self):
        names = [*FOLDERS, *[host for host, _ in self.policy.passes] * 3]
        return [[self.rng.randrange(1000), self.rng.choice(names)] for _ in range(self.rng.randrange(6))]

    def near(self, function, limit):
        """An answer that weighs about so much."""
        rng, ty = self.rng, function.result
        length = around(rng, limit)
        if ty == ("list", ("prim", "u8")):
            return long_bytes(length)
        if ty == ("list", ("prim", "u32")):
            return [0] * (length // 4)
        if function.key in ("input-stream-read", "input-stream-blocking-read"):
            return {"ok": long_bytes(length)}
        if function.key == "descriptor-read":
            return {"ok": [long_bytes(length), True]}
        if function.key in ("descriptor-readlink-at",):
            return {"ok": "x" * length}
        if function.key in ("error-to-debug-string",):
            return "x" * length
        if function.key == "initial-cwd":
            return {"some": "x" * length}
        if function.key == "get-arguments":
            return ["x" * max(0, length - 24), "ab"]
        if function.key == "get-environment":
            own = sum(16 + rounded(len(k.encode())) + rounded(len(v.encode())) for k, v in self.policy.set.items())
            return [["A", "x" * max(0, length - rng.choice([24, 40, 40 + own]))], *[["other", ""]] * rng.randrange(2)]
        if function.key == "get-directories":
            return [[5, "x" * max(0, length - rng.choice([16, 24, 40]))]]
        if function.key == "directory-entry-stream-read-directory-entry":
            return {"ok": {"some": {"type": "directory", "name": "x" * length}}}
        return None


def rounded(n):
    return (n + 7) // 8 * 8


def weight(ty, value):
    """What the texts and lists of an argument weigh."""
    form = ty[0]
    if ty == ("prim", "string"):
        return rounded(len(value.encode()))
    if form == "list":
        if ty[1] == ("prim", "u8"):
            return rounded(len(value))
        inner = 4 if ty[1][0] == "borrow" else 44
        return rounded(inner * len(value)) + sum(weight(ty[1], it) for it in value if ty[1][0] != "borrow")
    if form == "record":
        return sum(weight(it, value[name]) for name, it in ty[1])
    return 0


# ---- addresses


def ipv4(port, address):
    return {"ipv4": {"port": port, "address": list(address.to_bytes(4, "big"))}}


def ipv6(rng, port, address):
    made = address.to_bytes(16, "big")
    groups = [made[i] * 256 + made[i + 1] for i in range(0, 16, 2)]
    return {"ipv6": {"port": port, "flow-info": rng.getrandbits(32), "address": groups, "scope-id": rng.getrandbits(32)}}


def address(rng, rules):
    """An address: of a rule, or one bit or one port from it, or any."""
    if not rules or rng.random() < 0.15:
        if rng.random() < 0.5:
            return ipv4(number(rng, 16), rng.getrandbits(32))
        return ipv6(rng, number(rng, 16), rng.getrandbits(128))
    rule = rng.choice(rules)
    bits = 32 if rule.family == 4 else 128
    free = bits - rule.length
    made = rule.network >> free << free | (rng.getrandbits(free) if free else 0)
    if rule.length and rng.random() < 0.35:
        made ^= 1 << (bits - 1 - rng.choice([rule.length - 1, rng.randrange(rule.length)]))
    first, last = rng.choice(rule.ports or [(0, 65535)])
    port = rng.choice([first, last, rng.randrange(first, last + 1), first - 1, last + 1]) % 65536
    if rule.family == 6 and rng.random() < 0.1:
        # (the same numbers in the other family)
        return ipv4(port, made & 0xFFFFFFFF)
    return ipv4(port, made) if rule.family == 4 else ipv6(rng, port, made)
