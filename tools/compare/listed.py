"""The listed functions, and the layout of their types in a core memory."""

from dataclasses import dataclass

from pass_components import parts, read_tables

SIZES = {"bool": 1, "u8": 1, "u16": 2, "u32": 4, "u64": 8}


@dataclass(frozen=True)
class Function:
    """A listed function: `key` is its name among all of them, `name` the one in its interface."""

    interface: str
    key: str
    name: str
    params: tuple
    result: tuple | None

    @property
    def kind(self):
        """The resource that it is a method of."""
        return self.name[len("[method]") :].split(".")[0] if self.name.startswith("[method]") else None

    @property
    def short(self):
        """The name after the last dot."""
        return self.name.split(".")[-1] if self.kind else self.name


TABLES = read_tables()
FUNCTIONS = {key: Function(interface, key, name, tuple(params), result) for interface, (_, rows) in TABLES.items() for key, (name, params, result) in rows.items()}
BY_NAME = {(it.interface, it.name): it for it in FUNCTIONS.values()}
KINDS = [kind for kinds, _ in TABLES.values() for kind in kinds]


def cases(ty):
    """The cases of a variant, an option, a result or an enum: their labels and payloads."""
    form = ty[0]
    if form == "variant":
        return ty[1]
    if form == "enum":
        return [(label, None) for label in ty[1]]
    if form == "option":
        return [("none", None), ("some", ty[1])]
    return [("ok", ty[1]), ("err", ty[2])]


def fields(ty):
    """The types of a record's or a tuple's fields."""
    return [inner for _, inner in ty[1]] if ty[0] == "record" else ty[1]


def has_cases(ty):
    return ty[0] in ("variant", "option", "result", "enum")


def aligned(at, to):
    return (at + to - 1) // to * to


def align(ty):
    form = ty[0]
    if form == "prim":
        return 4 if ty[1] == "string" else SIZES[ty[1]]
    if form in ("record", "tuple"):
        return max((align(it) for it in fields(ty)), default=1)
    if has_cases(ty):
        return max([1] + [align(it) for _, it in cases(ty) if it is not None])
    return 1 if form == "flags" else 4


def size(ty):
    form = ty[0]
    if form == "prim":
        return 8 if ty[1] == "string" else SIZES[ty[1]]
    if form in ("record", "tuple"):
        at = 0
        for it in fields(ty):
            at = aligned(at, align(it)) + size(it)
        return aligned(at, align(ty))
    if has_cases(ty):
        most = max([0] + [size(it) for _, it in cases(ty) if it is not None])
        return aligned(payload_offset(ty) + most, align(ty))
    if form == "list":
        return 8
    return 1 if form == "flags" else 4


def payload_offset(ty):
    """Where the payload of a case stands; each listed variant has fewer than 256 cases."""
    return max([1] + [align(it) for _, it in cases(ty) if it is not None])


def placed_fields(ty):
    """Each field with its offset."""
    at = 0
    for it in fields(ty):
        at = aligned(at, align(it))
        yield at, it
        at += size(it)


def points(ty):
    """Whether a value of the type holds a pointer."""
    if ty is None:
        return False
    return ty[0] == "list" or ty == ("prim", "string") or any(points(it) for it in parts(ty))


def handles_in(ty, value, offset=0):
    """Each own handle of a value, as its kind, the way to it and its value: the way is a list of offsets, after each but the last a pointer is followed."""
    if ty is None:
        return
    form = ty[0]
    if form == "own":
        yield ty[1], [offset], value
    elif form == "list" and ty[1] != ("prim", "u8"):
        for i, it in enumerate(value):
            for kind, way, handle in handles_in(ty[1], it, i * size(ty[1])):
                yield kind, [offset, *way], handle
    elif form in ("record", "tuple"):
        values = [value[name] for name, _ in ty[1]] if form == "record" else value
        for (at, it), inner in zip(placed_fields(ty), values):
            yield from handles_in(it, inner, offset + at)
    elif form in ("variant", "option", "result"):
        if value is not None:
            label, inner = next(iter(value.items()))
            yield from handles_in(dict(cases(ty))[label], inner, offset + payload_offset(ty))
