"""Reads of a component what it exports: the functions, by the names that a script calls them by, with the types of their parameters."""

PRIMS = {0x7F: "bool", 0x7E: "s8", 0x7D: "u8", 0x7C: "s16", 0x7B: "u16", 0x7A: "s32", 0x79: "u32", 0x78: "s64", 0x77: "u64", 0x74: "char", 0x73: "string"}
FUNC, TYPE, COMPONENT, INSTANCE = 1, 3, 4, 5


class Unread(Exception):
    """Bytes that aren't read here."""


class Reader:
    def __init__(self, content, at=0, end=None):
        self.content, self.at, self.end = content, at, len(content) if end is None else end

    def byte(self):
        self.at += 1
        return self.content[self.at - 1]

    def number(self):
        value = shift = 0
        while True:
            byte = self.byte()
            value |= (byte & 127) << shift
            shift += 7
            if byte < 128:
                return value

    def part(self):
        """A reader of what its size says; this one goes on after it."""
        length = self.number()
        self.at += length
        return Reader(self.content, self.at - length, self.at)

    def text(self):
        part = self.part()
        return self.content[part.at : part.end].decode()

    def many(self, read):
        return [read() for _ in range(self.number())]

    def maybe(self, read):
        return read() if self.byte() else None


class Scope:
    """The index spaces of a component or of a type with declarations, and what it exports."""

    def __init__(self, outer=None, given=None):
        self.outer, self.given = outer, given
        self.spaces = {FUNC: [], TYPE: [], COMPONENT: [], INSTANCE: [], 2: []}
        self.exports = {}

    # ---- types

    def value_type(self, r):
        byte = r.content[r.at]
        if byte in PRIMS:
            r.at += 1
            return ("prim", PRIMS[byte])
        return self.spaces[TYPE][r.number()]

    def defined(self, r):
        """A type definition."""
        form = r.content[r.at]
        if form in PRIMS:
            return self.value_type(r)
        r.at += 1
        value = lambda: self.value_type(r)
        if form == 0x3F:
            r.byte()
            r.maybe(r.number)
            return ("resource",)
        if form == 0x40:
            params = r.many(lambda: (r.text(), self.value_type(r)))
            return ("func", params, self.result(r))
        if form in (0x41, 0x42):
            return self.declared(r)
        if form == 0x72:
            return ("record", r.many(lambda: (r.text(), self.value_type(r))), "", "")
        if form == 0x71:
            return ("variant", r.many(lambda: self.case(r)), "", "")
        if form in (0x6E, 0x6D):
            return ("flags" if form == 0x6E else "enum", r.many(r.text), "", "")
        if form == 0x70:
            return ("list", value())
        if form == 0x6F:
            return ("tuple", r.many(value))
        if form == 0x6B:
            return ("option", value())
        if form == 0x6A:
            return ("result", r.maybe(value), r.maybe(value))
        if form in (0x69, 0x68):
            r.number()
            return ("own", "")
        raise Unread(f"type {form:#x}")

    def result(self, r):
        if r.byte() == 0:
            return self.value_type(r)
        r.number()
        return None

    def case(self, r):
        made = r.text(), r.maybe(lambda: self.value_type(r))
        r.byte()
        return made

    def declared(self, r):
        """An instance type, or a component type: what it exports."""
        inner = Scope(self)

        def one():
            kind = r.byte()
            if kind == 1:
                inner.spaces[TYPE].append(inner.defined(r))
            elif kind == 2:
                inner.alias(r)
            elif kind in (3, 4):
                name, (sort, item) = inner.name(r), inner.described(r)
                inner.spaces[sort].append(item)
                if kind == 4:
                    inner.exports[name] = (sort, item)
            else:
                raise Unread(f"declaration {kind}")

        r.many(one)
        return ("exports", inner.exports)

    def described(self, r):
        """A description of an import or an export: its sort, and the type of it."""
        sort = r.byte()
        if sort == TYPE:
            return (TYPE, self.spaces[TYPE][r.number()] if r.byte() == 0 else ("resource",))
        if sort in (FUNC, COMPONENT, INSTANCE):
            return (sort, self.spaces[TYPE][r.number()])
        raise Unread(f"description {sort}")

    def name(self, r):
        r.byte()
        return r.text()

    # ---- definitions

    def alias(self, r):
        sort = r.byte()
        if sort == 0:
            r.byte()
        target = r.byte()
        if target == 2:
            up, index = r.number(), r.number()
            scope = self
            for _ in range(up):
                scope = scope.outer
            if sort:
                self.spaces[sort].append(scope.spaces[sort][index])
            return
        index, name = r.number(), r.text()
        if sort:
            self.spaces[sort].append(self.spaces[INSTANCE][index][1][name][1])

    def instance(self, r):
        if r.byte() == 1:
            items = r.many(lambda: (self.name(r), self.item(r)))
            self.spaces[INSTANCE].append(("exports", dict(items)))
            return
        component = self.spaces[COMPONENT][r.number()]
        given = dict(r.many(lambda: (r.text(), self.item(r))))
        part, outer = component
        self.spaces[INSTANCE].append(("exports", Scope(outer, given).component(Reader(part.content, part.at, part.end))))

    def item(self, r):
        sort = r.byte()
        if sort == 0:
            r.byte()
            r.number()
            return (0, None)
        return (sort, self.spaces[sort][r.number()])

    def canon(self, r):
        kind = r.byte()
        if kind > 1:
            r.number()
            return
        r.byte()
        r.number()
        r.many(lambda: r.number() if r.byte() > 2 else None)
        if kind == 0:
            self.spaces[FUNC].append(self.spaces[TYPE][r.number()])

    def imported(self, r):
        name, (sort, item) = self.name(r), self.described(r)
        self.spaces[sort].append(self.given[name][1] if self.given and name in self.given else item)

    def exported(self, r):
        name, sort = self.name(r), r.byte()
        if sort == 0:
            r.byte()
        index = r.number()
        stated = r.maybe(lambda: self.described(r))
        if sort:
            item = self.spaces[sort][index] if not stated or sort == TYPE else stated[1]
            self.spaces[sort].append(item)
            self.exports[name] = (sort, item)

    def component(self, r):
        r.at += 8
        reads = {5: self.instance, 6: self.alias, 7: lambda it: self.spaces[TYPE].append(self.defined(it)), 8: self.canon, 10: self.imported, 11: self.exported}
        while r.at < r.end:
            kind, part = r.byte(), r.part()
            if kind == 4:
                self.spaces[COMPONENT].append((part, self))
            elif kind in reads:
                part.many(lambda: reads[kind](part))
        return self.exports


def exported_functions(content):
    """Each exported function by the name that a script calls it by, with the types of its parameters."""
    found = {}
    for name, (sort, item) in Scope().component(Reader(content)).items():
        if sort == FUNC:
            found[name] = [ty for _, ty in item[1]]
        elif sort == INSTANCE:
            inner = {f"{name}#{it}": ty for it, (of, ty) in item[1].items() if of == FUNC}
            found.update({it: [ty for _, ty in made[1]] for it, made in inner.items()})
    return found
