"""Core code by small functions: each gives the bytes of its instructions."""

from encoders import I32, I64, MODULE, call, leb, many, section, signed, text


def i32(n):
    return b"\x41" + signed(n - (1 << 32) if n >= 1 << 31 else n)


def i64(n):
    return b"\x42" + signed(n - (1 << 64) if n >= 1 << 63 else n)


def number(core, n):
    return i64(n) if core == I64 else i32(n)


def get(n):
    return b"\x20" + leb(n)


def set_(n):
    return b"\x21" + leb(n)


def tee(n):
    return b"\x22" + leb(n)


def get_global(n):
    return b"\x23" + leb(n)


def set_global(n):
    return b"\x24" + leb(n)


def load(at=0):
    return b"\x28\2" + leb(at)


def load_byte(at=0):
    return b"\x2d\0" + leb(at)


def store(at=0):
    return b"\x36\2" + leb(at)


def store_long(at=0):
    return b"\x37\3" + leb(at)


def block(body):
    return b"\x02\x40" + body + b"\x0b"


def loop(body):
    return b"\x03\x40" + body + b"\x0b"


def when(body):
    """Where the number on the stack isn't 0."""
    return b"\x04\x40" + body + b"\x0b"


def leave(depth=0):
    return b"\x0c" + leb(depth)


def leave_if(depth=0):
    return b"\x0d" + leb(depth)


ADD, SUB, MUL, AND, EQ, EQZ = b"\x6a", b"\x6b", b"\x6c", b"\x71", b"\x46", b"\x45"
COPY = b"\xfc\x0a\0\0"
FILL = b"\xfc\x0b\0"


def body(code, locals_=()):
    """A function's entry in the code section: locals by groups of (count, type)."""
    made = many([leb(count) + bytes([core]) for count, core in locals_]) + code + b"\x0b"
    return leb(len(made)) + made


class Module:
    """A core module in the making. Imported functions come first, then those that are added."""

    def __init__(self):
        self.types, self.imports, self.functions, self.codes, self.exports = [], [], [], [], []
        self.globals, self.data, self.memory, self.imported, self.imported_globals = [], [], None, 0, 0

    def type_of(self, params, results):
        made = b"\x60" + many([bytes([it]) for it in params]) + many([bytes([it]) for it in results])
        if made not in self.types:
            self.types.append(made)
        return self.types.index(made)

    def import_function(self, module, name, params, results):
        self.imports.append(text(module) + text(name) + b"\0" + leb(self.type_of(params, results)))
        self.imported += 1
        return self.imported - 1

    def import_memory(self, module, name, pages):
        self.imports.append(text(module) + text(name) + b"\2\0" + leb(pages))

    def declare(self, params, results):
        """The index of a function whose code is given later."""
        self.functions.append(leb(self.type_of(params, results)))
        self.codes.append(None)
        return self.imported + len(self.functions) - 1

    def define(self, index, code, locals_=()):
        self.codes[index - self.imported] = body(code, locals_)

    def add(self, params, results, code, locals_=()):
        index = self.declare(params, results)
        self.define(index, code, locals_)
        return index

    def add_global(self, n):
        self.globals.append(b"\x7f\1" + i32(n) + b"\x0b")
        return len(self.globals) - 1

    def export(self, name, kind, index):
        self.exports.append(text(name) + bytes([kind]) + leb(index))

    def bytes(self):
        out = MODULE + section(1, many(self.types))
        if self.imports:
            out += section(2, many(self.imports))
        out += section(3, many(self.functions))
        if self.memory is not None:
            out += section(5, many([b"\0" + leb(self.memory)]))
        if self.globals:
            out += section(6, many(self.globals))
        out += section(7, many(self.exports)) + section(10, many(self.codes))
        if self.data:
            out += section(11, many([b"\0" + i32(at) + b"\x0b" + leb(len(it)) + it for at, it in self.data]))
        return out
