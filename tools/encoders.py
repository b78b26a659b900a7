"""The bytes of core modules and components, by small functions: what the tools that write them share.

Core modules are as WebAssembly Core 2.0 has them (chapter 5), components as the Component Model's Binary.md has them. A function gives
the bytes of the item after which it is named; `section` and `many` put items together, and `write_all` writes files.
"""

import os

MODULE, COMPONENT = b"\0asm\1\0\0\0", b"\0asm\x0d\0\1\0"
U32, U64, STRING = 0x79, 0x77, 0x73
I32, I64 = 0x7F, 0x7E


def leb(n):
    """A number without sign in LEB128."""
    out = b""
    while True:
        low, n = n & 127, n >> 7
        if n == 0:
            return out + bytes([low])
        out += bytes([low | 128])


def signed(n):
    """A number with a sign in LEB128; the index of a type where a value type may stand."""
    out = b""
    while True:
        low, n = n & 127, n >> 7
        if (n == 0 and not low & 64) or (n == -1 and low & 64):
            return out + bytes([low])
        out += bytes([low | 128])


def text(s):
    """A name: its length and its bytes in UTF-8."""
    return leb(len(s)) + s.encode()


def many(items):
    """A list: how many items, and then each."""
    items = list(items)
    return leb(len(items)) + b"".join(items)


def section(number, body):
    return bytes([number]) + leb(len(body)) + body


def section_of(number, items):
    """A section that is a list of items."""
    return section(number, many(items))


def write_all(folder, made):
    """Writes each of the pairs of a name and bytes as NAME.wasm into a folder, which is made where it is not there."""
    os.makedirs(folder, exist_ok=True)
    for name, content in made:
        with open(os.path.join(folder, f"{name}.wasm"), "wb") as file:
            file.write(content)


# ---- core modules

def const(n):
    return b"\x41" + signed(n)


def call(n):
    return b"\x10" + leb(n)


def local(n):
    return b"\x20" + leb(n)


DROP = b"\x1a"


def module(imports=(), functions=(), exports=(), start=None, memory=False):
    """Imports are (module, name, type), functions (type, locals, body), exports (name, kind, index); a type is (params, results)."""
    types = []

    def place(ty):
        if ty not in types:
            types.append(ty)
        return types.index(ty)

    ins = [text(m) + text(n) + b"\0" + leb(place(ty)) for m, n, ty in imports]
    funcs = [leb(place(ty)) for ty, _, _ in functions]
    out = MODULE
    out += section_of(1, [b"\x60" + many([bytes([I32])] * p) + many([bytes([I32])] * r) for p, r in types])
    if ins:
        out += section_of(2, ins)
    out += section_of(3, funcs)
    if memory:
        out += section_of(5, [b"\0\1"])
    out += section_of(7, [text(n) + bytes([k]) + leb(i) for n, k, i in exports])
    if start is not None:
        out += section(8, leb(start))
    bodies = []
    for _, locals_, body in functions:
        code = (many([leb(locals_) + bytes([I32])]) if locals_ else many([])) + body + b"\x0b"
        bodies.append(leb(len(code)) + code)
    return out + section_of(10, bodies)


# ---- components

def component(*sections):
    return COMPONENT + b"".join(sections)


def core_module(m):
    return section(1, m)


def nested(c):
    return section(4, c)


def core_instances(*items):
    return section_of(2, items)


def of_module(index, **args):
    return b"\0" + leb(index) + many([text(name.replace("_", "-")) + b"\x12" + leb(i) for name, i in args.items()])


def of_core_items(*items):
    """Of functions alone, or of (name, kind, index)."""
    return b"\1" + many([text(n) + bytes([k]) + leb(i) for n, k, i in items])


def instances(*items):
    return section_of(5, items)


def of_component(index, *args):
    return b"\0" + leb(index) + many([text(n) + bytes([sort]) + leb(i) for n, sort, i in args])


def inline(*items):
    """An instance of (name, sort, index)."""
    return b"\1" + many([b"\0" + text(n) + bytes([sort]) + leb(i) for n, sort, i in items])


FUNC, TYPE, INSTANCE = 1, 3, 5


def aliases(*items):
    return section_of(6, items)


def from_instance(sort, instance, name):
    return bytes([sort, 0]) + leb(instance) + text(name)


def from_core(kind, instance, name):
    return bytes([0, kind, 1]) + leb(instance) + text(name)


def types(*items):
    return section_of(7, items)


def func(params, result=None):
    return b"\x40" + many([text(n) + ty for n, ty in params]) + (b"\0" + result if result is not None else b"\1\0")


def prim(ty):
    return bytes([ty])


def own(i):
    return b"\x69" + leb(i)


def borrow(i):
    return b"\x68" + leb(i)


def pair_of(index):
    """A tuple of two values of the type with this index."""
    return b"\x6f" + many([signed(index)] * 2)


def option(ty):
    return b"\x6b" + ty


def result():
    return b"\x6a\0\0"


def outer_type(i):
    """A type of the component around an instance type."""
    return b"\2\3\2\1" + leb(i)


def instance_type(*items):
    return b"\x42" + many(items)


def declares(ty):
    return b"\1" + ty


def exports_type(name):
    return b"\4\0" + text(name) + b"\3\1"


def exports_func(name, ty):
    return b"\4\0" + text(name) + b"\1" + leb(ty)


def canons(*items):
    return section_of(8, items)


def lift(f, ty, *options):
    return b"\0\0" + leb(f) + many(options) + leb(ty)


def lower(f, *options):
    return b"\1\0" + leb(f) + many(options)


def resource_new(r):
    return b"\2" + leb(r)


def resource_drop(r):
    return b"\3" + leb(r)


def memory_option(i):
    return b"\3" + leb(i)


def realloc_option(i):
    return b"\4" + leb(i)


def post_option(i):
    return b"\5" + leb(i)


def a_func(ty):
    return b"\1" + leb(ty)


def an_instance(ty):
    return b"\5" + leb(ty)


def an_import(name, desc):
    return b"\0" + text(name) + desc


def imports(*items):
    return section_of(10, [an_import(*it) for it in items])


def an_export(name, sort, index):
    return b"\0" + text(name) + bytes([sort]) + leb(index) + b"\0"


def exports(*items):
    return section_of(11, [an_export(*it) for it in items])
