"""Modules that the parts of tests/program.py make, and what stands in modules, read anew."""
from .comparisons import TOP


def number(value):
    low = bytearray()
    while value > 127:
        low.append(value & 127 | 128)
        value >>= 7
    return bytes([*low, value])


def name(text):
    data = text if isinstance(text, bytes) else text.encode()
    return number(len(data)) + data


def row(entries):
    return number(len(entries)) + b"".join(entries)


def section(code, content):
    return bytes([code]) + number(len(content)) + content


def custom(title, content):
    return section(0, name(title) + content)


def module_of(*sections):
    return b"\0asm\1\0\0\0" + b"".join(sections)


def functions(count, exports=(), names=(), more=()):
    """A module with so many functions that do nothing, exports of (name, function) and names of functions."""
    parts = [section(1, row([b"\x60\0\0"])), section(3, row([b"\0"] * count))]
    parts.append(section(7, row([name(text) + b"\0" + number(at) for text, at in exports])))
    parts.append(section(10, row([b"\2\0\x0b"] * count)))
    listed = row([number(at) + name(text) for at, text in names])
    parts.append(custom("name", b"\1" + number(len(listed)) + listed))
    return module_of(*parts, *more)


def read_number(data, at):
    value, shift = 0, 0
    while True:
        byte = data[at]
        value, shift, at = value | (byte & 127) << shift, shift + 7, at + 1
        if byte < 128:
            return value, at


def sections(data):
    """The code, the content and the whole length of each section."""
    at = 8
    while at < len(data):
        size, begin = read_number(data, at + 1)
        yield data[at], data[begin : begin + size], begin + size - at
        at = begin + size


def read_name(data, at):
    size, at = read_number(data, at)
    return data[at : at + size], at + size


def customs(data):
    """The name and the whole length of each custom section."""
    return [(read_name(content, 0)[0], length) for code, content, length in sections(data) if code == 0]


def named(data):
    """The name and the index of each function that the name section names, as far as that stands whole."""
    for code, content, _ in sections(data):
        title, at = read_name(content, 0) if code == 0 else (b"", 0)
        while title == b"name" and at < len(content):
            kind = content[at]
            size, at = read_number(content, at + 1)
            if kind == 1:
                count, row_at = read_number(content, at)
                for _ in range(count):
                    index, row_at = read_number(content, row_at)
                    text, row_at = read_name(content, row_at)
                    yield text, index
            at += size


TWO = functions(2, [("run", 1)], [(0, "gone"), (1, "main")], [custom(".debug_info", b"12345"), custom("notes", b"abc")])
BROKEN = TWO[:-1]
LEGACY = module_of(section(1, row([b"\x60\0\0"])), section(3, row([b"\0"])), section(7, row([name("f") + b"\0\0"])), section(10, row([b"\6\0\6\x40\x19\x0b\x0b"])))


def samples():
    folders = [TOP / "tests" / "samples", TOP.parent / "shared" / "samples"]
    paths = [path for folder in folders if folder.is_dir() for path in sorted(folder.glob("*.wasm"))]
    return [("two", TWO), ("broken", BROKEN), ("empty", b""), *((path.name, path.read_bytes()) for path in paths)]


EXTERNS = ("function", "table", "memory", "global", "tag")


def exports_of(data):
    """The name, the kind and the index of each export."""
    for code, content, _ in sections(data):
        count, at = read_number(content, 0) if code == 7 else (0, 0)
        for _ in range(count):
            text, at = read_name(content, at)
            index, behind = read_number(content, at + 1)
            yield text.decode(), EXTERNS[content[at]], index
            at = behind


def imports_of(data):
    """The module, the name, the kind and the index of each import."""
    before = [0] * len(EXTERNS)
    for code, content, _ in sections(data):
        count, at = read_number(content, 0) if code == 2 else (0, 0)
        for _ in range(count):
            module, at = read_name(content, at)
            text, at = read_name(content, at)
            kind = content[at]
            at = behind_types(content, at + 1, kind)
            yield module.decode(), text.decode(), EXTERNS[kind], before[kind]
            before[kind] += 1


def behind_types(content, at, kind):
    """The place behind the types of an import of this kind."""
    if kind in (1, 3):
        at += 1
        if content[at - 1] in (0x63, 0x64):
            at = read_number(content, at)[1]
    if kind == 3:
        return at + 1
    if kind in (1, 2):
        flags, at = content[at], at + 1
        for _ in range(1 + flags % 2):
            at = read_number(content, at)[1]
        return at
    return read_number(content, at + (kind == 4))[1]


def imported_functions(data):
    """How many functions are imported."""
    found = 0
    for code, content, _ in sections(data):
        count, at = read_number(content, 0) if code == 2 else (0, 0)
        for _ in range(count):
            at = read_name(content, read_name(content, at)[1])[1]
            found += content[at] == 0
            at = behind_types(content, at + 1, content[at])
    return found


def body_sizes(data):
    """How many bytes each body of the code section has."""
    for code, content, _ in sections(data):
        if code == 10:
            count, at = read_number(content, 0)
            for _ in range(count):
                size, at = read_number(content, at)
                yield size
                at += size
