"""What the callers of tests/c.sh answer, and what stands in modules, read anew: for tests/c.py and tests/roots.py."""
import contextlib
import re
import struct
import subprocess
import sys
import tempfile

sys.dont_write_bytecode = True
from hostile import joined, leb, number, sections

NO_NAME = 2**32 - 1
# More bytes than that are handed over in a file.
MOST_BYTES_OF_A_WORD = 30_000
INVALID, UNKNOWN_FLAG, NOT_FOUND = 1, 5, 6
STATUSES = {
    (0, b""): 0,
    (1, b"walrus-gc: The input WebAssembly is invalid\n"): 1,
    (1, b"walrus-gc: a count or size passes 32 bits\n"): 2,
    (1, b"walrus-gc: out of memory\n"): 3,
    (2, b"walrus-gc: unknown word\n"): 5,
}


def run(command, data):
    ran = subprocess.run(command, input=data, capture_output=True, timeout=120, check=False)
    return ran.returncode, ran.stdout, ran.stderr


def asked(caller, name, words):
    """The command for a call with these words, of which bytes are told in hexadecimal."""
    return [caller, name, *(word.hex() if isinstance(word, bytes) else str(word) for word in words)]


def call(caller, name, data, *words):
    """The status and the bytes that a call answers, or the number that it tells."""
    with contextlib.ExitStack() as files:
        words = [in_a_file(files, word) if isinstance(word, bytes) and len(word) > MOST_BYTES_OF_A_WORD else word for word in words]
        status, output, _ = run(asked(caller, name, words), data)
    return status, output


def in_a_file(files, data):
    """The word for bytes that stand in a file."""
    file = files.enter_context(tempfile.NamedTemporaryFile())
    file.write(data)
    file.flush()
    return f"@{file.name}"


def by_program(program, words, data):
    """What the call has to answer, by what the program does."""
    status, output, told = run([program, *words], data)
    return STATUSES.get((status, told), f"no status: {status}, {told!r}"), output


# ---- lists of NAMEs


def records(pairs):
    """The bytes of a list of pairs, of a byte and a NAME."""
    return b"".join(struct.pack("<BI", kind, len(name)) + name for kind, name in pairs)


def choice(goes, stays=()):
    """The list that says what goes and what stays after all."""
    return records([*((0, name) for name in goes), *((1, name) for name in stays)])


def fits(pattern, name):
    """Whether a NAME, which may have stars, fits a name."""
    parts = re.findall(rb"\\\*|.", pattern, re.S)
    return re.fullmatch(b"".join(b".*" if it == b"*" else re.escape(it[-1:]) for it in parts), name, re.S) is not None


# ---- what stands in a module


def exports_in(content):
    """The exports of a section: the name, kind and index of each."""
    count, at = number(content, 0)
    for _ in range(count):
        size, at = number(content, at)
        name, at = content[at : at + size], at + size
        kind, (index, at) = content[at], number(content, at + 1)
        yield name, kind, index


def section(module, wanted):
    return next((content for number_of, content in sections(module) if number_of == wanted), b"\0")


def exports(module):
    return [*exports_in(section(module, 7))]


def with_exports(module, names):
    """The module of which the exports of these names alone are left."""
    left = [one for one in exports(module) if one[0] in names]
    content = leb(len(left)) + b"".join(leb(len(name)) + name + bytes([kind]) + leb(index) for name, kind, index in left)
    return joined([(number_of, content if number_of == 7 else was) for number_of, was in sections(module)])


def customs(module):
    """The names of the custom sections and their bytes, in order."""
    for number_of, content in sections(module):
        if number_of == 0:
            size, at = number(content, 0)
            yield content[at : at + size], content[at + size :]


def function_names(module):
    """The names of functions by their indices, of the name section."""
    found = {}
    for name, content in customs(module):
        at = 0
        while name == b"name" and at < len(content):
            kind, (size, at) = content[at], number(content, at + 1)
            if kind == 1:
                count, place = number(content, at)
                for _ in range(count):
                    index, place = number(content, place)
                    length, place = number(content, place)
                    found[index], place = content[place : place + length], place + length
            at += size
    return found


def imports(module):
    """The module, the name and the kind of each import of the first section of imports."""
    return imports_in(section(module, 2))


def imports_in(content):
    """The module, the name and the kind of each import, of those whose kinds are functions, tables of one type, memories, globals and tags."""
    count, at = number(content, 0)
    for _ in range(count):
        size, at = number(content, at)
        module, at = content[at : at + size], at + size
        size, at = number(content, at)
        name, kind, at = content[at : at + size], content[at + size], at + size + 1
        if kind in (0, 4):
            _, at = number(content, at + (kind == 4))
        elif kind == 3:
            at += 2
        else:
            at += kind == 1
            limits, at = content[at], at + 1
            for _ in range(1 + (limits & 1)):
                _, at = number(content, at)
        yield module, name, kind


# ---- the framing, whatever stands in the sections


def u32(data, at):
    """The number of 32 bits that stands at a place, and the place behind it."""
    value, behind = number(data, at)
    if behind - at > 5 or value >= 2**32:
        raise IndexError
    return value, behind


def framed(data):
    """The id, name, count of entries, place and size of each section, and where they end; or None where the bytes don't begin as a module."""
    if not data.startswith(b"\0asm\1\0\0\0"):
        return None
    found, at = [], 8
    try:
        while at < len(data):
            size, begin = u32(data, at + 1)
            content = data[begin : begin + size]
            name = named(content) if data[at] == 0 else None
            if len(content) < size:
                break
            found.append((data[at], name, counted(data[at], content), at, begin + size - at))
            at = begin + size
    except (IndexError, UnicodeDecodeError):
        pass
    return found, at


def named(content):
    """The name in front of a custom section's content."""
    size, at = u32(content, 0)
    if at + size > len(content):
        raise IndexError
    content[at : at + size].decode()
    return content[at : at + size]


def counted(kind, content):
    """The count in front of the content of a list, where one stands there."""
    try:
        return u32(content, 0)[0] if 0 < kind < 14 and kind not in (8, 12) else None
    except IndexError:
        return None


def placed(data):
    """The number, the content and the place of the content of each section."""
    at = 8
    while at < len(data):
        size, begin = number(data, at + 1)
        yield data[at], data[begin : begin + size], begin
        at = begin + size


# ---- what is told


def entries(listed):
    """The entries of a list: index, size, and name or None."""
    at = 0
    while at < len(listed):
        index, size, length = (int.from_bytes(listed[at + i : at + i + 4], "little") for i in (0, 4, 8))
        at += 12
        name = None if length == NO_NAME else listed[at : at + length]
        at += 0 if length == NO_NAME else length
        yield index, size, name


def text(told, at):
    """The text behind its length, or None, and the place behind it."""
    (length,) = struct.unpack_from("<I", told, at)
    return (None, at + 4) if length == NO_NAME else (told[at + 4 : at + 4 + length], at + 4 + length)


def imported(told):
    """The entries of a list of imports: kind, index, module and name."""
    at = 0
    while at < len(told):
        kind, index = struct.unpack_from("<BI", told, at)
        module, at = text(told, at + 5)
        name, at = text(told, at)
        yield kind, index, module, name


def links(told, at=0):
    """The links from a place on: the kind and index of each as a pair, its size or None, its name or None, and the names of its exports."""
    while at < len(told):
        kind, index, size = struct.unpack_from("<BII", told, at)
        name, at = text(told, at + 9)
        (count,), at = struct.unpack_from("<I", told, at), at + 4
        names = []
        for _ in range(count):
            one, at = text(told, at)
            names.append(one)
        yield (kind, index), None if size == NO_NAME else size, name, names


def reason(told):
    """A reason: the kind and index of the item as a pair, what makes the first link a root, what the item alone keeps or None, and the links."""
    kind, index, root, is_alone, functions, size = struct.unpack_from("<BIBBII", told)
    return (kind, index), root, (functions, size) if is_alone else None, [*links(told, 15)]
