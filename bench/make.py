#!/usr/bin/env python3
"""Makes a large valid module: make.py KIND MEGABYTES > FILE

KIND: small    many functions of a few operators each
      huge     four functions of one-byte operators alone (the worst case for memory)
      mixed    functions of some hundred operators: calls, constants, drops
      code     functions of some thousand operators, with locals
      bodies   functions of some hundred to some thousand operators: locals, constants, calls, blocks, branches, loads, stores
      body     one function of the operators of bodies
      nest     one function of blocks, each in the one before
      labels   one function of one br_table, a label for each byte
      unused   functions that each declare 50,000 locals which nothing uses, a function for each 16 bytes: 300 have 0.0048 MB
      locals   functions of 300 declared locals of four types, each used
      params   functions of one type, which has as many parameters as there are functions: 3,000 have 0.042 MB
      types    function types of ten parameters, each that of a function of its own: 100,000 have 3.2 MB
      rows     imports of functions, and as many globals: 294,000 of each have 10 MB
      entries  types, imports, globals, exports, segments of elements and of data in equal parts, and no code
      group    function types in one group, of which an exported function has the last, so that the group stays whole
      tables   tables, each with an active segment of one function, so that all of them stay
      every    every section: a fifth is code as that of bodies, and the rest the parts named below
      every:code, or every:PART,PART..: of that module the code alone, or the code and these parts
Of those before entries every function, import and global is exported, or called by one that is, so nothing is dropped but locals that
nothing uses; a MB of unused or of params asks for more memory than there is. Of every, all stays but the debug information and the data
count, which nothing needs. Its parts, items of each kind and as many of one as of the other:
      types      function types, no two of them the same
      functions  imports of functions, each of a type of its own
      tables     tables, each with an active segment that lists ten functions
      memories   memories, each with an active segment of a hundred bytes
      tags
      globals
      exports    as many of functions, and of each tag and each global
      names      for each item of the other parts, locals, and the module
      producers  as many tools
      customs    ten custom sections of other names, one of them of debug information
The parts that keep others are exports and tables: without them, what they would keep is dropped.
"""
import collections
import sys


def unsigned(n):
    out = bytearray()
    while True:
        byte = n & 0x7F
        n >>= 7
        if n:
            out.append(byte | 0x80)
        else:
            out.append(byte)
            return bytes(out)


def section(number, content):
    return bytes([number]) + unsigned(len(content)) + content


def sized(body):
    return unsigned(len(body)) + body


def listed(entries):
    return unsigned(len(entries)) + b"".join(entries)


def module(sections):
    return b"\x00asm\x01\x00\x00\x00" + b"".join(section(*it) for it in sections)


def function_exports(count, first=0):
    return listed([sized(b"f%d" % i) + b"\x00" + unsigned(first + i) for i in range(count)])


def bodies_of(kind, size):
    if kind == "bodies":
        return mixed_bodies(size)
    if kind == "body":
        operators = mixed_operators(0)
        return [MIXED_LOCALS + operators * (size // len(operators)) + b"\x0B"]
    if kind == "nest":
        # a block takes two bytes and its end
        return [b"\x00" + b"\x02\x40" * (size // 3) + b"\x0B" * (size // 3 + 1)]
    if kind == "labels":
        # the last label is that for all other numbers
        return [b"\x00\x41\x00\x0E" + unsigned(size) + b"\x00" * (size + 1) + b"\x0B"]
    if kind == "unused":
        return [b"\x01" + unsigned(50_000) + b"\x7F\x0B"] * (size // 16)
    if kind == "locals":
        return local_bodies(size)
    if kind == "huge":
        # no declarations, nops, end
        body = b"\x00" + b"\x01" * (size // 4 - 8) + b"\x0B"
        return [body] * 4
    if kind == "small":
        # each calls the next one: no declarations, call i + 1, end; the last calls itself
        bodies, total, index = [], 0, 0
        while total < size:
            body = b"\x00\x10" + unsigned(index + 1) + b"\x0B"
            bodies.append(body)
            total += len(body) + 2
            index += 1
        bodies[-1] = b"\x00\x10" + unsigned(index - 1) + b"\x0B"
        return bodies
    operators = b"\x41\xC0\x84\x3D\x1A\x01\x41\x7F\x1A"
    # no declarations, or four locals and three
    declarations, turns = (b"\x02\x04\x7F\x03\x7E", 10) if kind == "code" else (b"\x00", 1)
    bodies, total, index = [], 0, 0
    while total < size:
        body = declarations + operators * (20 + index % 60) * turns + b"\x10" + unsigned(index + 1) + b"\x0B"
        bodies.append(body)
        total += len(body) + 3
        index += 1
    bodies[-1] = declarations + operators * 20 + b"\x0B"
    return bodies


# Four locals and three, which mixed_operators uses.
MIXED_LOCALS = b"\x02\x04\x7F\x03\x7E"


def mixed_operators(callee):
    return (
        b"\x20\x00\x41\xC0\xC4\x07\x6A\x22\x01\x28\x02\x10\x21\x02"  # local 1 is local 0 and 123,456 more, local 2 what stands there
        b"\x02\x40\x20\x02\x0D\x00\x10" + unsigned(callee) + b"\x0B"  # a block: a branch out of it, a call
        b"\x42\x7B\x21\x04"  # local 4 is -5
        b"\x03\x40\x20\x01\x45\x0D\x00\x0B"  # a loop: a branch back
        b"\x20\x00\x20\x01\x36\x02\x08"  # a store
    )


def mixed_bodies(size, first=0):
    bodies, total, index = [], 0, 0
    while total < size:
        # each calls the next one
        body = MIXED_LOCALS + mixed_operators(first + index + 1) * (10 + index % 100) + b"\x0B"
        bodies.append(body)
        total += len(body) + 3
        index += 1
    bodies[-1] = b"\x00\x0B"
    return bodies


def local_bodies(size):
    # 75 locals of each type; each is read and dropped, one of each type in turn
    declarations = b"\x04" + b"".join(b"\x4B" + value for value in (b"\x7F", b"\x7E", b"\x7D", b"\x7C"))
    uses = b"".join(b"\x20" + unsigned(75 * of_type + i) + b"\x1A" for i in range(75) for of_type in range(4))
    bodies, total, index = [], 0, 0
    while total < size:
        # each calls the next one
        body = declarations + uses + b"\x10" + unsigned(index + 1) + b"\x0B"
        bodies.append(body)
        total += len(body) + 3
        index += 1
    bodies[-1] = declarations + uses + b"\x0B"
    return bodies


def entries_until(size, entry_of, beside=0):
    entries, total = [], 0
    while total < size:
        entries.append(entry_of(len(entries)))
        total += len(entries[-1]) + beside
    return listed(entries), len(entries)


def function_type(i):
    return b"\x60\x02\x7F\x7E\x01" + b"\x7F\x7E\x7D\x7C"[i % 4 :][:1]


def group_sections(size):
    types, type_count = entries_until(size, function_type)
    # one group; one function, whose body is one operator that fits each type
    return [
        (1, b"\x01\x4E" + types),
        (3, b"\x01" + unsigned(type_count - 1)),
        (7, b"\x01" + sized(b"f") + b"\x00\x00"),
        (10, b"\x01" + sized(b"\x00\x00\x0B")),
    ]


def table_sections(size):
    # each table takes three bytes, and its segment eight and those of its index
    segments, count = entries_until(
        size, lambda i: b"\x02" + unsigned(i) + b"\x41\x00\x0B\x00\x01\x00", beside=3)
    return [
        (1, b"\x01\x60\x00\x00"),
        (3, b"\x01\x00"),
        (4, unsigned(count) + b"\x70\x00\x01" * count),
        (9, segments),
        (10, b"\x01" + sized(b"\x00\x0B")),
    ]


def entry_sections(size):
    part = size // 6
    types, type_count = entries_until(part, function_type)
    imports, import_count = entries_until(
        part, lambda i: sized(b"env") + sized(b"f%d" % i) + b"\x00" + unsigned(i % type_count))
    globals_, _ = entries_until(part, lambda i: b"\x7F\x01\x41" + unsigned(i % 64) + b"\x0B")
    exports, _ = entries_until(part, lambda i: sized(b"e%d" % i) + b"\x00" + unsigned(i % import_count))
    # passive segments: ten functions each, twenty bytes each
    elements, _ = entries_until(
        part, lambda i: b"\x01\x00\x0A" + b"".join(unsigned((i + j) % import_count) for j in range(10)))
    segments, segment_count = entries_until(part, lambda i: b"\x01\x14" + b"twenty bytes of data")
    return [(1, types), (2, imports), (6, globals_), (7, exports), (9, elements), (12, unsigned(segment_count)), (11, segments)]


def parameter_sections(size):
    count = size // 14
    return [
        (1, b"\x01\x60" + sized(b"\x7F" * count) + b"\x00"),
        (3, unsigned(count) + b"\x00" * count),
        (7, function_exports(count)),
        (10, unsigned(count) + sized(b"\x00\x0B") * count),
    ]


def type_sections(size):
    count = size // 32
    # each body is one operator that fits each type
    return [
        (1, listed([parameters(i) for i in range(count)])),
        (3, listed([unsigned(i) for i in range(count)])),
        (7, function_exports(count)),
        (10, unsigned(count) + sized(b"\x00\x00\x0B") * count),
    ]


def row_sections(size):
    count = size // 34
    name = lambda i: sized(b"%05x" % i)
    functions = [name(i) + b"\x00" + unsigned(i) for i in range(count)]
    globals_ = [name(count + i) + b"\x03" + unsigned(i) for i in range(count)]
    return [
        (1, b"\x01\x60\x00\x00"),
        (2, listed([sized(b"") + name(i) + b"\x00\x00" for i in range(count)])),
        (6, unsigned(count) + b"\x7F\x00\x41\x00\x0B" * count),
        (7, listed(functions + globals_)),
    ]


PARTS = "types functions tables memories tags globals exports names producers customs".split()
# The bytes that the items of one row of the kind every take, one of each part but custom sections.
ROW = 410


def parameters(i):
    """A function type that differs for each number: its parameters are the digits of the number, and it has one result."""
    digits = bytes(b"\x7F\x7E\x7D\x7C"[i >> 2 * at & 3] for at in range(10))
    return b"\x60" + sized(digits) + b"\x01\x7F"


def export(word, number, kind, index):
    return sized(b"%s %07d" % (word, number)) + bytes([kind]) + unsigned(index)


def namings(indices, word):
    indices = list(indices)
    return unsigned(len(indices)) + b"".join(unsigned(i) + sized(b"%s %07d" % (word, i)) for i in indices)


def name_section(entries, functions, bodies):
    """The data of a custom section `name`, with names for all items of these entries, and for the locals that mixed_operators uses."""
    # the last body has no locals
    local_names = b"".join(unsigned(i) + namings((0, 1, 2, 4), b"local") for i in range(functions - bodies, functions - 1))
    spaces = ((4, b"type", 1), (5, b"table", 4), (6, b"memory", 5), (7, b"global", 6), (8, b"elements", 9), (9, b"data", 11), (11, b"tag", 13))
    return b"".join([
        section(0, sized(b"every section")),
        section(1, namings(range(functions), b"function")),
        section(2, unsigned(bodies - 1) + local_names),
        *(section(number, namings(range(len(entries[of])), word)) for number, word, of in spaces if entries[of]),
    ])


def add_rows(entries, parts, count, functions):
    """The entries of so many items of each part, beside those of the code; functions is how many there are of all."""
    rows = range(count)
    if "types" in parts:
        entries[1] += map(parameters, rows)
    if "functions" in parts:
        own_type = 1 if "types" in parts else 0
        entries[2] += (sized(b"env") + sized(b"function %07d" % i) + b"\x00" + unsigned(own_type * (i + 1)) for i in rows)
    if "tables" in parts:
        entries[4] += (b"\x70\x01\x0A" + unsigned(100 + i) for i in rows)
        ten = lambda i: b"".join(unsigned((i * 10 + j) % functions) for j in range(10))
        entries[9] += (b"\x02" + unsigned(i) + b"\x41\x00\x0B\x00\x0A" + ten(i) for i in rows)
    if "memories" in parts:
        entries[5] += (b"\x01\x01" + unsigned(1 + i % 65536) for i in rows)
        entries[11] += (b"\x02" + unsigned(i + 1) + b"\x41\x00\x0B" + sized(b"ten bytes\n" * 10) for i in rows)
    if "tags" in parts:
        entries[13] += (b"\x00\x00" for i in rows)
    if "globals" in parts:
        entries[6] += (b"\x7F\x01\x41" + unsigned(i) + b"\x0B" for i in rows)
    if "exports" in parts:
        entries[7] += (export(b"function", i, 0, i % functions) for i in rows)
        entries[7] += (export(b"tag", i, 4, i) for i in range(len(entries[13])))
        entries[7] += (export(b"global", i, 3, i) for i in range(len(entries[6])))


def custom_sections(entries, parts, count, functions, bodies, size):
    """The custom sections of the parts; those that aren't called name or producers have this size together."""
    sections = []
    if "names" in parts:
        sections.append((0, sized(b"name") + name_section(entries, functions, bodies)))
    if "producers" in parts:
        tools = b"".join(sized(b"tool %07d" % i) + sized(b"1.0.0") for i in range(count))
        sections.append((0, sized(b"producers") + b"\x01" + sized(b"processed-by") + unsigned(count) + tools))
    if "customs" in parts:
        names = [b".debug_info", *(b"section %d" % i for i in range(9))]
        sections += ((0, sized(name) + b"\xC5" * (size // 10)) for name in names)
    return sections


def every_sections(parts, size):
    """A fifth of code, of what is left a tenth of custom sections, and else rows: of these the code and the parts that are wanted."""
    others = size - size // 5
    count = others * 9 // 10 // ROW
    first = count if "functions" in parts else 0
    bodies = mixed_bodies(size // 5, first)
    functions = first + len(bodies)
    entries = collections.defaultdict(list, {1: [b"\x60\x00\x00"], 5: [b"\x00\x01"], 7: [export(b"start", 0, 0, first)]})
    entries[3] = [b"\x00"] * len(bodies)
    add_rows(entries, parts, count, functions)
    entries[10] = list(map(sized, bodies))
    contents = {number: listed(entries[number]) for number in entries if entries[number]}
    contents[8] = unsigned(first)
    if 11 in contents:
        contents[12] = unsigned(len(entries[11]))
    order = (1, 2, 3, 4, 5, 13, 6, 7, 8, 9, 12, 10, 11)
    plain = [(number, contents[number]) for number in order if number in contents]
    return plain + custom_sections(entries, parts, count, functions, len(bodies), others // 10)


def parts_of(kind):
    """The parts that a kind every or every:PART,PART.. asks for."""
    return kind.partition(":")[2].split(",") if ":" in kind else PARTS


def code_sections(kind, size):
    bodies = bodies_of(kind, size)
    roots = len(bodies) if kind in ("huge", "unused") else 1
    memories = [(5, b"\x01\x00\x01")] if kind in ("bodies", "body") else []
    return [
        (1, b"\x01\x60\x00\x00"),
        (3, unsigned(len(bodies)) + b"\x00" * len(bodies)),
        *memories,
        (7, function_exports(roots)),
        (10, listed(list(map(sized, bodies)))),
    ]


def main():
    kind, size = sys.argv[1], int(float(sys.argv[2]) * 1_000_000)
    apart = {
        "params": parameter_sections, "types": type_sections, "rows": row_sections,
        "entries": entry_sections, "group": group_sections, "tables": table_sections}
    if kind.partition(":")[0] == "every":
        sections = every_sections(parts_of(kind), size)
    else:
        sections = apart[kind](size) if kind in apart else code_sections(kind, size)
    sys.stdout.buffer.write(module(sections))


if __name__ == "__main__":
    main()
