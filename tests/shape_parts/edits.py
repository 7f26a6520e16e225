"""Shapes of lists of edits, which the call mulkavesh_edit makes of a module (docs/FORMATS.md, "A list of edits"). What makes one is asked for so many edits, mostly: it
answers a module and the list."""
from .shape import Shape, SHAPES
from .spelling import (
    body, CALL, custom, different, DROP, EMPTY_BODY, EMPTY_TABLE, END, export, FIRST, FUNCTION, GLOBAL, I32, I32_CONST, IMMUTABLE, listed, module, NOP,
    NOTHING, ONE_EMPTY_BODY, ONE_FUNCTION, ONE_MEMORY, ONE_TYPE, PLAIN_TYPE, repeated, sized, unsigned, ZERO,
)

COUNT = 10_000
# What the first byte of an edit says: below 16 a section.
CUSTOMS, TYPES, IMPORTS, TABLES, MEMORIES, GLOBALS, EXPORTS, START, ELEMENTS, FUNCTIONS, DATA, TAGS, MODULE = 0, 1, 2, 4, 5, 6, 7, 8, 9, 10, 11, 13, 255
ADD_FUNCTION, SET, DELETE, BRING, NAME, PRODUCER, NO_PRODUCERS, FRONT = range(16, 24)
ORDER = "imports functions tables memories tags globals exports elements code data".split()

# Entries.
A_GLOBAL, ANOTHER_GLOBAL = I32 + IMMUTABLE + ZERO, I32 + IMMUTABLE + I32_CONST + b"\1" + END
NAMELESS, NAMED = sized(b"a") + sized(b"b"), sized(b"c") + sized(b"d")
SEGMENT, ANOTHER_SEGMENT = b"\0" + ZERO + sized(b"x"), b"\0" + ZERO + sized(b"y")
AN_ELEMENT = b"\1" + FUNCTION + listed([FIRST])
# A body as an edit has it, without its size, and one that isn't empty.
NO_OPERATORS, CONSTANT = EMPTY_BODY[1:], body(I32_CONST + b"\0" + DROP)[1:]
ONE = {"functions": ONE_FUNCTION, "code": ONE_EMPTY_BODY}


def given(**entries):
    """A module of a type of functions without parameters, and these sections."""
    return module(types=ONE_TYPE, **{name: entries[name] for name in ORDER if name in entries})


def functions(count, **more):
    return given(functions=repeated(count, FIRST), code=repeated(count, EMPTY_BODY), **more)


def record(kind, payload=b""):
    return bytes([kind]) + sized(payload)


def change(kind, what, id_=b"", entry=b""):
    return record(kind, bytes([what]) + id_ + entry)


def added(section, entry):
    return record(section, listed([entry]))


def each(count, make):
    """What is made of each id."""
    return b"".join(make(unsigned(id_)) for id_ in range(count))


def edits(name, what, make, **fields):
    SHAPES[f"edit_{name}"] = Shape(make, what, size=COUNT, is_list=True, **fields)


def of_each(name, what, before, edit, **fields):
    """An edit of each item, of which the module has so many."""
    edits(name, what, lambda count: (before(count), each(count, edit)), **fields)


def again(name, what, edit, before=functions(1), **fields):
    """The same edit of a small module again and again."""
    edits(name, what, lambda count: (before, edit * count), **fields)


# What comes.

again("types", "types, each added alone", added(TYPES, PLAIN_TYPE))
again("imports", "imported functions, each added alone", added(IMPORTS, NAMELESS + FUNCTION + FIRST))
again("imports_globals", "imported globals, each added alone", added(IMPORTS, NAMELESS + GLOBAL + I32 + IMMUTABLE))
again("globals", "globals, each added alone", added(GLOBALS, A_GLOBAL))
again("elements", "element segments, each added alone", added(ELEMENTS, AN_ELEMENT))
again("data", "data segments, each added alone", added(DATA, SEGMENT), given(memories=ONE_MEMORY))
again("customs", "custom sections, each added alone", record(CUSTOMS, sized(b"a") + b"1"))
again("functions", "functions, each added alone", record(ADD_FUNCTION, FIRST + NO_OPERATORS))
edits("exports", "exports, each added alone", lambda count: (functions(1), b"".join(added(EXPORTS, export(name, FUNCTION, 0)) for name in different(count))))
edits("types_listed", "types, added by one edit", lambda count: (given(), record(TYPES, repeated(count, PLAIN_TYPE))))
edits("exports_listed", "exports, added by one edit", lambda count: (functions(1), record(EXPORTS, listed(export(name, FUNCTION, 0) for name in different(count)))))
edits("calls", "functions, each added alone, that call the one before", lambda count: (
    functions(1), each(count, lambda id_: record(ADD_FUNCTION, FIRST + body(CALL + id_)[1:]))))

# What is set.

of_each("customs_set", "custom sections, each set", lambda count: given() + custom(b"a", b"1") * count, lambda id_: change(SET, CUSTOMS, id_, b"2"))
of_each("imports_set", "imports, each set", lambda count: given(imports=repeated(count, NAMELESS + FUNCTION + FIRST)), lambda id_: change(SET, IMPORTS, id_, NAMED))
of_each("globals_set", "globals, each set", lambda count: given(globals=repeated(count, A_GLOBAL)), lambda id_: change(SET, GLOBALS, id_, ANOTHER_GLOBAL))
of_each("globals_own", "imported globals, each set", lambda count: given(imports=repeated(count, NAMELESS + GLOBAL + I32 + IMMUTABLE)),
        lambda id_: change(SET, GLOBALS, id_, ANOTHER_GLOBAL))
of_each("data_set", "data segments, each set", lambda count: given(memories=ONE_MEMORY, data=repeated(count, SEGMENT)), lambda id_: change(SET, DATA, id_, ANOTHER_SEGMENT))
of_each("bodies", "functions, whose bodies are each set", functions, lambda id_: change(SET, FUNCTIONS, id_, CONSTANT))
of_each("functions_own", "imported functions, whose bodies are each set", lambda count: given(imports=repeated(count, NAMELESS + FUNCTION + FIRST)),
        lambda id_: change(SET, FUNCTIONS, id_, CONSTANT))
edits("bodies_tags", "tags, and a tenth as many functions, whose bodies are each set",
      lambda count: (functions(count // 10, tags=repeated(count, b"\0" + FIRST)), each(count // 10, lambda id_: change(SET, FUNCTIONS, id_, CONSTANT))))
edits("exports_set", "exports, each set", lambda count: (
    functions(1, exports=listed(export(b"a" + name, FUNCTION, 0) for name in different(count))),
    b"".join(change(SET, EXPORTS, unsigned(id_), export(b"b" + name, FUNCTION, 0)) for id_, name in enumerate(different(count)))))
again("export", "one export, set again and again", change(SET, EXPORTS, FIRST, export(b"f", FUNCTION, 0)), functions(1, exports=listed([export(b"e", FUNCTION, 0)])))
again("segment", "one data segment of two, set again and again", change(SET, DATA, b"\1", ANOTHER_SEGMENT), given(memories=ONE_MEMORY, data=repeated(2, SEGMENT)))
again("memory", "one memory, set again and again", change(SET, MEMORIES, FIRST, b"\0\2"), given(memories=ONE_MEMORY))
again("global", "one global, set again and again", change(SET, GLOBALS, FIRST, ANOTHER_GLOBAL), given(globals=listed([A_GLOBAL])))
again("body", "one function, whose body is set again and again", change(SET, FUNCTIONS, FIRST, CONSTANT))
again("custom", "one custom section, set again and again", change(SET, CUSTOMS, FIRST, b"2"), given() + custom(b"a", b"1"))

# What goes, and what is brought.

of_each("customs_gone", "custom sections, each deleted", lambda count: given() + custom(b"a", b"1") * count, lambda id_: change(DELETE, CUSTOMS, id_))
of_each("elements_gone", "element segments, each deleted", lambda count: given(elements=repeated(count, AN_ELEMENT), **ONE), lambda id_: change(DELETE, ELEMENTS, id_))
of_each("data_gone", "data segments, each deleted", lambda count: given(memories=ONE_MEMORY, data=repeated(count, SEGMENT)), lambda id_: change(DELETE, DATA, id_))
of_each("exports_gone", "exports, each deleted", lambda count: functions(1, exports=listed(export(name, FUNCTION, 0) for name in different(count))),
        lambda id_: change(DELETE, EXPORTS, id_))
again("start", "the start function, set again and again", record(START, FIRST))
again("start_gone", "the start function, set and deleted in turn", record(START, FIRST) + change(DELETE, START))
of_each("brought", "functions that each come to be imported", functions, lambda id_: record(BRING, FIRST + id_ + NAMED))
again("brought_again", "one function that comes to be imported, and the module's own, in turn", record(BRING, FIRST + FIRST + NAMED) + change(SET, FUNCTIONS, FIRST, CONSTANT))

# What stands in front.

of_each("fronts", "functions, each with an operator in front", functions, lambda id_: record(FRONT, id_ + NOP))
again("front_again", "one function, with an operator in front again and again", record(FRONT, FIRST + NOP))
edits("front_each", "one function of many operators, with as many in front, one by one", lambda count: (given(functions=ONE_FUNCTION, code=listed([body(NOP * count)])), record(FRONT, FIRST + NOP) * count))
edits("front_long", "one function of many operators, with as many in front", lambda count: (given(functions=ONE_FUNCTION, code=listed([body(NOP * count)])), record(FRONT, FIRST + NOP * count)))

# Names and producers.


def named(kind, what, before):
    """A name for each item of a kind."""
    of_each(f"name_{what.split()[-1]}", f"{what}, each named", before, lambda id_: change(NAME, kind, id_, sized(b"f")))


named(TYPES, "types", lambda count: module(types=repeated(count, PLAIN_TYPE)))
named(TABLES, "tables", lambda count: given(tables=repeated(count, EMPTY_TABLE)))
named(MEMORIES, "memories", lambda count: given(memories=repeated(count, b"\0\0")))
named(GLOBALS, "globals", lambda count: given(globals=repeated(count, A_GLOBAL)))
named(FUNCTIONS, "functions", functions)
named(ELEMENTS, "elements", lambda count: given(elements=repeated(count, AN_ELEMENT), **ONE))
named(DATA, "data", lambda count: given(memories=ONE_MEMORY, data=repeated(count, SEGMENT)))
named(TAGS, "tags", lambda count: given(tags=repeated(count, b"\0" + FIRST)))
again("name_module", "the module, named again and again", change(NAME, MODULE, FIRST, sized(b"f")))
again("name", "one function, named again and again", change(NAME, FUNCTIONS, FIRST, sized(b"f")))
again("producer", "one producer, set again and again", record(PRODUCER, sized(b"sdk") + sized(b"a") + sized(b"1")))
again("producer_gone", "one producer, set, and all deleted, in turn", record(PRODUCER, sized(b"sdk") + sized(b"a") + sized(b"1")) + record(NO_PRODUCERS))
# Their names stand in a tree, which leaves the caches: ten times as many take nine times as many instructions, and up to twenty times as long.
edits(
    "producers", "producers of different names",
    lambda count: (functions(1), b"".join(record(PRODUCER, sized(b"sdk") + sized(name) + sized(b"1")) for name in different(count))), most_times=25)
edits(
    "producers_fields", "one producer, set again and again beside as many fields of producers",
    lambda count: (functions(1) + custom(b"producers", listed([sized(name) + NOTHING for name in different(count)])), record(PRODUCER, sized(b"sdk") + sized(b"a") + sized(b"1")) * count),
    most_times=25)
