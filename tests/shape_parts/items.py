"""Shapes of types, of entries of other sections, and of segments."""
from .spelling import (
    body, CALL, calls, different, EMPTY_BODY, EMPTY_MEMORY, EMPTY_TABLE, END, export, exports_of, FIRST, FIRST_EXPORTED, FUNCREF, FUNCTION,
    function_type, GLOBAL, GLOBAL_GET, GROUP, I32, I32_ADD, I32_CONST, IMMUTABLE, last_digits, last_exported, listed, MEMORY, module, NOTHING,
    NULLABLE, ONE_EMPTY_BODY, ONE_FUNCTION, ONE_MEMORY, ONE_TABLE, ONE_TYPE, OPEN_SUBTYPE, PLAIN_TYPE, REF_FUNC, REF_NULL, repeated, signed, sized,
    STRUCT, TABLE, TAG, unsigned, ZERO,
)
from .shape import alike, entries, for_a_byte, MB, shape

# Types.

alike("types_structs", "structs without fields, none kept", STRUCT + NOTHING, entries("types"), memory=for_a_byte(140))
alike("types_functions", "function types () -> (), none kept: a list of equal keys", PLAIN_TYPE, entries("types"), memory=for_a_byte(95))
alike("types_empty_groups", "groups without types", GROUP + NOTHING, entries("types"))


@shape("function types () -> (), each kept by a tag that is exported")
def types_kept(size):
    count = size // 17
    tags = listed(b"\0" + unsigned(index) for index in range(count))
    return module(types=repeated(count, PLAIN_TYPE), tags=tags, exports=exports_of(TAG, count))


@shape("one group of function types, kept")
def types_group(size):
    return module(types=listed([GROUP + repeated(size // 3, PLAIN_TYPE)]), functions=ONE_FUNCTION, exports=FIRST_EXPORTED, code=ONE_EMPTY_BODY)


@shape("a chain of subtypes, the last kept by a function: each keeps the next")
def types_chain(size):
    count = size // 8
    below = (OPEN_SUBTYPE + listed([unsigned(index)]) + PLAIN_TYPE for index in range(count - 1))
    functions = listed([unsigned(count - 1)])
    return module(types=listed([OPEN_SUBTYPE + NOTHING + PLAIN_TYPE, *below]), functions=functions, exports=FIRST_EXPORTED, code=ONE_EMPTY_BODY)


@shape("as many function types as each has parameters, which differ in the last ones: long equal keys")
def types_prefix(size):
    count = int((size / 1.02) ** 0.5)
    return module(types=listed(function_type(I32 * (count - 8) + last_digits(index, 8)) for index in range(count)))


@shape("one struct of many fields")
def types_fields(size):
    return module(types=listed([STRUCT + repeated(size // 2, I32 + IMMUTABLE)]))


@shape("one group of structs, each of which names all of them by its fields")
def types_mesh(size):
    count = int((size / 3.9) ** 0.5)
    struct = STRUCT + listed(NULLABLE + signed(index) + IMMUTABLE for index in range(count))
    globals_ = listed([NULLABLE + FIRST + IMMUTABLE + REF_NULL + FIRST + END])
    return module(types=listed([GROUP + repeated(count, struct)]), globals=globals_, exports=listed([export(b"g", GLOBAL, 0)]))


# Entries of other sections.

NAMELESS = sized(b"") + sized(b"")
alike(
    "imports_functions", "imported functions with empty names, none kept", NAMELESS + FUNCTION + FIRST, entries("imports", types=ONE_TYPE),
    memory=for_a_byte(80))
alike("imports_globals", "imported globals with empty names, none kept", NAMELESS + GLOBAL + I32 + IMMUTABLE, entries("imports"))
alike("imports_tables", "imported tables with empty names, none kept", NAMELESS + TABLE + EMPTY_TABLE, entries("imports"))
alike("tables", "tables, none kept", EMPTY_TABLE, entries("tables"), memory=for_a_byte(80))
alike("memories", "memories, none kept", EMPTY_MEMORY, entries("memories"), memory=for_a_byte(80))
alike("tags", "tags, none kept", b"\0" + FIRST, entries("tags", types=ONE_TYPE))
alike("globals_", "globals, none kept", I32 + IMMUTABLE + ZERO, entries("globals"))


@shape("functions without operators, none kept")
def functions_empty(size):
    count = size // 4
    return module(types=ONE_TYPE, functions=repeated(count, FIRST), code=repeated(count, EMPTY_BODY))


@shape("functions without operators, all kept by one that calls them")
def functions_called(size):
    count = size // 8
    return last_exported(count, calls(count))


@shape("functions of which each calls the next, as deep as there are functions")
def functions_chain(size):
    count = size // 8
    bodies = listed(body(CALL + unsigned(min(index + 1, count - 1))) for index in range(count))
    return module(types=ONE_TYPE, functions=repeated(count, FIRST), exports=FIRST_EXPORTED, code=bodies)


@shape("a chain of globals, the last exported: each initialiser reads the one before")
def globals_chain(size):
    count = size // 7
    behind = (I32 + IMMUTABLE + GLOBAL_GET + unsigned(index) + END for index in range(count - 1))
    return module(globals=listed([I32 + IMMUTABLE + ZERO, *behind]), exports=listed([export(b"g", GLOBAL, count - 1)]))


@shape("one global whose initialiser has many additions, which aren't typed")
def global_long(size):
    initialiser = I32_CONST + b"\0" + I32_ADD * size + END
    return module(globals=listed([I32 + IMMUTABLE + initialiser]), exports=listed([export(b"g", GLOBAL, 0)]))


def exports_of_one(names):
    return module(
        types=ONE_TYPE, functions=ONE_FUNCTION, exports=listed(export(name, FUNCTION, 0) for name in names), code=ONE_EMPTY_BODY)


@shape("exports of one function, of short names")
def exports_short(size):
    return exports_of_one(different(size // 7))


@shape("as many exports as each has bytes of its name, which differ in the last ones")
def exports_prefix(size):
    count = int(size**0.5)
    return exports_of_one(name.rjust(count, b"a") for name in different(count))


@shape("memories, each exported")
def memories_exported(size):
    count = size // 11
    return module(memories=repeated(count, EMPTY_MEMORY), exports=exports_of(MEMORY, count))


@shape("tables, each exported")
def tables_exported(size):
    count = size // 12
    return module(tables=repeated(count, EMPTY_TABLE), exports=exports_of(TABLE, count))


# Segments. An element segment begins with its kind: 0 is active, 1 passive, 2 active in the table that it names, 3 declared, 7 declared by
# expressions; then, but for 0 and 7, the kind of its items, functions. A data segment is 0, active, or 1, passive.

alike("elements_passive", "passive element segments without items", b"\1" + FUNCTION + NOTHING, entries("elements"), memory=for_a_byte(80))
alike("elements_declared", "declared element segments without items: roots", b"\3" + FUNCTION + NOTHING, entries("elements"))
alike("elements_active", "active element segments without items, in one table", b"\0" + ZERO + NOTHING, entries("elements", tables=ONE_TABLE))
alike("data_passive", "passive data segments without bytes", b"\1" + NOTHING, entries("data"), memory=for_a_byte(80))
alike("data_active", "active data segments without bytes, in one memory", b"\0" + ZERO + NOTHING, entries("data", memories=ONE_MEMORY))


@shape("one declared segment that lists one function many times")
def element_functions(size):
    elements = listed([b"\3" + FUNCTION + repeated(size, FIRST)])
    return module(types=ONE_TYPE, functions=ONE_FUNCTION, elements=elements, code=ONE_EMPTY_BODY)


@shape("one declared segment of many expressions that name one function")
def element_expressions(size):
    elements = listed([b"\7" + FUNCREF + repeated(size // 3, REF_FUNC + FIRST + END)])
    return module(types=ONE_TYPE, functions=ONE_FUNCTION, elements=elements, code=ONE_EMPTY_BODY)


@shape("one data segment of many bytes", size=10 * MB)
def data_bytes(size):
    return module(memories=ONE_MEMORY, data=listed([b"\0" + ZERO + repeated(size, b"\0")]))


@shape("tables, each with one active segment without items")
def elements_tables(size):
    count = size // 13
    elements = listed(b"\2" + unsigned(index) + ZERO + FUNCTION + NOTHING for index in range(count))
    return module(tables=repeated(count, EMPTY_TABLE), elements=elements)
