"""How modules of hostile shapes are spelled, for tests/shapes.py."""

# Bytes of types.
I32, I64, F32, F64, V128 = (bytes([byte]) for byte in range(0x7F, 0x7A, -1))
VALUE_TYPES = (I32, I64, F32, F64, V128)
FUNCREF, NULLABLE = b"\x70", b"\x63"
FUNCTION_TYPE, STRUCT, OPEN_SUBTYPE, GROUP = b"\x60", b"\x5F", b"\x50", b"\x4E"
# Bytes of operators.
UNREACHABLE, NOP, BLOCK, IF, ELSE, TRY, CATCH, CATCH_ALL, END = b"\0", b"\1", b"\2", b"\4", b"\5", b"\6", b"\7", b"\x19", b"\x0B"
BR_TABLE, CALL, DROP, TYPED_SELECT, TRY_TABLE, LOCAL_GET, GLOBAL_GET = b"\x0E", b"\x10", b"\x1A", b"\x1C", b"\x1F", b"\x20", b"\x23"
I32_CONST, I32_ADD, REF_NULL, REF_FUNC, V128_CONST, SHUFFLE = b"\x41", b"\x6A", b"\xD0", b"\xD2", b"\xFD\x0C", b"\xFD\x0D"
NO_TYPE, CATCH_ALL_TO_0 = b"\x40", b"\2\0"
# Kinds of exports.
FUNCTION, TABLE, MEMORY, GLOBAL, TAG = b"\0", b"\1", b"\2", b"\3", b"\4"
# What is a zero byte: an index, a list without entries, limits without a maximum, a flag that says no.
FIRST = NOTHING = MINIMUM = IMMUTABLE = b"\0"

SECTIONS = "customs types imports functions tables memories globals exports start elements code data data_count tags".split()


def unsigned(number):
    out = bytearray()
    while number > 127:
        out.append(number & 127 | 128)
        number >>= 7
    return bytes([*out, number])


def signed(number):
    """Of a number that isn't negative."""
    out = bytearray()
    while number > 63:
        out.append(number & 127 | 128)
        number >>= 7
    return bytes([*out, number])


def sized(content):
    return unsigned(len(content)) + content


def listed(items):
    items = list(items)
    return unsigned(len(items)) + b"".join(items)


def repeated(count, item):
    return unsigned(count) + item * count


def section(number, content):
    return bytes([number]) + sized(content)


def custom(name, content=b""):
    return section(0, sized(name) + content)


def module(**sections):
    return b"\0asm\1\0\0\0" + b"".join(section(SECTIONS.index(name), content) for name, content in sections.items())


def function_type(parameters=b"", results=b""):
    return FUNCTION_TYPE + sized(parameters) + sized(results)


def body(operators, declarations=NOTHING):
    return sized(declarations + operators + END)


def export(name, kind, index):
    return sized(name) + kind + unsigned(index)


def different(count):
    """So many different names of one length."""
    length = 1
    while 26**length < count:
        length += 1
    return [bytes(97 + place // 26**digit % 26 for digit in range(length)) for place in range(count)]


def exports_of(kind, count):
    """Each item of this kind under a name of its own."""
    return listed(export(name, kind, index) for index, name in enumerate(different(count)))


PLAIN_TYPE = function_type()
ONE_TYPE = listed([PLAIN_TYPE])
ONE_FUNCTION = listed([FIRST])
FIRST_EXPORTED = listed([export(b"f", FUNCTION, 0)])
EMPTY_BODY = body(b"")
ONE_EMPTY_BODY = listed([EMPTY_BODY])
ZERO = I32_CONST + b"\0" + END
ONE_MEMORY = listed([MINIMUM + b"\1"])
EMPTY_MEMORY = MINIMUM + b"\0"
EMPTY_TABLE = FUNCREF + MINIMUM + b"\0"
ONE_TABLE = listed([EMPTY_TABLE])


def one_function(operators, declarations=NOTHING, types=ONE_TYPE, **between):
    """A module of one function, which is exported."""
    code = listed([body(operators, declarations)])
    return module(types=types, functions=ONE_FUNCTION, **between, exports=FIRST_EXPORTED, code=code)


def last_exported(count, operators):
    """A module of functions without operators, but the last one, which is exported and has these."""
    functions, exports = repeated(count, FIRST), listed([export(b"f", FUNCTION, count - 1)])
    return module(types=ONE_TYPE, functions=functions, exports=exports, code=unsigned(count) + EMPTY_BODY * (count - 1) + body(operators))


def all_exported(bodies):
    functions = repeated(len(bodies), FIRST)
    return module(types=ONE_TYPE, functions=functions, exports=exports_of(FUNCTION, len(bodies)), code=listed(bodies))


def calls(count):
    """A call of each of the first functions."""
    return b"".join(CALL + unsigned(index) for index in range(count))


def last_digits(number, count):
    """Value types, as digits of a number, lowest first."""
    return b"".join(VALUE_TYPES[number // 5**digit % 5] for digit in range(count))


def uses(locals_):
    return b"".join(LOCAL_GET + unsigned(index) + DROP for index in locals_)


def declared(count):
    """One declaration of so many locals."""
    return listed([unsigned(count) + I32])


MOST_LOCALS = 50_000
