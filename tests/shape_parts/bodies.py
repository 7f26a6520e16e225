"""Shapes of bodies, of what is dear by what it says, of handlers, and of what is refused late."""
from .spelling import (
    all_exported, BLOCK, body, BR_TABLE, calls, CATCH, CATCH_ALL, CATCH_ALL_TO_0, declared, DROP, ELSE, EMPTY_BODY, END, export, F32, F64, FIRST,
    FUNCTION, function_type, I32, I32_CONST, I64, IF, last_digits, last_exported, listed, module, MOST_LOCALS, NO_TYPE, NOP, one_function,
    ONE_TYPE, PLAIN_TYPE, REF_FUNC, repeated, SHUFFLE, signed, TRY, TRY_TABLE, TYPED_SELECT, UNREACHABLE, unsigned, uses, V128_CONST,
)
from .shape import alike, for_a_byte, gigabytes, KB, operators, REFUSED, shape

# Bodies.

alike("body_nops", "one body of operators without arguments", NOP, operators)
alike("body_constants", "one body of constants that are dropped", I32_CONST + b"\0" + DROP, operators)
alike("body_br_tables", "many br_tables of one label", I32_CONST + b"\0" + BR_TABLE + listed([FIRST]) + FIRST, operators)
alike("body_vectors", "constants of vectors", V128_CONST + b"\0" * 16 + DROP, operators)
alike("body_shuffles", "shuffles of lanes, of sixteen arguments each", SHUFFLE + b"\0" * 16, operators)


@shape("blocks, each in the one before")
def body_nested(size):
    count = size // 3
    return one_function((BLOCK + NO_TYPE) * count + END * count)


@shape("ifs, each in the one before, with an else")
def body_ifs(size):
    count = size // 6
    return one_function((I32_CONST + b"\0" + IF + NO_TYPE) * count + (ELSE + END) * count)


@shape("one br_table of many labels")
def body_br_table(size):
    return one_function(I32_CONST + b"\0" + BR_TABLE + repeated(size, FIRST) + FIRST)


@shape("one select of many types")
def body_select(size):
    return one_function(UNREACHABLE + TYPED_SELECT + repeated(size, I32))


@shape("one try_table of many clauses that catch all")
def body_try_table(size):
    return one_function(TRY_TABLE + NO_TYPE + repeated(size // 2, CATCH_ALL_TO_0) + END)


@shape("one declared local, used many times")
def body_one_local(size):
    return one_function(uses([0]) * (size // 3), declared(1))


@shape("50,000 declared locals, all used in falling order, and again")
def body_locals_used(size):
    each = uses(reversed(range(MOST_LOCALS)))
    return one_function(each * max(1, size // len(each)), declared(MOST_LOCALS))


@shape("declarations of no locals")
def declarations_none(size):
    return one_function(b"", repeated(size // 2, b"\0" + I32))


@shape("functions of 5,000 declarations of one local each, of two types in turn, all used")
def declarations_mixed(size):
    count = 5_000
    each = body(uses(range(count)), unsigned(count) + (b"\1" + I32 + b"\1" + I64) * (count // 2))
    return all_exported([each] * max(1, size // len(each)))


@shape("functions of 300 declared locals of four types, 75 of each, all used, one of each type in turn")
def declarations_four(size):
    of_each = 75
    declarations = listed(unsigned(of_each) + value for value in (I32, I64, F32, F64))
    each = body(uses(of_type * of_each + index for index in range(of_each) for of_type in range(4)), declarations)
    return all_exported([each] * max(1, size // len(each)))


@shape("ref.func of each function, none declared: a segment of all of them is added")
def references(size):
    count = size // 9
    return last_exported(count, b"".join(REF_FUNC + unsigned(index) + DROP for index in range(count)))


@shape("blocks of one function type of many results")
def blocks_typed(size):
    types = listed([PLAIN_TYPE, function_type(b"", I32 * (size // 4))])
    return one_function((BLOCK + b"\1" + END) * (size // 8), types=types)


# What is dear by what it says, and handlers. Each has a size of its own.


@shape("functions that each declare 50,000 locals which nothing uses", size=400, is_timed=False, memory=gigabytes(1.7, 4 * KB, 1))
def locals_unused(size):
    each = body(b"", declared(MOST_LOCALS))
    count = max(1, size // (len(each) + 1))
    return module(types=ONE_TYPE, functions=repeated(count, FIRST), code=repeated(count, each))


@shape("functions of one type of many parameters, none kept", size=3 * KB, is_timed=False, memory=gigabytes(1.9, 20 * KB, 2))
def parameters(size):
    count = size // 8
    types = listed([function_type(I32 * (size // 2))])
    return module(types=types, functions=repeated(count, FIRST), code=repeated(count, EMPTY_BODY))


@shape("functions of one type of many parameters, all kept", size=2 * KB, is_timed=False, memory=gigabytes(1.9, 20 * KB, 2))
def parameters_kept(size):
    count = size // 16
    types = listed([function_type(I32 * (size // 2)), PLAIN_TYPE])
    functions, exports = unsigned(count + 1) + FIRST * count + b"\1", listed([export(b"f", FUNCTION, count)])
    code = unsigned(count + 1) + EMPTY_BODY * count + body(calls(count))
    return module(types=types, functions=functions, exports=exports, code=code)


@shape("one tag of many parameters, and many catches of it in one try", size=100 * KB)
def handlers_wide(size):
    types = listed([PLAIN_TYPE, function_type(I32 * (size // 2))])
    return one_function(TRY + NO_TYPE + (CATCH + FIRST) * (size // 4) + END, types=types, tags=listed([b"\0\1"]))


def same_body(operators, types, count, **between):
    """Functions that all have these operators, and none of which is kept."""
    code = repeated(count, body(operators))
    return module(types=types, functions=repeated(count, FIRST), **between, code=code)


@shape("many bodies that each catch one tag of many parameters", size=84 * KB)
def handlers_bodies(size):
    types = listed([PLAIN_TYPE, function_type(I32 * (size * 3 // 5))])
    return same_body(TRY + NO_TYPE + CATCH + FIRST + END, types, size // 25, tags=listed([b"\0\1"]))


@shape("many bodies that each catch all in a try of many results", size=84 * KB)
def handlers_results(size):
    types = listed([PLAIN_TYPE, function_type(b"", I32 * (size * 3 // 5))])
    return same_body(TRY + b"\1" + CATCH_ALL + END, types, size // 20)


@shape("tags of different types, each caught in each of as many tries of different types: all handlers differ", size=4 * KB, is_timed=False)
def handlers_cross(size):
    count = max(2, int((size / 12) ** 0.5))
    length = max(9, size // 2 // (2 * count))
    rows = [I32 * (length - 6) + last_digits(index, 6) for index in range(count)]
    types = listed([PLAIN_TYPE, *map(function_type, rows), *(function_type(b"", row) for row in rows)])
    catches = b"".join(CATCH + unsigned(index) for index in range(count))
    tries = b"".join(TRY + signed(1 + count + index) + catches + END for index in range(count))
    return one_function(tries, types=types, tags=listed(b"\0" + unsigned(1 + index) for index in range(count)))


@shape("equal function types, each that of a try that catches one tag of as many parameters: their handlers need one type")
def handlers_equal(size):
    """The types of tag and try are met with other ids each time. The values of each are compared once, so that all handlers are one pair."""
    count = size // 10
    types = listed([function_type(I32 * count), *[PLAIN_TYPE] * count])
    tries = b"".join(TRY + signed(1 + index) + CATCH + FIRST + END for index in range(count))
    return one_function(tries, types=types, tags=listed([b"\0" + FIRST]))


# What is refused late.


@shape("function types () -> () in a list that says that it is longer than its section", ending=REFUSED, memory=for_a_byte(95))
def lies_types(size):
    return module(types=unsigned(2**32 - 1) + PLAIN_TYPE * (size // 3))


@shape("functions without operators, and a fault in the last body", ending=REFUSED)
def fault_last(size):
    count = size // 4
    code = unsigned(count) + EMPTY_BODY * (count - 1) + body(END)
    return module(types=ONE_TYPE, functions=repeated(count, FIRST), code=code)
