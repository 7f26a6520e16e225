"""Shapes that a subcommand of mulkavesh is run over."""
from .spelling import (
    body, CALL, calls, custom, different, EMPTY_BODY, export, FIRST, FIRST_EXPORTED, FUNCTION, last_exported, listed, module, ONE_FUNCTION, ONE_TYPE,
    repeated, sized, unsigned,
)
from .shape import alike, KB, MB, sections, shape
from .items import functions_empty
from .customs import names, naming

# What a subcommand of mulkavesh is run over.


@shape(
    "imported functions, each called: 10,000 and 100,000 (mulkavesh stub --module env)", size=240 * KB, most_times=12, rounds=20,
    subcommand=("stub", "--quiet", "--module", "env"))
def stub_env(size):
    each = 24
    called = [CALL + unsigned(index) for index in range(size // each)]
    lengths = (each - len(call) - len(sized(b"env") + sized(b"") + FUNCTION + FIRST) for call in called)
    names_ = (name.rjust(length, b"a") for name, length in zip(different(len(called)), lengths))
    imports = listed(sized(b"env") + sized(name) + FUNCTION + FIRST for name in names_)
    exports, code = listed([export(b"f", FUNCTION, len(called))]), listed([body(b"".join(called))])
    return module(types=ONE_TYPE, imports=imports, functions=ONE_FUNCTION, exports=exports, code=code)


@shape(
    "exports of a function each, of which 1,000 NAMEs without a star choose some: 10,000 and 100,000 (mulkavesh gc --keep)", size=200 * KB,
    subcommand=("gc", "--quiet", *(word for number in range(1_000) for word in ("--keep", f"e{number:05}"))))
def keep_names(size):
    count = size // 20
    functions, code = repeated(count, FIRST), repeated(count, EMPTY_BODY)
    exports = listed(export(b"e%05d" % index, FUNCTION, index) for index in range(count))
    return module(types=ONE_TYPE, functions=functions, exports=exports, code=code)


@shape("functions of which each calls the next one, 100,000 and 1,000,000 (mulkavesh why, of the last)", subcommand=("why", "last"))
def why_chain(size):
    count = size // 10
    bodies = listed([body(CALL + unsigned(index + 1)) for index in range(count - 1)] + [EMPTY_BODY])
    called = module(types=ONE_TYPE, functions=repeated(count, FIRST), exports=FIRST_EXPORTED, code=bodies)
    return called + names(1, listed([naming(count - 1, b"last")]))


@shape("functions that are all kept and whose names a NAME with a star fits, 10,000 and 100,000 (mulkavesh snip)", size=400 * KB,
       subcommand=("snip", "--quiet", "--function", "f*g"))
def snip_star(size):
    count = size // 40
    named = (naming(index, b"f" + name.rjust(26, b"a") + b"g") for index, name in enumerate(different(count - 1)))
    return last_exported(count, calls(count - 1)) + names(1, listed(named))


@shape("functions with names of 40 bytes, all kept: 100,000 and 1,000,000 (mulkavesh list)", size=5 * MB, subcommand=("list",))
def list_names(size):
    count = size // 50
    named = (naming(index, name.rjust(40, b"a")) for index, name in enumerate(different(count)))
    return last_exported(count, calls(count)) + names(1, listed(named))


alike(
    "sections_small", "custom sections of a name of one byte: 250,000 and 2,500,000 (mulkavesh sections)", custom(b"a"), sections, subcommand=("sections",))


@shape("functions without operators, 250,000 and 2,500,000 (mulkavesh sections --all)", subcommand=("sections", "--all"))
def sections_all(size):
    return functions_empty(size)


alike(
    "strip_small", "the same sections, all taken away (mulkavesh strip --section a)", custom(b"a"), sections, subcommand=("strip", "--section", "a"))
alike(
    "strip_star", "custom sections with names of 40 bytes, which a NAME with many stars does not fit (mulkavesh strip)", custom(b"a" * 40), sections,
    ending=(1, b"mulkavesh: standard input: one of the options fits no custom section\n", False), subcommand=("strip", "--section", "*a*a*a*a*b"))
