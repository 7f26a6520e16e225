"""Shapes of custom sections and of names, and of keys that stand in few places of a table of hashes."""
from .spelling import (
    all_exported, body, calls, custom, declared, EMPTY_BODY, FIRST, last_exported, listed, module, MOST_LOCALS, NOTHING, one_function, ONE_TYPE,
    repeated, section, sized, unsigned, uses,
)
from .shape import alike, sections, shape, subsections_of_names

# Custom sections.

PROCESSED_BY = listed([sized(b"processed-by") + listed([sized(b"a") + sized(b"b")])])
alike("customs_empty", "custom sections with empty names and no bytes", custom(b""), sections)
alike("customs_debug", "sections of debug information, which are read past", custom(b".debug"), sections)
alike("names_sections", "sections called name without bytes", custom(b"name"), sections)
alike("names_empty_maps", "subsections of a name section, each an empty map of functions", section(1, NOTHING), subsections_of_names)
alike("names_module", "the module named many times", section(0, sized(b"m")), subsections_of_names)
alike("producers_sections", "sections called producers, each of one value in processed-by", custom(b"producers", PROCESSED_BY), sections)


def names(number, content):
    """A name section of one subsection: 0 names the module, 1 functions, 2 locals."""
    return custom(b"name", section(number, content))


def naming(index, name):
    return unsigned(index) + sized(name)


@shape("one function named many times")
def names_repeated(size):
    return one_function(b"") + names(1, repeated(size // 3, naming(0, b"a")))


@shape("sections of names, each of which names as many functions as there are sections")
def names_all_again(size):
    count = int((size / 3.9) ** 0.5)
    functions = module(types=ONE_TYPE, functions=repeated(count, FIRST), code=repeated(count, EMPTY_BODY))
    return functions + names(1, listed(naming(index, b"a") for index in range(count))) * count


@shape("one local named many times, by maps of one name")
def names_local_maps(size):
    return one_function(uses([0]), declared(1)) + names(2, repeated(size // 5, FIRST + listed([naming(0, b"a")])))


@shape("as many functions as each has bytes of its name")
def names_long(size):
    count = int(size**0.5)
    return last_exported(count, calls(count)) + names(1, listed(naming(index, b"a" * count) for index in range(count)))


@shape("fields of producers without values")
def producers_fields(size):
    return module() + custom(b"producers", repeated(size // 2, sized(b"") + NOTHING))


@shape("one field of producers with many values without text")
def producers_values(size):
    return module() + custom(b"producers", listed([sized(b"") + repeated(size // 2, sized(b"") + sized(b""))]))


# Keys that stand in few places of a table of hashes, where the table hashes them as `place_hash` does.


def place_hash(place):
    product = (0x243F_6A88_85A3_08D3 ^ place) * (0x9E37_79B9_7F4A_7C15 ^ 16)
    folded = product % 2**64 ^ product >> 64
    return (folded ^ folded >> 32) % 2**32


def some_locals(size, choose):
    """Functions that each declare 50,000 locals, and use those that are chosen by the place of the first of them among all locals."""
    bodies, total = [], 0
    while total < size:
        bodies.append(body(uses(choose(MOST_LOCALS * len(bodies))), declared(MOST_LOCALS)))
        total += len(bodies[-1])
    return all_exported(bodies)


@shape("functions that each use 9,000 of 50,000 locals, whose places stand in 184 of 1,024 groups of a table")
def locals_colliding(size):
    def choose(first):
        return sorted(sorted(range(MOST_LOCALS), key=lambda index: place_hash(first + index) % 1024)[:9_000])

    return some_locals(size, choose)


@shape("functions that each use any 9,000 of 50,000 locals")
def locals_apart(size):
    return some_locals(size, lambda first: range(0, 45_000, 5))
