"""What a shape of tests/shapes.py is, and the table of all of them. What makes one is asked for a module of about so many bytes."""
import dataclasses
import typing

from .spelling import custom, module, one_function, repeated

# Of modules, and of memory.
KB, MB = 1_000, 1_000_000
MEGABYTE, GIGABYTE = 2**20, 2**30
LARGER = 10
MOST_TIMES_AS_LONG = 16
# The same where the smaller module has so many bytes.
LARGE, MOST_TIMES_AS_LONG_OF_LARGE = 3 * MB, 13
# A module is run so often, mostly.
MOST_ROUNDS = 5
# At least so many bytes are asked for of each shape.
SMALLEST = 100

TAKEN = (0, b"", True)
REFUSED = (1, b"walrus-gc: The input WebAssembly is invalid\n", False)


@dataclasses.dataclass(frozen=True)
class Shape:
    """How a module is made, and what it is; how the program ends on it; how many bytes the smaller one has; whether its time is judged; the bytes
    that it may take at the peak, by those that are read, and how many times as long the larger one may take, where it has a figure of its own; how
    often a module is run; the subcommand of mulkavesh that is run, with its operand, where that isn't walrus-gc; and whether a list of edits is made
    with the module, for the library."""
    make: typing.Callable
    what: str
    ending: tuple = TAKEN
    size: int = MB
    is_timed: bool = True
    memory: typing.Callable | None = None
    most_times: float | None = None
    rounds: int = MOST_ROUNDS
    subcommand: tuple | None = None
    is_list: bool = False

    def sizes(self, factor):
        """About how many bytes the two modules have."""
        size = max(SMALLEST, int(self.size * (factor if self.is_timed else min(factor, 1))))
        return size, size * LARGER

    def times(self, size):
        """How many times as long the larger one may take, where the smaller one has so many bytes."""
        return self.most_times or (MOST_TIMES_AS_LONG_OF_LARGE if size >= LARGE else MOST_TIMES_AS_LONG)


SHAPES = {}


def shape(what, **fields):
    def put(make):
        SHAPES[make.__name__] = Shape(make, what, **fields)
        return make

    return put


def alike(name, what, part, around, **fields):
    """A shape of many equal parts, as many as have about the size; `around` makes a module of one part and how many there are of it."""
    SHAPES[name] = Shape(lambda size: around(part, size // len(part)), what, **fields)


def entries(of, **before):
    """A part is an entry of this section, which stands behind others."""
    return lambda part, count: module(**before, **{of: repeated(count, part)})


def operators(part, count):
    return one_function(part * count)


def sections(part, count):
    return module() + part * count


def subsections_of_names(part, count):
    return module() + custom(b"name", part * count)


def for_a_byte(count):
    return lambda given: count * given


def gigabytes(count, size, power):
    """So many gigabytes at this size, and at others by that power of it."""
    return lambda given: count * GIGABYTE * (given / size) ** power
