"""Modules whose bytes were worked out by hand, and what comes of them: those of crates/walrus_tools/src/samples.rt, and a few more; and faults."""
import pathlib
from typing import Iterator, Tuple

HEADER = bytes.fromhex("00 61 73 6D 01 00 00 00")
# What is written behind a module where producers are wanted and there were none.
PRODUCERS = bytes.fromhex("00 27 09") + b"producers" + bytes.fromhex("01 0C") + b"processed-by" + bytes.fromhex("01 06") + b"walrus" + b"\x060.28.0"
# The section of types that all but a few have: functions that take and give nothing.
TYPE = "01 04 01 60 00 00"


def module(*sections: str) -> bytes:
    """The header and these sections, in hexadecimal."""
    return HEADER + bytes.fromhex(" ".join(sections))


# A function that nothing reaches, and one that is exported as `f`; what is left of them, without producers.
TWO = module(TYPE, "03 03 02 00 00", "07 05 01 01 66 00 01", "0A 08 02 03 00 01 0B 02 00 0B")
ONE = module(TYPE, "03 02 01 00", "07 05 01 01 66 00 00", "0A 04 01 02 00 0B")

# The same with the names `g` and, in two bytes of UTF-8, `é`.
TWO_NAMED = TWO + bytes.fromhex("00 0F 04") + b"name" + bytes.fromhex("01 08 02 00 01 67 01 02 C3 A9")
ONE_NAMED = ONE + bytes.fromhex("00 0C 04") + b"name" + bytes.fromhex("01 05 01 00 02 C3 A9")

# An exported function with a legacy `try`; behind it the names `m`, of the module, and `a`, of its first type. And what is left without names and producers.
LEGACY = module(
    "01 08 02 60 00 00 60 01 7F 00", "03 02 01 00", "0D 03 01 00 01", "07 05 01 01 66 00 00", "0A 0C 01 0A 00 06 7F 41 00 07 00 0B 1A 0B",
    "00 0F 04 6E 61 6D 65 00 02 01 6D 01 04 01 00 01 61",
)
LEGACY_LEFT = module(
    "01 0D 03 60 00 00 60 01 7F 00 60 01 7F 01 7F", "03 02 01 00", "0D 03 01 00 01", "07 05 01 01 66 00 00",
    "0A 0C 01 0A 00 06 7F 41 00 07 00 0B 1A 0B",
)

# Three custom sections: `a`, `a` and `é`; those called `a` gone, and the last one gone.
SECTIONS = module("00 03 01 61 01", "00 03 01 61 02", "00 04 02 C3 A9 03")
BOTH_GONE = module("00 04 02 C3 A9 03")
LAST_GONE = module("00 03 01 61 01", "00 03 01 61 02")

# `.debug_info` with its size in two bytes, the bodies of two functions in front of the functions, `.debug_line`, `a*`, and names that are none; and the
# same without debug information.
BROKEN = module(
    "00 8D 00 0B 2E 64 65 62 75 67 5F 69 6E 66 6F 01", "0A 08 02 03 00 01 0B 02 00 0B", "03 03 02 00 00",
    "00 0D 0B 2E 64 65 62 75 67 5F 6C 69 6E 65 02", "00 04 02 61 2A 03", "00 06 04 6E 61 6D 65 FF",
)
NO_DEBUG = module("0A 08 02 03 00 01 0B 02 00 0B", "03 03 02 00 00", "00 04 02 61 2A 03", "00 06 04 6E 61 6D 65 FF")

# Functions `f` and `g` from `env`, and `h` from `m`; the exported `a` calls `h` and gives what `f` makes of its argument.
IMPORTS = module(
    "01 09 02 60 01 7F 01 7F 60 00 00", "02 17 03 03 65 6E 76 01 66 00 00 03 65 6E 76 01 67 00 01 01 6D 01 68 00 01", "03 02 01 00",
    "07 05 01 01 61 00 03", "0A 0A 01 08 00 10 02 20 00 10 00 0B",
)
# `f` traps, and stands behind `a`, which is larger; `g`, which nothing calls, is gone; `h` is imported as before.
STUBBED = module(
    "01 09 02 60 01 7F 01 7F 60 00 00", "02 07 01 01 6D 01 68 00 01", "03 03 02 00 00", "07 05 01 01 61 00 01",
    "0A 0E 02 08 00 10 00 20 00 10 02 0B 03 00 00 0B",
) + PRODUCERS

# The exported `a` calls a function that nothing else calls; that one gone, and `a` traps; and `a` there, and that one traps.
CALLS = module(TYPE, "03 03 02 00 00", "07 05 01 01 61 00 00", "0A 0A 02 04 00 10 01 0B 03 00 01 0B")
SNIPPED = module(TYPE, "03 02 01 00", "07 05 01 01 61 00 00", "0A 05 01 03 00 00 0B") + PRODUCERS
CALLED_TRAPS = module(TYPE, "03 03 02 00 00", "07 05 01 01 61 00 00", "0A 0A 02 04 00 10 01 0B 03 00 00 0B") + PRODUCERS

# One function, exported as `a` and as `b`, and another one, exported as `*`; and the first alone, exported as `a`.
THREE = module(TYPE, "03 03 02 00 00", "07 0D 03 01 61 00 00 01 62 00 00 01 2A 00 01", "0A 08 02 03 00 01 0B 02 00 0B")
AS_A = module(TYPE, "03 02 01 00", "07 05 01 01 61 00 00", "0A 05 01 03 00 01 0B")

# A table, a memory, a global and a tag, imported from `m` as `t`, `e`, `g` and `x` and exported as `T`, `E`, `G` and `X`.
KINDS = module(
    TYPE, "02 1E 04 01 6D 01 74 01 70 00 00 01 6D 01 65 02 00 00 01 6D 01 67 03 7F 00 01 6D 01 78 04 00 00",
    "07 11 04 01 54 01 00 01 45 02 00 01 47 03 00 01 58 04 00",
)

# Function 0 is the start function; an active segment names function 1, and a declared one function 2; a data segment is active, and another one isn't.
ROOTS = module(
    TYPE, "03 04 03 00 00 00", "04 04 01 70 00 01", "05 03 01 00 01", "08 01 00", "09 0B 02 00 41 00 0B 01 01 03 00 01 02",
    "0A 0A 03 02 00 0B 02 00 0B 02 00 0B", "0B 09 02 00 41 00 0B 00 01 01 07",
)


FAULTS = pathlib.Path(__file__).resolve().parent.parent.parent / "tests" / "faults.txt"


def faults() -> Iterator[Tuple[int, int, int, bytes, str]]:
    """The lines of tests/faults.txt: the flags, the kind and the number of a fault, the bytes, and the words."""
    for line in FAULTS.read_text(encoding="utf-8").splitlines():
        if line and not line.startswith("#"):
            numbers, data, words = line.split("|")
            flags, kind, which = map(int, numbers.split())
            yield flags, kind, which, bytes.fromhex(data), words.strip()


def number(value: int) -> bytes:
    """A number in LEB128, in as few bytes as it has."""
    return bytes((value,)) if value < 128 else bytes((value & 127 | 128,)) + number(value >> 7)


def section(kind: int, content: bytes) -> bytes:
    return bytes((kind,)) + number(len(content)) + content


def bodies(*operators: bytes) -> bytes:
    """The code section of functions with no locals and these operators."""
    return section(10, number(len(operators)) + b"".join(number(len(it) + 2) + b"\0" + it + b"\x0B" for it in operators))


def listed_in_more() -> bytes:
    """A module of 120 functions, all in a segment of its table. Each has five bytes here, and twelve in a list."""
    table, segment = section(4, bytes((1, 0x70, 0, 120))), section(9, bytes((1, 0, 0x41, 0, 0x0B, 120)) + bytes(range(120)))
    return HEADER + bytes.fromhex(TYPE) + section(3, number(120) + bytes(120)) + table + segment + bodies(*[b""] * 120)


def chained() -> bytes:
    """A module of 500 functions, of which each but the last calls the next. The first one is exported."""
    calls = [b"\x10" + number(callee) for callee in range(1, 500)]
    return HEADER + bytes.fromhex(TYPE) + section(3, number(500) + bytes(500)) + section(7, b"\1\1a\0\0") + bodies(*calls, b"")


def large() -> bytes:
    """A module of a custom section of 32 MB."""
    return HEADER + section(0, b"\1a" + bytes(32 * 2**20))


# An item of each kind, or two. Function 0 and global 0 are imported; names of the module, of function 1 and of its locals; producers.
ITEMS = HEADER + b"".join(section(number, content) for number, content in (
    (1, b"\3\x60\0\0\x60\1\x7F\1\x7F\x60\0\1\x7E"),
    (2, b"\2\3env\1f\0\1\3env\1g\3\x7F\0"),
    (3, b"\2\1\0"),
    (4, b"\2\x70\1\1\2\x6F\0\0"),
    (5, b"\1\0\1"),
    (13, b"\1\0\0"),
    (6, b"\2\x7E\1\x42\5\x0B\x7F\0\x41\1\x0B"),
    (7, b"\2\3run\0\1\3mem\2\0"),
    (8, b"\2"),
    (9, b"\2\0\x41\0\x0B\1\1\1\0\1\2"),
    (12, b"\2"),
    (10, b"\2\x08\1\1\x7F\x20\0\x10\0\x0B\2\0\x0B"),
    (11, b"\2\0\x41\3\x0B\2ab\1\1c"),
    (0, b"\4note\1\2"),
    (0, b"\5other"),
    (0, b"\4name\0\2\1m\1\7\1\1\4work\2\x09\1\1\2\0\1x\1\1y"),
    (0, b"\x09producers\2\x08language\1\1C\2\x31\x31\5other\1\1t\0"),
))
