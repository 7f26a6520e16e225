"""Mulkavesh, a verified module layer for WebAssembly, from Python.

    import mulkavesh
    smaller = mulkavesh.gc(module)
    smallest = mulkavesh.gc(module, keep=["main", "wasi_*"])

Each function is a call of the shared library libmulkavesh.so, goes from the bytes of a module to bytes, a text or a list, and keeps
nothing. The library is looked for as this file is imported: in the folder that the environment variable MULKAVESH_LIB names; where that
isn't set, beside this file, in crates/mulkavesh_c/out/lib of the repository, and where the system has its libraries.

`mulkavesh.module` reads a module into items that a program changes, over the calls `read` and `edit`.

A module or a name may be `bytes`, a `bytearray` or a `memoryview`. `bytes` are lent to the library as they are; the others are copied
first, so that nothing can change them during the call. Other threads go on meanwhile, and may call too. In a child that was forked from
a process with threads no call may be made (`multiprocessing` with the start method "fork").

Each call with a module raises `InvalidModule` where the bytes are no module that keeps the rules, with what is wrong as its `fault`;
`TooLarge` where what is to be written has a count or a size past 32 bits; and `MemoryError`. `strip`, `why`, `callers`, `snip` and `stub` also raise
`NotFound`. `diagnose` never raises `InvalidModule`: it answers the fault; `strip` and `sections` look at the framing alone, and `parts` at no rule.

Exports are chosen by `keep` and `drop`, each a NAME or several: `gc`, `report`, `list_functions`, `dropped`, `exports`, `imports`, `why` and `callers` take them.
Where `keep` has any, the exports go that none of these fits, and then those that one of `drop` fits; the start function and segments that aren't
passive keep what they reach all the same. In a NAME `*` stands for any bytes, also for none, and `\\*` for a star. A NAME that fits no export of
the module is `NotFound`, as its `name`.
"""
import ctypes
import ctypes.util
import enum
import operator
import os
import pathlib
import struct
from dataclasses import dataclass
from typing import Any, Dict, Iterable, Iterator, List, Optional, Sequence, Tuple, Type, Union

__all__ = [
    "Alone", "BadEdit", "BadModule", "Beginning", "Cause", "Counts", "Export", "Fault", "FaultKind", "Function", "Import", "InvalidModule", "Item", "Link",
    "MulkaveshError", "NotFound", "Reason", "Report", "Root", "Rule", "Section", "Sections", "Sizes", "TooLarge", "callers", "diagnose", "dropped", "edit", "exports",
    "gc", "imports", "list_functions", "parts", "read", "report", "sections", "snip", "strip", "stub", "version", "why",
]

Bytes = Union[bytes, bytearray, memoryview]
Name = Union[str, Bytes]
Names = Union[Name, Iterable[Name]]


class Status(enum.IntEnum):
    """What a call of the library answers."""

    DONE = 0
    INVALID = 1
    TOO_LARGE = 2
    NO_MEMORY = 3
    NO_ROOM = 4
    UNKNOWN_FLAG = 5
    NOT_FOUND = 6
    BAD_EDIT = 7
    BAD_MODULE = 8


class MulkaveshError(Exception):
    """A call was refused, and not for want of memory."""


class InvalidModule(MulkaveshError):
    """The input is no module that keeps the rules.

    `fault` is what `diagnose` tells of it under the same choice of `legacy`, and `str` says it; or None, where memory ran out while it was
    looked for, or a place in it passes 32 bits.
    """

    def __init__(self, text: str = "", fault: Optional["Fault"] = None) -> None:
        super().__init__(text if fault is None else f"{text}: {fault}")
        self.fault = fault


class TooLarge(MulkaveshError):
    """What is to be written has a count or a size past 32 bits."""


class NotFound(MulkaveshError):
    """There is nothing of this name or index that the call could work on.

    `name` is the first NAME of `keep` and then of `drop` that fits no export, where one does; else None.
    """

    def __init__(self, text: str = "", name: Optional[Name] = None) -> None:
        super().__init__(text)
        self.name = name


class BadEdit(MulkaveshError):
    """An edit isn't of its form, names what isn't there, has a body that isn't well formed, brings what is imported, or is a front of what has no body. `made` edits in
    front of it can be made.
    """

    def __init__(self, text: str, made: int) -> None:
        super().__init__(text)
        self.made = made


class BadModule(MulkaveshError):
    """All edits can be made, and what they leave can't be written. `cause` says why: the `Rule` that is broken, or a `Cause`."""

    def __init__(self, text: str, cause: Union["Rule", "Cause"]) -> None:
        super().__init__(text)
        self.cause = cause


@dataclass(frozen=True)
class Function:
    """A function with a body: its index in the input, where imported functions have the first ones; the bytes of its body, in the output where `gc`
    keeps it, and in the input where `gc` drops it; and its name as the input's name section has it, or None.
    """

    index: int
    size: int
    name: Optional[str]


@dataclass(frozen=True)
class Export:
    """An export that stays: the kind of its item, as `function`, `table`, `memory`, `global` or `tag`, the index of that in the input, and the name of
    the export.
    """

    kind: str
    index: int
    name: str


@dataclass(frozen=True)
class Import:
    """An import that stays: the kind of its item, as of an `Export`, the index of that in the input, and the names of the module and of the import."""

    kind: str
    index: int
    module: str
    name: str


@dataclass(frozen=True)
class Counts:
    """How many items of a kind `gc` keeps, and how many it drops."""

    kept: int
    dropped: int


@dataclass(frozen=True)
class Sizes:
    """How many bytes `gc` reads and writes; how many the bodies of functions that it drops have in the input, and how many custom sections of debug
    information (`.debug*`), which all go.
    """

    read: int
    written: int
    dropped: int
    debug: int

    @property
    def rest(self) -> int:
        """By how many bytes the rest of the input became less; below 0 where it became more. Functions stand by falling size in the output, so that
        indices may take more bytes there.
        """
        return self.read - self.dropped - self.debug - self.written


@dataclass(frozen=True)
class Report:
    """What `gc` keeps and drops: of each kind of items, imported ones among them, and of bytes."""

    functions: Counts
    tables: Counts
    memories: Counts
    tags: Counts
    globals: Counts
    elements: Counts
    data: Counts
    bytes: Sizes


class Root(enum.IntEnum):
    """What makes an item stay by itself, the first of these that does: that it is exported, the start function, an active segment or a declared one."""

    EXPORTED = 1
    START = 2
    ACTIVE = 3
    DECLARED = 4


@dataclass(frozen=True)
class Link:
    """An item that stays: its kind, as `function`, `table`, `memory`, `tag`, `global`, `element`, `data` or `type`, and its index in the input; the bytes
    of its body in the output, of a function with a body, or None; its name as the input's name section has it, or None; and the names under which it is
    exported, of the exports that stay.
    """

    kind: str
    index: int
    size: Optional[int]
    name: Optional[str]
    exports: Tuple[str, ...]


@dataclass(frozen=True)
class Alone:
    """What a function keeps alone, itself among it: how many functions stay that wouldn't if its body trapped, and how many bytes their bodies have in
    the output.
    """

    functions: int
    bytes: int


@dataclass(frozen=True)
class Reason:
    """Why an item stays, or that it doesn't: its kind and its index in the input; a chain of references that leads to it, where a root is the first
    link and the item the last, or no links where it isn't reached; what makes the first one a root, or None; and, of a function with a body that stays,
    what it keeps alone.
    """

    kind: str
    index: int
    links: Tuple[Link, ...]
    root: Optional[Root]
    alone: Optional[Alone]


# What the standard calls the sections of each id.
_KINDS = ("custom", "type", "import", "function", "table", "memory", "global", "export", "start", "element", "code", "data", "data count", "tag")


@dataclass(frozen=True)
class Section:
    """A section: the number in front of it; the name of a custom one, or None; where its id stands, in bytes from the start; how many bytes all
    of it has, id and size too; and the count of entries in front of its content, or None where none stands there.
    """

    id: int
    name: Optional[str]
    start: int
    size: int
    entries: Optional[int]

    @property
    def kind(self) -> str:
        """What the standard calls a section of this id, as in `data count`, or `unknown`."""
        return _KINDS[self.id] if self.id < len(_KINDS) else "unknown"


@dataclass(frozen=True)
class Item:
    """A function with a body, or a data segment, as `kind` says by `function` or `data`: its index, where imported functions have the first ones;
    where it begins, in bytes from the start, a function behind the number that says the size of its body; and how many bytes it has.
    """

    kind: str
    index: int
    start: int
    size: int


@dataclass(frozen=True)
class Sections:
    """The sections that stand in bytes, by their framing alone: an id, a size and so many bytes, which in a custom section begin with its name;
    where they end, in bytes from the start: at the end of the bytes, or where no section stands; and whether they reach the end of the bytes.
    """

    sections: List[Section]
    end: int
    whole: bool


class FaultKind(enum.IntEnum):
    """What a fault is of: the header, a section, a rule on the whole, or a body."""

    HEADER = 1
    SECTION = 2
    RULE = 3
    BODY = 4


class Beginning(enum.IntEnum):
    """What bytes begin as that don't begin as a module."""

    OTHER = 0
    EMPTY = 1
    CUT = 2
    GZIP = 3
    ZIP = 4
    ZSTD = 5
    ELF = 6
    BITCODE = 7
    TEXT = 8
    COMPONENT = 9
    OTHER_VERSION = 10


class Rule(enum.IntEnum):
    """A rule on the sections of a module as a whole."""

    ORDER = 1
    TYPES = 2
    INDICES = 3
    FUNCTION_TYPES = 4
    LIMITS = 5
    COUNTS = 6
    EXPORT_NAMES = 7
    START = 8
    OFFSETS = 9
    LOCALS = 10


class Cause(enum.IntEnum):
    """Why what edits left can't be written, beside that it breaks a rule."""

    GONE = 11
    TWO_INDICES = 12
    NO_INDEX = 13
    NO_SPELLING = 14


# What is said of bytes that don't begin as a module, behind that they don't.
_BEGINS: Dict[Beginning, str] = {
    Beginning.OTHER: "",
    Beginning.EMPTY: ": there are none",
    Beginning.CUT: ": they end within the header",
    Beginning.GZIP: ": they are compressed by gzip",
    Beginning.ZIP: ": they are a zip archive",
    Beginning.ZSTD: ": they are compressed by zstd",
    Beginning.ELF: ": they are an ELF file",
    Beginning.BITCODE: ": they are LLVM bitcode",
    Beginning.TEXT: ": they are WebAssembly text, not binary",
    Beginning.COMPONENT: ": they are a component, not a module",
    Beginning.OTHER_VERSION: ": they have another version",
}

# What is said where a rule is broken.
_BROKEN: Dict[Rule, str] = {
    Rule.ORDER: "the sections stand out of order, or one stands twice",
    Rule.TYPES: "a type names one that isn't declared by the end of its group, or has a supertype that isn't before it, or more than one",
    Rule.INDICES: "an index names something that isn't declared, or isn't yet",
    Rule.FUNCTION_TYPES: "a function or a tag has a type that is no function type",
    Rule.LIMITS: "the limits of a table or a memory aren't allowed",
    Rule.COUNTS: "the number of bodies or of data segments isn't the one that is declared",
    Rule.EXPORT_NAMES: "two exports have the same name",
    Rule.START: "the start function has parameters or results",
    Rule.OFFSETS: "the offset of a segment isn't of the type of addresses",
    Rule.LOCALS: "a body declares more than 50,000 locals",
}

# What is said of what edits left.
_CAUSES: Dict[Cause, str] = {
    Cause.GONE: "it names an item that is gone",
    Cause.TWO_INDICES: "an item stands in it twice",
    Cause.NO_INDEX: "it names an item that stands nowhere",
    Cause.NO_SPELLING: "a body or an expression can't be spelled",
}


@dataclass(frozen=True)
class Fault:
    """What is wrong with bytes that are no module. `str` says it in plain words.

    The number is for the header the `Beginning` that stands there; for a section the place, in bytes from the start, where none stands; for a rule the `Rule` that is broken;
    and for a body the index of its function, where imported ones come first.
    """

    kind: FaultKind
    number: int

    def __str__(self) -> str:
        if self.kind == FaultKind.HEADER:
            return f"the bytes don't begin as a WebAssembly module{_BEGINS[Beginning(self.number)]}"
        if self.kind == FaultKind.SECTION:
            return f"no well-formed section stands at byte {self.number} (0x{self.number:X})"
        if self.kind == FaultKind.RULE:
            return _BROKEN[Rule(self.number)]
        return f"the body of function {self.number} isn't made of allowed instructions, well nested, with declared indices"


# ---- the library

_LIBRARY = "libmulkavesh.so"
# The version that this file is written for: of a library with another major or minor number the calls may be other ones.
_VERSION = (0, 1)
_READ = (ctypes.c_char_p, ctypes.c_size_t)
_WRITTEN = (ctypes.c_void_p, ctypes.c_size_t, ctypes.POINTER(ctypes.c_size_t))
_FLAGS = (ctypes.c_uint32,)
# What each call takes between the module that it reads and the room that it writes.
_BETWEEN: Dict[str, Tuple[Any, ...]] = {
    "gc": (*_FLAGS, *_READ),
    "report": (*_FLAGS, *_READ),
    "list": (*_FLAGS, *_READ),
    "dropped": (*_FLAGS, *_READ),
    "exports": (*_FLAGS, *_READ),
    "imports": (*_FLAGS, *_READ),
    "why": (*_FLAGS, *_READ, *_READ),
    "callers": (*_FLAGS, *_READ, *_READ),
    "snip": (*_FLAGS, *_READ),
    "stub": (*_FLAGS, *_READ, *_READ),
    "diagnose": _FLAGS,
    "sections": (),
    "parts": (),
    "strip": _READ,
    "read": _FLAGS,
    "edit": (*_FLAGS, *_READ),
}


def _path() -> str:
    """Where the library is."""
    here, named = pathlib.Path(__file__).resolve().parent, os.environ.get("MULKAVESH_LIB")
    folders = [pathlib.Path(named)] if named else [here, here.parent.parent / "crates" / "mulkavesh_c" / "out" / "lib"]
    for folder in folders:
        if (folder / _LIBRARY).is_file():
            return str(folder / _LIBRARY)
    found = None if named else ctypes.util.find_library("mulkavesh")
    if found:
        return found
    places = " or ".join(map(str, folders)) + ("" if named else " or among the system's libraries")
    raise ImportError(f"there is no {_LIBRARY} in {places}: set MULKAVESH_LIB to its folder, or build it (docs/USING.md)")


def _version_of(library: ctypes.CDLL) -> Tuple[int, int, int]:
    call = library.mulkavesh_version
    call.restype, call.argtypes = ctypes.c_uint32, ()
    number: int = call()
    return number >> 16, number >> 8 & 255, number & 255


def _loaded() -> ctypes.CDLL:
    """The library, whose calls take what the header says."""
    path = _path()
    try:
        library = ctypes.CDLL(path)
        major, minor, _ = _version_of(library)
        for name, between in _BETWEEN.items():
            call = getattr(library, f"mulkavesh_{name}")
            call.restype, call.argtypes = ctypes.c_uint32, (*_READ, *between, *_WRITTEN)
    except (OSError, AttributeError) as error:
        raise ImportError(f"{path} can't be used: {error}") from error
    if (major, minor) != _VERSION:
        raise ImportError(f"{path} is of version {major}.{minor}, and this package is for {_VERSION[0]}.{_VERSION[1]}")
    return library


_library = _loaded()


# ---- a call

# A smaller module, or a list, is seldom longer than the input by more.
_MARGIN = 256
# A dozen lines of a few words and two numbers are shorter, and some hundred links of a chain.
_ROOM_OF_A_REPORT, _ROOM_OF_A_CHAIN = 1024, 4096
# Few modules have more than some forty sections.
_ROOM_OF_SECTIONS = 1024
# What is wrong, and the place, the rule or the index.
_FAULT = struct.Struct("<II")
# The flags.
_NO_NAMES, _NO_PRODUCERS, _NO_LEGACY, _GC = 1, 2, 4, 8
# The numbers in front of each name in a list, and what stands there for the length of a name, or for a size, that isn't there.
_ENTRY, _NO_NAME = struct.Struct("<III"), 2**32 - 1
# What stands in front of the names of an export or an import; in front of a text; and in front of a reason and of the name of a link.
_EXTERN, _LENGTH, _REASON, _LINK = struct.Struct("<BI"), struct.Struct("<I"), struct.Struct("<BIB?II"), struct.Struct("<BIII")
# The kinds of items by the numbers of links, and by those of exports and imports.
_OF_LINKS = ("type", "function", "table", "memory", "tag", "global", "element", "data")
_OF_EXTERNS = ("function", "table", "memory", "global", "tag")
# What stands in front of all sections, and in front of the name of each.
_FRAMING, _SECTION = struct.Struct("<?I"), struct.Struct("<B?IIII")
# What is told in place of the number of a section that isn't one.
_FUNCTION = 138
_SEGMENT = 139
_ITEMS = {_FUNCTION: "function", _SEGMENT: "data"}
# What stands in front of each NAME in a list: whether what it fits stays, and its length.
_CHOSEN = struct.Struct("<?I")
_INVALID = "the input is no module that keeps the rules"
_REFUSALS: Dict[int, Tuple[Type[Exception], str]] = {
    Status.TOO_LARGE: (TooLarge, "a count or a size passes 32 bits"),
    Status.NO_MEMORY: (MemoryError, "out of memory"),
    Status.UNKNOWN_FLAG: (MulkaveshError, "the library doesn't know a flag"),
}


def _whole(data: Bytes) -> bytes:
    """The bytes, which nothing can change: a copy, but of `bytes`."""
    return data if type(data) is bytes else memoryview(data).tobytes()


def _bytes_of(name: Name) -> bytes:
    """The bytes of a name. Those of a text that has none in UTF-8 aren't found by the library."""
    return name.encode("utf-8", "surrogatepass") if isinstance(name, str) else _whole(name)


def _flags(names: bool, producers: bool, legacy: bool) -> int:
    return (0 if names else _NO_NAMES) | (0 if producers else _NO_PRODUCERS) | (0 if legacy else _NO_LEGACY)


def _tried(call: str, data: bytes, words: Tuple[Any, ...], room: int) -> Tuple[int, bytearray, int]:
    """A call in so much room: its status, the room, and the length that it told."""
    output, length = bytearray(room), ctypes.c_size_t(0)
    place = ctypes.byref(ctypes.c_char.from_buffer(output))
    status: int = getattr(_library, f"mulkavesh_{call}")(data, len(data), *words, place, room, ctypes.byref(length))
    return status, output, length.value


def _fault_of(told: bytes) -> Optional[Fault]:
    """What the eight bytes say that the library answers."""
    kind, number = _FAULT.unpack(told)
    if kind == 0:
        return None
    if kind == FaultKind.HEADER:
        return Fault(FaultKind.HEADER, Beginning(number))
    return Fault(FaultKind(kind), Rule(number) if kind == FaultKind.RULE else number)


def _invalid(data: bytes, legacy: bool) -> InvalidModule:
    """The refusal of these bytes, with what is wrong with them, which a second call tells."""
    try:
        status, told, _ = _tried("diagnose", data, (_flags(True, True, legacy),), _FAULT.size)
    except MemoryError:
        return InvalidModule(_INVALID)
    return InvalidModule(_INVALID, _fault_of(told) if status == Status.DONE else None)


def _answer(
    call: str, module: Bytes, *words: Any, room: int = 0, missing: str = "", legacy: bool = True, roots: Sequence[Name] = ()
) -> bytes:
    """What a call answers: in a guessed room, and again in more until that suffices. `missing` says what wasn't found, but for one of the NAMEs
    `roots` whose number is told; and `legacy` says whether the call takes legacy exceptions.
    """
    data = _whole(module)
    status, output, length = _tried(call, data, words, room or len(data) + _MARGIN)
    while status == Status.NO_ROOM:
        status, output, length = _tried(call, data, words, length)
    if status == Status.DONE:
        return bytes(memoryview(output)[:length])
    if status == Status.INVALID:
        del output
        raise _invalid(data, legacy)
    if status == Status.NOT_FOUND and length < len(roots):
        raise NotFound(f"no export fits {roots[length]!r}", roots[length])
    if status == Status.NOT_FOUND:
        raise NotFound(missing)
    if status == Status.BAD_EDIT:
        raise BadEdit(f"edit {length}, counted from 0, isn't of its form, or can't be made of what those in front of it left", length)
    if status == Status.BAD_MODULE:
        raise _bad_module(length)
    kind, text = _REFUSALS.get(status, (MulkaveshError, f"the library answered status {status}"))
    raise kind(text)


def _bad_module(number: int) -> BadModule:
    """The refusal of what edits left, for the cause of this number."""
    front = "the changed module is invalid: "
    if number in _CAUSES:
        return BadModule(front + _CAUSES[Cause(number)], Cause(number))
    return BadModule(front + _BROKEN[Rule(number)], Rule(number))


def _list(*names: Tuple[Sequence[Name], bool]) -> bytes:
    """A list of NAMEs, of which some say what stays, and the others what goes."""
    return b"".join(_chosen(name, stays) for some, stays in names for name in some)


def _under_roots(
    call: str, module: Bytes, flags: int, roots: Tuple[Names, Names], function: Optional[bytes] = None, *, room: int = 0, missing: str = ""
) -> bytes:
    """What a call answers under a choice of exports, by the NAMEs of those that are kept and of those that are dropped."""
    keep, drop = map(_several, roots)
    choice = _list((keep, True), (drop, False))
    words = (flags, choice, len(choice), *(() if function is None else (function, len(function))))
    return _answer(call, module, *words, room=room, missing=missing, legacy=not flags & _NO_LEGACY, roots=[*keep, *drop])


def _entries(listed: bytes, at: int, entry: struct.Struct) -> Iterator[Tuple[Any, ...]]:
    """The entries of a list from a place on: numbers, of which the last is the length of the name behind them, and this name or None."""
    while at < len(listed):
        *numbers, length = entry.unpack_from(listed, at)
        at += entry.size
        end = at if length == _NO_NAME else at + length
        yield (*numbers, None if length == _NO_NAME else listed[at:end].decode())
        at = end


def _text(told: bytes, at: int) -> Tuple[str, int]:
    """The text behind its length at a place, and the place behind it."""
    (length,) = _LENGTH.unpack_from(told, at)
    start = at + _LENGTH.size
    return told[start : start + length].decode(), start + length


def _texts(told: bytes, at: int, count: int) -> Tuple[Tuple[str, ...], int]:
    """So many texts at a place, and the place behind them."""
    found = []
    for _ in range(count):
        text, at = _text(told, at)
        found.append(text)
    return tuple(found), at


def _externs(told: bytes, count: int) -> Iterator[Tuple[Any, ...]]:
    """What stands in a list of exports or imports, each with so many names: the kind, the index, and the names."""
    at = 0
    while at < len(told):
        kind, index = _EXTERN.unpack_from(told, at)
        names, at = _texts(told, at + _EXTERN.size, count)
        yield (_OF_EXTERNS[kind], index, *names)


def _links(told: bytes, at: int) -> Iterator[Link]:
    """The links that the library tells, from a place on."""
    while at < len(told):
        kind, index, size, length = _LINK.unpack_from(told, at)
        start = at + _LINK.size
        at = start if length == _NO_NAME else start + length
        name = None if length == _NO_NAME else told[start:at].decode()
        (count,) = _LENGTH.unpack_from(told, at)
        exported, at = _texts(told, at + _LENGTH.size, count)
        yield Link(_OF_LINKS[kind], index, None if size == _NO_NAME else size, name, exported)


def _reason(told: bytes) -> Reason:
    """The reason that the library tells."""
    kind, index, root, is_alone, functions, size = _REASON.unpack_from(told)
    links = tuple(_links(told, _REASON.size))
    return Reason(_OF_LINKS[kind], index, links, Root(root) if root else None, Alone(functions, size) if is_alone else None)


def _report(lines: str) -> Report:
    """What the lines say that the library tells: seven of items, and three of bytes in front of what follows from them."""
    numbers = [[int(word) for word in line.split() if word.isdigit()] for line in lines.splitlines()]
    (read, written), (lost,), (debug,) = numbers[7:10]
    functions, tables, memories, tags, globals_, elements, data = (Counts(kept, gone) for kept, gone in numbers[:7])
    return Report(functions, tables, memories, tags, globals_, elements, data, Sizes(read, written, lost, debug))


def _sections(told: bytes) -> Sections:
    """The sections that the library tells."""
    whole, end = _FRAMING.unpack_from(told)
    entries = _entries(told, _FRAMING.size, _SECTION)
    return Sections([Section(kind, name, start, size, count if counted else None) for kind, counted, start, size, count, name in entries], end, whole)


def _part(told: Section) -> Union[Section, Item]:
    """What the library tells as this section."""
    kind = _ITEMS.get(told.id)
    return told if kind is None or told.entries is None else Item(kind, told.entries, told.start, told.size)


def _chosen(name: Name, stays: bool) -> bytes:
    """The part of a list that says that what this NAME fits goes, or that it stays."""
    word = _bytes_of(name)
    if len(word) >= 2**32:
        raise TooLarge("the length of a name passes 32 bits")
    return _CHOSEN.pack(stays, len(word)) + word


def _several(names: Names) -> List[Name]:
    """The NAMEs, of which one may stand alone."""
    return [names] if isinstance(names, (str, bytes, bytearray, memoryview)) else list(names)


def _function(function: Union[int, Name]) -> bytes:
    """The text that means a function: of an index its digits."""
    if isinstance(function, (str, bytes, bytearray, memoryview)):
        return _bytes_of(function)
    index = operator.index(function)
    if not 0 <= index < 2**32:
        raise ValueError(f"{index} is no index of a function: those are 0 to 2**32 - 1")
    return b"%d" % index


def _fits(what: str, names: Sequence[Any]) -> str:
    """What is said where nothing fits one of these NAMEs."""
    return f"{what} {'' if len(names) == 1 else 'one of '}{', '.join(map(repr, names))}"


# ---- the calls


def version() -> Tuple[int, int, int]:
    """The version of the library: the major number, the minor one, and the patch."""
    return _version_of(_library)


def gc(module: Bytes, *, keep: Names = (), drop: Names = (), names: bool = True, producers: bool = True, legacy: bool = True) -> bytes:
    """The module of which the chosen exports are left, without what nothing reaches then.

    Where `names` or `producers` is false, none are written; where `legacy` is false, bodies with legacy exceptions are refused. `NotFound` where a NAME of
    `keep` or `drop` fits no export.
    """
    return _under_roots("gc", module, _flags(names, producers, legacy), (keep, drop))


def report(module: Bytes, *, keep: Names = (), drop: Names = (), names: bool = True, producers: bool = True, legacy: bool = True) -> Report:
    """How many items of each kind, imported ones among them, and how many bytes `gc` keeps and drops where it is asked the same."""
    flags = _flags(names, producers, legacy)
    return _report(_under_roots("report", module, flags, (keep, drop), room=_ROOM_OF_A_REPORT).decode())


def diagnose(module: Bytes, *, legacy: bool = True) -> Optional[Fault]:
    """What is wrong with bytes, which is the `fault` of `InvalidModule` too, or None exactly where the other calls accept them.

    Where several things are wrong, one of them is told. `TooLarge` where a place or an index passes 32 bits.
    """
    return _fault_of(_answer("diagnose", module, _flags(True, True, legacy), room=_FAULT.size))


def list_functions(module: Bytes, *, keep: Names = (), drop: Names = (), legacy: bool = True) -> List[Function]:
    """The functions with a body that `gc` keeps, by rising index."""
    listed = _under_roots("list", module, _flags(True, True, legacy), (keep, drop))
    return [Function(*entry) for entry in _entries(listed, 0, _ENTRY)]


def dropped(module: Bytes, *, keep: Names = (), drop: Names = (), legacy: bool = True) -> List[Function]:
    """The functions with a body that `gc` drops, by rising index, with the bytes that each has in the input."""
    listed = _under_roots("dropped", module, _flags(True, True, legacy), (keep, drop))
    return [Function(*entry) for entry in _entries(listed, 0, _ENTRY)]


def exports(module: Bytes, *, keep: Names = (), drop: Names = (), legacy: bool = True) -> List[Export]:
    """The exports that stay, in the order of the input."""
    return [Export(*entry) for entry in _externs(_under_roots("exports", module, _flags(True, True, legacy), (keep, drop)), 1)]


def imports(module: Bytes, *, keep: Names = (), drop: Names = (), legacy: bool = True) -> List[Import]:
    """The imports that `gc` keeps, in the order of the input."""
    return [Import(*entry) for entry in _externs(_under_roots("imports", module, _flags(True, True, legacy), (keep, drop)), 2)]


def sections(module: Bytes) -> Sections:
    """What sections stand in the bytes, by their framing alone: what stands in them, and in which order they come, isn't looked at.

    `InvalidModule` exactly where the magic number and the version don't stand in front; `TooLarge` where a place, a size or a count passes
    32 bits.
    """
    return _sections(_answer("sections", module, room=_ROOM_OF_SECTIONS))


def parts(module: Bytes) -> List[Union[Section, Item]]:
    """What stands in a module: its sections, and behind one of code the functions in it, behind one of data the data segments.

    `InvalidModule` exactly where the bytes aren't the sections of a module, read to their ends; `TooLarge` where a place, a size or a count
    passes 32 bits.
    """
    return [_part(it) for it in _sections(_answer("parts", module, room=len(module) // 4 + _ROOM_OF_SECTIONS)).sections]


def strip(module: Bytes, *names: Name, keep: Names = ()) -> bytes:
    """The module without the custom sections whose names fit one of `names` and none of `keep`. All else is as it stands, byte for byte.

    In these `*` stands for any bytes, also for none, and `\\*` for a star. Debug information (`.debug*`), names (`name`) and producers
    (`producers`) are custom sections as any. Nothing is read but where sections begin and end and what custom ones are called, so that the
    module may break other rules.

    `NotFound` where one of `names` fits no custom section; `InvalidModule` exactly where the bytes aren't a header and whole sections.
    """
    choice = _list((names, False), (_several(keep), True))
    return _answer("strip", module, choice, len(choice), missing=_fits("no custom section fits", names))


def why(module: Bytes, function: Union[int, Name], *, keep: Names = (), drop: Names = (), legacy: bool = True) -> Reason:
    """Why `gc` keeps a function, or another item that is exported: a chain of references that leads to it, and what would go with it.

    `function` is the index of a function in the input, as a number or in decimal; or else the name of one, of which the first is meant; or else that of
    an export, and then its item is meant. Which chain it is isn't promised.

    `NotFound` where it means nothing, `ValueError` where a number isn't 0 to 2**32 - 1.
    """
    flags, missing = _flags(True, True, legacy), f"the module has no function or export {function!r}"
    return _reason(_under_roots("why", module, flags, (keep, drop), _function(function), room=_ROOM_OF_A_CHAIN, missing=missing))


def callers(module: Bytes, function: Union[int, Name], *, keep: Names = (), drop: Names = (), legacy: bool = True) -> List[Link]:
    """What stays and refers directly to a function, or to another item that is exported, by kind and index. What `function` means, `why` says, and
    what is refused.
    """
    flags, missing = _flags(True, True, legacy), f"the module has no function or export {function!r}"
    return [*_links(_under_roots("callers", module, flags, (keep, drop), _function(function), room=_ROOM_OF_A_CHAIN, missing=missing), 0)]


def snip(module: Bytes, *functions: Union[int, Name], names: bool = True, producers: bool = True, legacy: bool = True) -> bytes:
    """The module where these functions trap, whoever calls them, without what nothing reaches then.

    Each is the index of a function, as a number or in decimal; or, with a `*` in it, a NAME, which means each function with a body whose name it fits, or
    the name of one of whose exports; or the name of a function, of which the first is meant; or else that of an export of one.

    `NotFound` where one means no function, or an imported one; `ValueError` where a number isn't 0 to 2**32 - 1.
    """
    flags, choice = _flags(names, producers, legacy), _list(([_function(it) for it in functions], False))
    return _answer("snip", module, flags, choice, len(choice), missing=_fits("no function with a body is meant by", functions), legacy=legacy)


def stub(module: Bytes, *modules: Name, imports: Names = (), names: bool = True, producers: bool = True, legacy: bool = True) -> bytes:
    """The module where functions that were imported are its own ones, which trap, without what nothing reaches then: those from a module that one of
    `modules` fits, and under a name that one of `imports` fits, or under any where there are none. In these `*` stands for any bytes, and `\\*` for a star.

    `NotFound` where no function is imported so.
    """
    flags, some = _flags(names, producers, legacy), _several(imports)
    chosen, named = _list((modules, False)), _list((some, False))
    missing = _fits("no function is imported from", modules) + (_fits(" as", some) if some else "")
    return _answer("stub", module, flags, chosen, len(chosen), named, len(named), missing=missing, legacy=legacy)


def read(module: Bytes, *, legacy: bool = True) -> bytes:
    """The items of a module, each with its id, as records: docs/FORMATS.md, "A list of items". `mulkavesh.module` reads them into items."""
    return _answer("read", module, _flags(True, True, legacy), legacy=legacy)


def edit(
    module: Bytes, edits: Bytes, *, gc: bool = False, names: bool = True, producers: bool = True, legacy: bool = True
) -> bytes:
    """The module that a list of edits makes of it, each in its turn: docs/FORMATS.md, "A list of edits". With `gc`, what nothing reaches then goes. `mulkavesh.module`
    makes lists.

    `BadEdit` where one is refused, `BadModule` where what all of them left is.
    """
    flags, given = _flags(names, producers, legacy) | (_GC if gc else 0), _whole(edits)
    return _answer("edit", module, flags, given, len(given), room=len(module) + len(given) + _MARGIN, legacy=legacy)
