"""What differs from what was read, as a list of edits (docs/FORMATS.md, "A list of edits"). What differs and no edit says is refused."""
import dataclasses
from typing import Any, Callable, Dict, Iterator, List, NamedTuple, Optional, Set, Tuple

from mulkavesh._told import GLOBAL_SHARED, HAS_MAXIMUM, HAS_PAGE, LIMITS_SHARED, MUTABLE, NAMED, SECTIONS, WIDE, Items
from mulkavesh._wire import block, name, number, value_type, value_types, vector
from mulkavesh.items import (
    FUNCTION, GLOBAL, KINDS, MEMORY, TABLE, TAG, Arena, CustomSection, Data, Element, Export, Function, FunctionId, Global, Import, Memory,
)

_ADD_FUNCTION, _SET, _DELETE, _BRING, _NAME, _PRODUCER, _NO_PRODUCERS, _FRONT = range(16, 24)
_CUSTOM = 0
_TRAP = b"\0\0\x0B"
# The flags of segments: written at first, for operators, to declare; and beside these, that expressions are listed.
_ACTIVE, _PASSIVE, _DECLARED, _EXPRESSIONS = 2, 1, 3, 4

_GONE, _NEW = "an item of its kind can't go", "an item of its kind can't be added"
_FIXED = "its `{}` can't be changed, only its name"
_IMPORT = "its import can't be changed"
_LOCALS = "the names of its locals can't be changed"
_BOTH, _NEITHER = "it has a {} and an import", "it has neither a {} nor an import"
_TYPELESS = "its type isn't there, or isn't one of functions"
_BODY = "its body isn't well formed, or names what isn't there"
_IN_FRONT = "what stands in front of its body isn't well formed, or names what isn't there"
_GLOBAL = "its type or its initialiser isn't well formed, or names what isn't there"
_ELEMENT = "its table, its offset or what it lists isn't there, or isn't well formed"
_DATA = "its memory isn't there, or its offset isn't well formed"
_OFFSET = "it has an offset, and no {}"
_EXPORT = "what it exports isn't there"
_SECTION = "the library writes sections of its name itself, or none"
_FIELD = "its field isn't `language`, `processed-by` or `sdk`"
_ABSENT = "it isn't there"

_NOTHING: List[FunctionId] = []
_NO_ELEMENTS = Element(_NOTHING)

# What an item is called, and its id, which the module and the start function don't have.
Which = Tuple[str, Optional[int]]


class Refused(Exception):
    """An item that can't be written as it is, and why."""

    def __init__(self, which: Which, why: str) -> None:
        super().__init__(which, why)
        self.which, self.why = which, why


class Edits:
    """The edits so far, and of which item each came, with what is wrong with that where the library refuses it."""

    def __init__(self) -> None:
        self.data = bytearray()
        self.of: List[Tuple[Which, str]] = []

    def put(self, edit: int, payload: bytes, which: Which, why: str = _ABSENT) -> None:
        self.data.append(edit)
        self.data += block(payload)
        self.of.append((which, why))

    def add(self, section: int, entry: bytes, which: Which, why: str) -> None:
        """A section that lists this entry alone."""
        self.put(section, vector([entry]), which, why)

    def set(self, section: int, entry: bytes, which: Which, why: str = _ABSENT) -> None:
        self.put(_SET, bytes([section]) + number(which[1] or 0) + entry, which, why)

    def delete(self, section: int, which: Which) -> None:
        self.put(_DELETE, bytes([section]) + number(which[1] or 0), which)


def _limits(it: Memory) -> bytes:
    flags = (it.maximum is not None) * HAS_MAXIMUM | it.shared * LIMITS_SHARED | it.memory64 * WIDE | (it.page_size_log2 is not None) * HAS_PAGE
    return bytes([flags]) + b"".join(number(one) for one in (it.initial, it.maximum, it.page_size_log2) if one is not None)


def _global(it: Global) -> bytes:
    return value_type(it.type) + bytes([it.mutable * MUTABLE | it.shared * GLOBAL_SHARED]) + (it.init or b"")


def _import(it: Import, brought: bytes) -> bytes:
    return name(it.module) + name(it.name) + bytes([KINDS.index(it.kind.kind)]) + brought


def _export(it: Export) -> bytes:
    return name(it.name) + bytes([KINDS.index(it.item.kind)]) + number(it.item.id)


def _element(it: Element) -> bytes:
    mode = _ACTIVE if it.table is not None else _DECLARED if it.declared else _PASSIVE
    front = bytes([mode | (_EXPRESSIONS if it.type else 0)]) + (b"" if it.table is None else number(it.table) + it.offset)
    listed = [one if isinstance(one, bytes) else number(one) for one in it.items]
    return front + (value_type(it.type) if it.type else b"\0") + vector(listed)


def _data(it: Data) -> bytes:
    front = bytes([_PASSIVE]) if it.memory is None else bytes([_ACTIVE]) + number(it.memory) + it.offset
    return front + block(it.value)


class Pair(NamedTuple):
    """What was there of an id, and what is."""

    which: Which
    was: Any
    now: Any
    # Whether it comes behind all that was there.
    is_new: bool

    @property
    def id(self) -> int:
        assert self.which[1] is not None
        return self.which[1]


def _pairs(what: str, was: "Arena[Any, Any]", now: "Arena[Any, Any]") -> Iterator[Pair]:
    """Each id at which something differs, or came, or went; by rising id."""
    for id_ in range(max(was._next, now._next)):
        old, new, is_new = was.get(id_), now.get(id_), id_ >= was._next
        if old is None or new is None or old != new:
            yield Pair((what, id_), old, new, is_new)


def _differing(was: Any, now: Any, *fields: str) -> Optional[str]:
    """The first of these fields that differs, or None."""
    return next((field for field in fields if getattr(was, field) != getattr(now, field)), None)


def _refuse_all_but_name(it: Pair) -> None:
    """Refuses an item, of which another field than its name differs."""
    field = _differing(it.was, it.now, *(field.name for field in dataclasses.fields(it.was) if field.name != "name"))
    if field is not None:
        raise Refused(it.which, _FIXED.format(field))


class Differ:
    """Edits are so ordered that each names what is there: types first, then functions that trap as yet, globals, memories and segments, then bodies, and then all
    else.
    """

    def __init__(self, was: Items, now: Items) -> None:
        self.was, self.now, self.edits = was, now, Edits()
        # The imports whose items come with an edit of their own, or have a body or a value now.
        self.done: Set[int] = set()
        for step in (
            self.types, self.functions, self.globals, self.fixed, self.memories, self.elements, self.data, self.bodies, self.imports, self.exports, self.start,
            self.customs, self.producers, self.names,
        ):
            step()

    def pairs(self, kind: str) -> Iterator[Pair]:
        return _pairs(kind, self.was.of(kind), self.now.of(kind))

    def types(self) -> None:
        for it in self.pairs("type"):
            if it.now is None:
                raise Refused(it.which, _GONE)
            if it.was is not None:
                _refuse_all_but_name(it)
            elif it.now.params is None or it.now.results is None:
                raise Refused(it.which, "only types of functions come")
            else:
                self.edits.add(1, b"\x60" + value_types(it.now.params) + value_types(it.now.results), it.which, "it names a type that isn't there")

    def new_import(self, id_: int, which: Which) -> Import:
        """The import of this id, which is new and brings this item."""
        found = self.now.imports.get(id_)
        if found is None or id_ < self.was.imports._next or id_ in self.done or tuple(found.kind) != which:
            raise Refused(which, _IMPORT)
        self.done.add(id_)
        return found

    def change_function(self, it: Pair, brought: Dict[int, Pair]) -> None:
        """What was there of a function, of which the body comes later."""
        was, now = it.was, it.now
        if was.type != now.type:
            raise Refused(it.which, "its type can't be changed")
        if now.body is None and now.imported is None:
            raise Refused(it.which, _NEITHER.format("body"))
        # they go with another body
        stays = (was.body and was.body.data) == (now.body and now.body.data)
        if was.local_names != now.local_names and (stays or now.local_names):
            raise Refused(it.which, _LOCALS)
        if now.body is not None:
            if now.imported not in (None, was.imported):
                raise Refused(it.which, _BOTH.format("body"))
            if was.imported is not None:
                self.done.add(was.imported)
        elif was.imported is None and now.imported not in brought:
            brought[now.imported] = it
        elif was.imported != now.imported:
            raise Refused(it.which, _IMPORT)

    def bring(self, brought: Dict[int, Pair], end: Optional[int] = None) -> None:
        """Has functions imported by those of these imports that come before this one, if there is one."""
        for id_ in sorted(id_ for id_ in brought if end is None or id_ < end):
            it = brought.pop(id_)
            found = self.new_import(id_, it.which)
            self.edits.put(_BRING, b"\0" + number(it.id) + name(found.module) + name(found.name), it.which)

    def own(self, it: Pair, what: str) -> None:
        """Refuses an item that is new and has a body or a value, and an import too that isn't its own. Its own one is gone."""
        id_: Optional[int] = it.now.imported
        if id_ is not None:
            found = self.now.imports.get(id_)
            if found is None or id_ < self.was.imports._next or tuple(found.kind) != it.which:
                raise Refused(it.which, _BOTH.format(what))

    def add_function(self, it: Pair, brought: Dict[int, Pair]) -> None:
        now: Function = it.now
        if now.local_names:
            raise Refused(it.which, _LOCALS)
        if now.body is not None:
            self.own(it, "body")
            self.edits.put(_ADD_FUNCTION, number(now.type) + _TRAP, it.which, _TYPELESS)
        elif now.imported is not None:
            self.bring(brought, now.imported)
            self.edits.add(2, _import(self.new_import(now.imported, it.which), number(now.type)), it.which, _TYPELESS)
        else:
            raise Refused(it.which, _NEITHER.format("body"))

    def functions(self) -> None:
        """New imports come in their order."""
        brought: Dict[int, Pair] = {}
        for it in self.pairs(FUNCTION):
            if it.now is None:
                raise Refused(it.which, _GONE)
            if it.was is None:
                self.add_function(it, brought)
            else:
                self.change_function(it, brought)
        self.bring(brought)

    def bodies(self) -> None:
        for it in self.pairs(FUNCTION):
            was, now = it.was and it.was.body, it.now.body
            if now is None or was == now:
                continue
            if was is not None and was.data == now.data:
                self.edits.put(_FRONT, number(it.id) + now.front, it.which, _IN_FRONT)
            else:
                self.edits.set(SECTIONS[FUNCTION], bytes(now), it.which, _BODY)

    def fixed(self) -> None:
        """Tables and tags, of which only the name can be changed."""
        for kind in (TABLE, TAG):
            for it in self.pairs(kind):
                if it.was is None or it.now is None:
                    raise Refused(it.which, _NEW if it.was is None else _GONE)
                _refuse_all_but_name(it)

    def memories(self) -> None:
        for it in self.pairs(MEMORY):
            if it.was is None or it.now is None:
                raise Refused(it.which, _NEW if it.was is None else _GONE)
            if it.was.imported != it.now.imported:
                raise Refused(it.which, _IMPORT)
            if _limits(it.was) != _limits(it.now):
                self.edits.set(SECTIONS[MEMORY], _limits(it.now), it.which, "its limits can't be spelled")

    def is_set(self, it: Pair) -> bool:
        """Whether what was read of a global comes anew."""
        was, now = it.was, it.now
        if now.init is not None:
            if now.imported not in (None, was.imported):
                raise Refused(it.which, _BOTH.format("value"))
            if was.imported is not None:
                self.done.add(was.imported)
            return _differing(was, now, "type", "mutable", "shared", "init") is not None
        if was.imported is None:
            raise Refused(it.which, "it can't come to be imported" if now.imported is not None else _NEITHER.format("value"))
        if was.imported != now.imported:
            raise Refused(it.which, _IMPORT)
        field = _differing(was, now, "type", "mutable", "shared")
        if field is not None:
            raise Refused(it.which, f"its `{field}` can't be changed, since an import brings it")
        return False

    def add_global(self, it: Pair) -> None:
        now: Global = it.now
        if now.init is not None:
            self.own(it, "value")
            self.edits.add(SECTIONS[GLOBAL], _global(now), it.which, _GLOBAL)
        elif now.imported is not None:
            self.edits.add(2, _import(self.new_import(now.imported, it.which), _global(now)), it.which, _GLOBAL)
        else:
            raise Refused(it.which, _NEITHER.format("value"))

    def globals(self) -> None:
        later = []
        for it in self.pairs(GLOBAL):
            if it.now is None:
                raise Refused(it.which, _GONE)
            if it.was is None:
                self.add_global(it)
            elif self.is_set(it):
                later.append(it)
        for it in later:
            self.edits.set(SECTIONS[GLOBAL], _global(it.now), it.which, _GLOBAL)

    def add_element(self, which: Which, it: Element) -> None:
        """One that has what it doesn't need is refused."""
        if it.table is None and it.offset:
            raise Refused(which, _OFFSET.format("table"))
        if it.table is not None and it.declared:
            raise Refused(which, "it has a table, and declares functions")
        if any(isinstance(one, bytes) == (it.type is None) for one in it.items):
            raise Refused(which, "it lists functions and has a `type`, or expressions and has none")
        self.edits.add(9, _element(it), which, _ELEMENT)

    def elements(self) -> None:
        for it in self.pairs("element"):
            if it.was is not None and it.now is not None:
                _refuse_all_but_name(it)
                continue
            if it.is_new:
                self.add_element(it.which, it.now or _NO_ELEMENTS)
            if it.now is None:
                self.edits.delete(9, it.which)

    def data(self) -> None:
        """One that came and went has an id all the same, and so do those behind it."""
        for it in self.pairs("data"):
            if it.now is not None and it.now.memory is None and it.now.offset and (it.is_new or it.was.offset != it.now.offset):
                raise Refused(it.which, _OFFSET.format("memory"))
            if it.is_new:
                self.edits.add(11, _data(it.now or Data(b"")), it.which, _DATA)
            elif it.now is not None and _data(it.was) != _data(it.now):
                self.edits.set(11, _data(it.now), it.which, _DATA)
            if it.now is None:
                self.edits.delete(11, it.which)

    def imports(self) -> None:
        """An import whose item has a body or a value now is gone, and so needs no edit."""
        for it in _pairs("import", self.was.imports, self.now.imports):
            if it.is_new:
                continue
            if it.now is None:
                if it.id not in self.done:
                    raise Refused(it.which, _GONE)
            elif it.was.kind != it.now.kind:
                raise Refused(it.which, "what it brings can't be changed")
            elif it.id in self.done:
                raise Refused(it.which, "it is gone, since what it brought is the module's own")
            else:
                self.edits.set(2, name(it.now.module) + name(it.now.name), it.which)

    def listed(self, what: str, was: "Arena[Any, Any]", now: "Arena[Any, Any]", section: int, why: str, entry: Callable[[Any], bytes]) -> None:
        """Items that are added, set and deleted as any."""
        for it in _pairs(what, was, now):
            if it.now is None:
                if not it.is_new:
                    self.edits.delete(section, it.which)
            elif it.is_new:
                self.edits.add(section, entry(it.now), it.which, why)
            else:
                self.edits.set(section, entry(it.now), it.which, why)

    def exports(self) -> None:
        self.listed("export", self.was.exports, self.now.exports, 7, _EXPORT, _export)

    def start(self) -> None:
        was, now, which = self.was.start, self.now.start, ("start function", None)
        if now is not None and was != now:
            self.edits.put(8, number(now), which)
        elif now is None and was is not None:
            self.edits.put(_DELETE, b"\x08", which)

    def custom(self, it: Pair) -> None:
        now: Optional[CustomSection] = it.now
        if now is None:
            if not it.is_new:
                self.edits.delete(_CUSTOM, it.which)
        elif it.is_new:
            self.edits.put(_CUSTOM, name(now.name) + now.data, it.which, _SECTION)
        elif it.was.name != now.name:
            raise Refused(it.which, "its name can't be changed")
        else:
            self.edits.set(_CUSTOM, now.data, it.which)

    def customs(self) -> None:
        for it in _pairs("custom section", self.was.customs, self.now.customs):
            self.custom(it)

    def producers(self) -> None:
        """Those that differ come, each in the place of one of its name in the field, where there is one; or all go and all come."""
        was, now, names = list(self.was.producers), list(self.now.producers), set()
        if was == now:
            return
        stay = len(was) <= len(now) and all((a.field, a.name) == (b.field, b.name) for a, b in zip(was, now))
        if not stay:
            self.edits.put(_NO_PRODUCERS, b"", ("producer", 0))
        for at, it in enumerate(now):
            is_first = (it.field, it.name) not in names
            names.add((it.field, it.name))
            if stay and at < len(was) and was[at] == it:
                continue
            if not is_first:
                raise Refused(("producer", at), "one of its name stands before it in its field")
            self.edits.put(_PRODUCER, name(it.field) + name(it.name) + name(it.version), ("producer", at), _FIELD)

    def put_name(self, what: int, which: Which, text: Optional[str]) -> None:
        self.edits.put(_NAME, bytes([what]) + number(which[1] or 0) + (b"" if text is None else name(text)), which)

    def names(self) -> None:
        if self.was.name != self.now.name:
            self.put_name(SECTIONS["module"], ("module", None), self.now.name)
        for kind in NAMED:
            for it in self.pairs(kind):
                if it.now is not None and it.now.name != (it.was and it.was.name):
                    self.put_name(SECTIONS[kind], it.which, it.now.name)
