"""What the library tells of a module, as items."""
from typing import Any, Callable, Dict, Optional, Tuple

from mulkavesh import items
from mulkavesh._wire import Reader, RefType, TypeId
from mulkavesh.code import Body
from mulkavesh.items import FUNCTION, GLOBAL, MEMORY, TABLE, TAG, ExportItem, FunctionId, ImportId, MemoryId, TableId

# The numbers of sections, and of what else is told.
SECTIONS = {"type": 1, "import": 2, TABLE: 4, MEMORY: 5, GLOBAL: 6, "export": 7, "start": 8, "element": 9, FUNCTION: 10, "data": 11, TAG: 13, "module": 255}
_NAME, _PRODUCER, _LOCAL = 20, 21, 24
_OF_FUNCTIONS, _GROUP = 0x60, 0x4E
HAS_MAXIMUM, LIMITS_SHARED, WIDE, HAS_PAGE = 1, 2, 4, 8
MUTABLE, GLOBAL_SHARED = 1, 2


class Items:
    """The items of a module, as they are told of its input."""

    __slots__ = ("types", "imports", "funcs", "tables", "memories", "globals", "tags", "exports", "elements", "data", "customs", "start", "producers", "name")

    def __init__(self, wasm: bytes, told: bytes) -> None:
        self.types = items.Types()
        self.imports = items.Imports()
        self.funcs = items.Functions()
        self.tables: items.Arena[TableId, items.Table] = items.Arena()
        self.memories: items.Arena[MemoryId, items.Memory] = items.Arena()
        self.globals = items.Globals()
        self.tags: items.Arena[items.TagId, items.Tag] = items.Arena()
        self.exports = items.Exports()
        self.elements = items.Elements()
        self.data = items.Segments()
        self.customs = items.Customs()
        self.start: Optional[FunctionId] = None
        self.producers = items.Producers()
        self.name: Optional[str] = None
        self._fill(wasm, told)

    def _fill(self, wasm: bytes, told: bytes) -> None:
        reader, names = Reader(told), ("", "")
        records = self._records()
        while reader:
            section, size = reader.byte(), reader.number()
            it = Reader(told, reader.at, reader.at + size)
            reader.at += size
            if section == SECTIONS["import"]:
                names = it.name(), it.name()
            elif section == SECTIONS[FUNCTION]:
                self._function(it, wasm, names)
            elif section in _BROUGHT:
                self._brought(section, it, names)
            else:
                records[section](it)

    def _records(self) -> Dict[int, Callable[[Reader], None]]:
        return {
            0: self._custom, 1: self._types, 7: self._export, 8: self._start, 9: self._element, 11: self._data, _NAME: self._name, _PRODUCER: self._producer,
            _LOCAL: self._local,
        }

    def _import(self, it: Reader, names: Tuple[str, str], kind: str, next_id: int) -> Optional[ImportId]:
        """The import that brings the item of this record, where one does."""
        if it.byte() == 0:
            return None
        return self.imports._put(items.Import(*names, ExportItem(kind, next_id)))

    def _function(self, it: Reader, wasm: bytes, names: Tuple[str, str]) -> None:
        imported = self._import(it, names, FUNCTION, self.funcs._next)
        type_, body = TypeId(it.number()), None
        if imported is None:
            start, size = it.number(), it.number()
            body = Body(wasm[start : start + size])
        self.funcs._put(items.Function(type_, body, imported))

    def _brought(self, section: int, it: Reader, names: Tuple[str, str]) -> None:
        kind = _BROUGHT[section]
        imported = self._import(it, names, kind, self.of(kind)._next)
        if kind == TABLE:
            self.tables._put(_table(it, imported))
        elif kind == MEMORY:
            flags = it.byte()
            initial, maximum = _limits(it, flags)
            page = it.number() if flags & HAS_PAGE else None
            self.memories._put(items.Memory(initial, maximum, bool(flags & LIMITS_SHARED), bool(flags & WIDE), page, imported))
        elif kind == GLOBAL:
            type_, flags = it.value_type(), it.byte()
            init = it.block() if imported is None else None
            self.globals._put(items.Global(type_, bool(flags & MUTABLE), init, bool(flags & GLOBAL_SHARED), imported))
        else:
            self.tags._put(items.Tag(TypeId(it.number()), imported))

    def _custom(self, it: Reader) -> None:
        id_, name = it.number(), it.name()
        assert self.customs._put(items.CustomSection(name, it.rest())) == id_

    def _types(self, it: Reader) -> None:
        begin = it.at
        first = it.byte()
        if first == _OF_FUNCTIONS:
            self.types._put(items.Type(it.value_types(), it.value_types()))
            return
        group = it.data[begin : it.end]
        for at in range(it.number() if first == _GROUP else 1):
            self.types._put(items.Type(None, None, None, b"" if at else group))

    def _export(self, it: Reader) -> None:
        self.exports._put(items.Export(it.name(), ExportItem(items.KINDS[it.byte()], it.number())))

    def _start(self, it: Reader) -> None:
        self.start = FunctionId(it.number())

    def _element(self, it: Reader) -> None:
        mode = it.byte()
        table, offset = (TableId(it.number()), it.block()) if mode == 0 else (None, b"")
        if it.byte() == 0:
            segment = items.Element([FunctionId(id_) for id_ in it.numbers()], table, offset, None, mode == 2)
        else:
            type_ = it.reference_type()
            segment = items.Element([it.block() for _ in range(it.number())], table, offset, type_, mode == 2)
        self.elements._put(segment)

    def _data(self, it: Reader) -> None:
        memory, offset = (MemoryId(it.number()), it.block()) if it.byte() == 0 else (None, b"")
        self.data._put(items.Data(it.block(), memory, offset))

    def _name(self, it: Reader) -> None:
        section, id_, name = it.byte(), it.number(), it.name()
        if section == SECTIONS["module"]:
            self.name = name
        else:
            self.of(_OF_NAMES[section])[id_].name = name

    def _producer(self, it: Reader) -> None:
        self.producers.append(items.Producer(it.name(), it.name(), it.name()))

    def _local(self, it: Reader) -> None:
        names, local = self.funcs[FunctionId(it.number())].local_names, it.number()
        names[local] = it.name()

    def of(self, kind: str) -> "items.Arena[int, Any]":
        """The items of a kind."""
        all_kinds: Dict[str, Any] = {
            "type": self.types, FUNCTION: self.funcs, TABLE: self.tables, MEMORY: self.memories, GLOBAL: self.globals, TAG: self.tags, "element": self.elements,
            "data": self.data,
        }
        found: "items.Arena[int, Any]" = all_kinds[kind]
        return found


NAMED = ("type", FUNCTION, TABLE, MEMORY, GLOBAL, TAG, "element", "data")
_BROUGHT = {SECTIONS[kind]: kind for kind in (TABLE, MEMORY, GLOBAL, TAG)}
_OF_NAMES = {SECTIONS[kind]: kind for kind in NAMED}


def _limits(it: Reader, flags: int) -> Tuple[int, Optional[int]]:
    return it.number(), it.number() if flags & HAS_MAXIMUM else None


def _table(it: Reader, imported: Optional[ImportId]) -> items.Table:
    element_ty: RefType = it.reference_type()
    flags = it.byte()
    initial, maximum = _limits(it, flags)
    return items.Table(element_ty, initial, maximum, bool(flags & WIDE), it.block() if it else None, imported)
