"""What items are, and items by their ids. Which fields can't be changed, each class says; `Module.emit_wasm` refuses them, with the item and the field."""
from dataclasses import dataclass, field, fields
from typing import Callable, Dict, Generic, Iterator, List, NamedTuple, NewType, Optional, Tuple, TypeVar, Union, cast

from mulkavesh._wire import RefType, TypeId, ValType
from mulkavesh.code import Body

FunctionId = NewType("FunctionId", int)
TableId = NewType("TableId", int)
MemoryId = NewType("MemoryId", int)
GlobalId = NewType("GlobalId", int)
TagId = NewType("TagId", int)
ImportId = NewType("ImportId", int)
ExportId = NewType("ExportId", int)
ElementId = NewType("ElementId", int)
DataId = NewType("DataId", int)
CustomId = NewType("CustomId", int)

FUNCTION, TABLE, MEMORY, GLOBAL, TAG = "function", "table", "memory", "global", "tag"
# The kinds of what imports bring and exports export, by their numbers.
KINDS = (FUNCTION, TABLE, MEMORY, GLOBAL, TAG)


class ExportItem(NamedTuple):
    """What an export exports or an import brings: its kind, as `function`, `table`, `memory`, `global` or `tag`, and its id."""

    kind: str
    id: int


Kind = TypeVar("Kind", bound=type)


def _closed(kind: Kind) -> Kind:
    """The class of items that have its fields and no other ones: a field of a mistyped name can't be written."""
    names = tuple(it.name for it in fields(kind))
    members = {name: value for name, value in vars(kind).items() if name not in (*names, "__dict__", "__weakref__")}
    return cast(Kind, type(kind.__name__, kind.__bases__, {**members, "__slots__": names}))


@_closed
@dataclass
class Type:
    """A type. `params` and `results` are what its functions take and give, where it stands alone, is final and has no supertype; else they are None. Only its name
    can be changed.
    """

    params: Optional[Tuple[ValType, ...]]
    results: Optional[Tuple[ValType, ...]]
    name: Optional[str] = None
    _group: bytes = field(default=b"", repr=False)


@_closed
@dataclass
class Import:
    """An import: the module that it comes from, its name there, and what it brings, which can't be changed."""

    module: str
    name: str
    kind: ExportItem


@_closed
@dataclass
class Export:
    """An export: its name, and what it exports."""

    name: str
    item: ExportItem


@_closed
@dataclass
class Function:
    """A function: its type, which can't be changed; its body, or None where an import brings it; that import, or None; its name; and the names of its locals by
    their indices, which can't be changed, and go where it gets another body. An imported one that gets a body loses its import.
    """

    type: TypeId
    body: Optional[Body] = None
    imported: Optional[ImportId] = None
    name: Optional[str] = None
    local_names: Dict[int, str] = field(default_factory=dict)


@_closed
@dataclass
class Table:
    """A table: the type of its elements, how many it has at first and may have, whether its indices have 64 bits, the expression of what they are at first, and the
    import that brings it. Only its name can be changed.
    """

    element_ty: RefType
    initial: int
    maximum: Optional[int] = None
    table64: bool = False
    init: Optional[bytes] = None
    imported: Optional[ImportId] = None
    name: Optional[str] = None


@_closed
@dataclass
class Memory:
    """A memory: how many pages it has at first and may have, whether threads share it, whether its addresses have 64 bits, the bytes of a page as an exponent of
    2 (else 16), and the import that brings it, which can't be changed.
    """

    initial: int
    maximum: Optional[int] = None
    shared: bool = False
    memory64: bool = False
    page_size_log2: Optional[int] = None
    imported: Optional[ImportId] = None
    name: Optional[str] = None


@_closed
@dataclass
class Global:
    """A global: the type of its value, whether it can be written, whether threads share it, the expression of its value at first, or None where an import brings
    it, that import, and its name. The type of an imported one can't be changed; one that gets a value loses its import.
    """

    type: ValType
    mutable: bool
    init: Optional[bytes] = None
    shared: bool = False
    imported: Optional[ImportId] = None
    name: Optional[str] = None


@_closed
@dataclass
class Tag:
    """A tag: its type and the import that brings it. Only its name can be changed."""

    type: TypeId
    imported: Optional[ImportId] = None
    name: Optional[str] = None


@_closed
@dataclass
class Element:
    """An element segment: functions, or where `type` isn't None expressions of this type; the table that it is written to at first, with the expression of the
    offset, or None; and whether it declares functions. Only its name can be changed; another one can be added in its place.
    """

    items: Union[List[FunctionId], List[bytes]]
    table: Optional[TableId] = None
    offset: bytes = b""
    type: Optional[RefType] = None
    declared: bool = False
    name: Optional[str] = None


@_closed
@dataclass
class Data:
    """A data segment: its bytes; the memory that it is written to at first, with the expression of the offset, or None; and its name."""

    value: bytes
    memory: Optional[MemoryId] = None
    offset: bytes = b""
    name: Optional[str] = None


@_closed
@dataclass
class CustomSection:
    """A custom section, but names, producers and debug information: its name, which can't be changed, and its bytes."""

    name: str
    data: bytes


@dataclass(frozen=True)
class Producer:
    """What had a part in making the module: a field, `language`, `processed-by` or `sdk` where it is written, a name, and a version."""

    field: str
    name: str
    version: str


class Producers(List[Producer]):
    """What had a part in making the module, in the order of its section."""

    def _add(self, field_of: str, name: str, version: str) -> None:
        new = Producer(field_of, name, version)
        for at, it in enumerate(self):
            if (it.field, it.name) == (field_of, name):
                self[at] = new
                return
        self.append(new)

    def add_language(self, name: str, version: str) -> None:
        """A language in which it was written. One of this name gets the version."""
        self._add("language", name, version)

    def add_processed_by(self, name: str, version: str) -> None:
        """A tool that made or changed it. One of this name gets the version."""
        self._add("processed-by", name, version)

    def add_sdk(self, name: str, version: str) -> None:
        """A kit that it was made for. One of this name gets the version."""
        self._add("sdk", name, version)


Id = TypeVar("Id", bound=int)
It = TypeVar("It")


class Arena(Generic[Id, It]):
    """The items of one kind by their ids, as a dictionary that is read and written by them. An item of the input has its index there, and none is used again."""

    def __init__(self) -> None:
        self._items: Dict[int, It] = {}
        self._next = 0

    def __getitem__(self, id_: Id) -> It:
        return self._items[id_]

    def __contains__(self, id_: object) -> bool:
        return id_ in self._items

    def __len__(self) -> int:
        return len(self._items)

    def __iter__(self) -> Iterator[Id]:
        """The ids, of what is there now."""
        return iter(cast(List[Id], list(self._items)))

    def items(self) -> List[Tuple[Id, It]]:
        """The items with their ids, of what is there now."""
        return cast(List[Tuple[Id, It]], list(self._items.items()))

    def values(self) -> List[It]:
        """The items."""
        return list(self._items.values())

    def get(self, id_: Optional[int]) -> Optional[It]:
        """The item of an id, or None."""
        return None if id_ is None else self._items.get(id_)

    def where(self, holds: Callable[[It], bool]) -> List[Id]:
        """The ids of the items that this holds of."""
        return [id_ for id_, it in self.items() if holds(it)]

    def _put(self, item: It) -> Id:
        self._items[self._next] = item
        self._next += 1
        return cast(Id, self._next - 1)

    def _take(self, id_: Id) -> It:
        return self._items.pop(id_)


class Types(Arena[TypeId, Type]):
    """The types. Those that legacy exceptions need stand behind those of the input."""

    def add(self, params: Tuple[ValType, ...] = (), results: Tuple[ValType, ...] = ()) -> TypeId:
        """The type of functions that take and give these: the first such one, or a new one."""
        wanted = tuple(params), tuple(results)
        found = self.where(lambda it: (it.params, it.results) == wanted)
        return found[0] if found else self._put(Type(*wanted))


class Imports(Arena[ImportId, Import]):
    """The imports."""

    def find(self, module: str, name: str) -> Optional[ImportId]:
        """The first import of these names."""
        return next(iter(self.where(lambda it: (it.module, it.name) == (module, name))), None)


class Functions(Arena[FunctionId, Function]):
    """The functions, imported ones among them."""

    def by_name(self, name: str) -> Optional[FunctionId]:
        """The first function of this name."""
        return next(iter(self.where(lambda it: it.name == name)), None)

    def add_local(self, type_: TypeId, body: Body) -> FunctionId:
        """A function of this type with this body comes."""
        return self._put(Function(type_, body))


class Globals(Arena[GlobalId, Global]):
    """The globals, imported ones among them."""

    def add_local(self, type_: ValType, mutable: bool, init: bytes, shared: bool = False) -> GlobalId:
        """A global that begins with the value of this expression comes."""
        return self._put(Global(type_, mutable, init, shared))


class Exports(Arena[ExportId, Export]):
    """The exports."""

    def add(self, name: str, kind: str, id_: int) -> ExportId:
        """Exports the item of this kind and id."""
        return self._put(Export(name, ExportItem(kind, id_)))

    def delete(self, id_: ExportId) -> Export:
        """Takes an export away."""
        return self._take(id_)

    def by_name(self, name: str) -> Optional[ExportId]:
        """The export of this name."""
        return next(iter(self.where(lambda it: it.name == name)), None)

    def get_func(self, name: str) -> Optional[FunctionId]:
        """The function that is exported under this name."""
        found = self.get(self.by_name(name))
        return FunctionId(found.item.id) if found and found.item.kind == FUNCTION else None


class Elements(Arena[ElementId, Element]):
    """The element segments."""

    def add(self, segment: Element) -> ElementId:
        """A segment comes."""
        return self._put(segment)

    def delete(self, id_: ElementId) -> Element:
        """Takes a segment away."""
        return self._take(id_)


class Segments(Arena[DataId, Data]):
    """The data segments."""

    def add(self, segment: Data) -> DataId:
        """A segment comes."""
        return self._put(segment)

    def delete(self, id_: DataId) -> Data:
        """Takes a segment away."""
        return self._take(id_)


class Customs(Arena[CustomId, CustomSection]):
    """The custom sections, but names, producers and debug information."""

    def add(self, name: str, data: bytes) -> CustomId:
        """A section comes."""
        return self._put(CustomSection(name, bytes(data)))

    def delete(self, id_: CustomId) -> CustomSection:
        """Takes a section away."""
        return self._take(id_)

    def remove_raw(self, name: str) -> Optional[CustomSection]:
        """Takes the first section of this name away, where there is one."""
        found = self.where(lambda it: it.name == name)
        return self._take(found[0]) if found else None
