"""A module that a program looks at and changes by ids, in the names of the crate `walrus`.

    from mulkavesh.module import Module
    module = Module(open("in.wasm", "rb").read())
    module.exports.delete(module.exports.by_name("debug"))
    open("out.wasm", "wb").write(module.emit_wasm(gc=True))

Items are plain values: `Module` reads them, and `emit_wasm` makes a module of the input and of what differs by then. So their fields are written as any. What can't be
changed is refused by `emit_wasm`, with the item and the field; nothing is passed over. What is written keeps the rules that are asked of an input: no other is checked, so that
operands of wrong types, say, are found by an engine or a validator. Constant expressions are bytes, with `0B` at their end; `InstrSeqBuilder.const_expr` makes them.
"""
from typing import Optional, Tuple

import mulkavesh
from mulkavesh import BadEdit, Bytes, MulkaveshError
from mulkavesh._differ import Differ, Refused
from mulkavesh._told import Items
from mulkavesh._wire import EXTERNREF, F32, F64, FUNCREF, I32, I64, V128, RefType, TypeId, ValType
from mulkavesh.code import Body, InstrSeqBuilder
from mulkavesh.items import (
    FUNCTION, GLOBAL, MEMORY, TABLE, TAG, CustomId, CustomSection, Data, DataId, Element, ElementId, Export, ExportId, ExportItem, Function, FunctionId, Global, GlobalId,
    Import, ImportId, Memory, MemoryId, Producer, Producers, Table, TableId, Tag, TagId, Type,
)

__all__ = [
    "BadItem", "Body", "CustomId", "CustomSection", "Data", "DataId", "EXTERNREF", "Element", "ElementId", "Export", "ExportId", "ExportItem", "F32", "F64",
    "FUNCREF", "FUNCTION", "Function", "FunctionId", "GLOBAL", "Global", "GlobalId", "I32", "I64", "Import", "ImportId", "InstrSeqBuilder", "MEMORY", "Memory", "MemoryId",
    "Module", "Producer", "Producers", "RefType", "TABLE", "TAG", "Table", "TableId", "Tag", "TagId", "Type", "TypeId", "V128", "ValType",
]


# What items of kinds that have another word elsewhere are called.
_WORDS = {"element": "element segment", "data": "data segment"}


class BadItem(MulkaveshError):
    """An item can't be written as it is, or a call on it can't be made. `item` is its kind and its id, as `("function", 12)`; `str` says why."""

    def __init__(self, item: Tuple[str, Optional[int]], why: str) -> None:
        what, id_ = item
        super().__init__(f"the {what}: {why}" if id_ is None else f"{_WORDS.get(what, what)} {id_}: {why}")
        self.item = item


class Module(Items):
    """A module: `types`, `imports`, `funcs`, `tables`, `memories`, `globals`, `tags`, `exports`, `elements`, `data` and `customs` by their ids; the id of the function
    `start`, or None; `producers`; and its `name`, or None.

    `InvalidModule` where the bytes are no module that keeps the rules.
    """

    __slots__ = ("_input", "_told")

    def __init__(self, wasm: Bytes) -> None:
        self._input = mulkavesh._whole(wasm)
        self._told = mulkavesh.read(self._input)
        super().__init__(self._input, self._told)

    def _differ(self) -> Differ:
        try:
            return Differ(Items(self._input, self._told), self)
        except Refused as refused:
            raise BadItem(refused.which, refused.why) from None

    def edits(self) -> bytes:
        """The list of edits that `emit_wasm` hands to the library, as docs/FORMATS.md has it."""
        return bytes(self._differ().edits.data)

    def emit_wasm(self, *, gc: bool = False, names: bool = True, producers: bool = True, legacy: bool = True) -> bytes:
        """The bytes of the module as it is now; with `gc` without what nothing reaches. The module may be changed further and written again.

        `BadItem` with the first item that is refused: it has what can't be changed, or isn't well formed, or names what isn't there. `BadModule` where all of them break a
        rule.
        """
        edits = self._differ().edits
        try:
            return mulkavesh.edit(self._input, bytes(edits.data), gc=gc, names=names, producers=producers, legacy=legacy)
        except BadEdit as error:
            raise BadItem(*edits.of[error.made]) from None

    def add_import_func(self, module: str, name: str, type_: TypeId) -> Tuple[FunctionId, ImportId]:
        """Imports a function of this type."""
        imported = self.imports._put(Import(module, name, ExportItem(FUNCTION, self.funcs._next)))
        return self.funcs._put(Function(type_, imported=imported)), imported

    def add_import_global(self, module: str, name: str, type_: ValType, mutable: bool, shared: bool = False) -> Tuple[GlobalId, ImportId]:
        """Imports a global of this type."""
        imported = self.imports._put(Import(module, name, ExportItem(GLOBAL, self.globals._next)))
        return self.globals._put(Global(type_, mutable, None, shared, imported)), imported

    def replace_imported_func(self, id_: FunctionId, body: Body) -> FunctionId:
        """An imported function has this body from now on, and its import is gone. Its id, its type and its name stay. `BadItem` where it isn't imported."""
        found = self.funcs.get(id_)
        if found is None or found.imported is None:
            raise BadItem((FUNCTION, id_), "it isn't imported")
        self.imports._take(found.imported)
        found.imported, found.body = None, body
        return id_

    def replace_exported_func(self, id_: FunctionId, body: Body) -> FunctionId:
        """The first export of a function exports a new one with this body from now on, of the same type. `BadItem` where it isn't exported."""
        found = self.exports.where(lambda it: it.item == (FUNCTION, id_))
        if not found:
            raise BadItem((FUNCTION, id_), "it isn't exported")
        new = self.funcs.add_local(self.funcs[id_].type, body)
        self.exports[found[0]].item = ExportItem(FUNCTION, new)
        return new

    def import_func(self, id_: FunctionId, module: str, name: str) -> ImportId:
        """A function with a body comes to be imported, and its body is gone. Its id, its type and its name stay. `BadItem` where it has none."""
        found = self.funcs.get(id_)
        if found is None or found.body is None:
            raise BadItem((FUNCTION, id_), "it has no body")
        found.imported = self.imports._put(Import(module, name, ExportItem(FUNCTION, id_)))
        found.body = None
        return found.imported

    def insert_front(self, id_: FunctionId, operators: InstrSeqBuilder) -> None:
        """Puts operators in front of the body of a function. Of locals they name its parameters alone. `BadItem` where it has none."""
        found = self.funcs.get(id_)
        if found is None or found.body is None:
            raise BadItem((FUNCTION, id_), "it has no body")
        found.body = found.body.with_front(operators)

    def called(self, id_: FunctionId) -> str:
        """What a function is called: its name, that of its import, or one by its id."""
        found = self.funcs[id_]
        if found.name is not None:
            return found.name
        return f"function[{id_}]" if found.imported is None else self.imports[found.imported].name
