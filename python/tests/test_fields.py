"""Each public field of each class of items gets another value, once and by itself: what is written, read again, has it, or `emit_wasm` refuses it by the item and by
what of it. So with items that are the module's own, with imported ones, and with such as come.
"""
import dataclasses
import unittest
from typing import Any, Callable, List, Optional, Set, Tuple

from mulkavesh.module import (
    EXTERNREF, F64, FUNCREF, FUNCTION, GLOBAL, I32, I64, TABLE, BadItem, Body, CustomSection, Data, Element, Export, ExportItem, Function, Global, Import, InstrSeqBuilder,
    Memory, Module, Producer, Table, Tag, Type,
)
from tests import worked

TRAP, OTHER = Body(b"\0\0\x0B"), Body(b"\0\x20\0\x0B")
ONE, SEVEN = InstrSeqBuilder().i32_const(1).const_expr(), InstrSeqBuilder().i64_const(7).const_expr()
LOCALS = "the names of its locals can't be changed"
# The arena of an item, its id, a field, another value, and why that is refused, or None where it comes out.
Tried = Tuple[str, int, str, Any, Optional[str]]


def fixed(field: str) -> str:
    return f"its `{field}` can't be changed, only its name"


def brought(field: str) -> str:
    return f"its `{field}` can't be changed, since an import brings it"


# Of worked.ITEMS, in which function 0 and global 0 are imported.
OWN: List[Tried] = [
    ("types", 1, "params", (), fixed("params")),
    ("types", 1, "results", (), fixed("results")),
    ("types", 1, "name", "unary", None),
    ("imports", 0, "module", "other", None),
    ("imports", 0, "name", "other", None),
    ("imports", 0, "kind", ExportItem(GLOBAL, 0), "what it brings can't be changed"),
    ("funcs", 1, "type", 0, "its type can't be changed"),
    ("funcs", 1, "body", OTHER, None),
    ("funcs", 1, "imported", 0, "it has a body and an import"),
    ("funcs", 1, "name", "other", None),
    ("funcs", 1, "local_names", {0: "z"}, LOCALS),
    ("tables", 0, "element_ty", EXTERNREF, fixed("element_ty")),
    ("tables", 0, "initial", 0, fixed("initial")),
    ("tables", 0, "maximum", None, fixed("maximum")),
    ("tables", 0, "table64", True, fixed("table64")),
    ("tables", 0, "init", b"\xD0\x70\x0B", fixed("init")),
    ("tables", 0, "imported", 0, fixed("imported")),
    ("tables", 0, "name", "t", None),
    ("memories", 0, "initial", 2, None),
    ("memories", 0, "maximum", 3, None),
    # with the field that each needs, below
    ("memories", 0, "shared", True, None),
    ("memories", 0, "memory64", True, None),
    ("memories", 0, "page_size_log2", 0, None),
    ("memories", 0, "imported", 0, "its import can't be changed"),
    ("memories", 0, "name", "m", None),
    ("globals", 1, "type", FUNCREF, None),
    ("globals", 1, "mutable", False, None),
    ("globals", 1, "init", SEVEN, None),
    ("globals", 1, "shared", True, None),
    ("globals", 1, "imported", 1, "it has a value and an import"),
    ("globals", 1, "name", "g", None),
    ("tags", 0, "type", 1, fixed("type")),
    ("tags", 0, "imported", 0, fixed("imported")),
    ("tags", 0, "name", "e", None),
    ("exports", 0, "name", "other", None),
    ("exports", 0, "item", ExportItem(TABLE, 1), None),
    ("elements", 0, "items", [2], fixed("items")),
    ("elements", 0, "table", None, fixed("table")),
    ("elements", 0, "offset", ONE, fixed("offset")),
    ("elements", 0, "type", FUNCREF, fixed("type")),
    ("elements", 0, "declared", True, fixed("declared")),
    ("elements", 0, "name", "s", None),
    ("data", 0, "value", b"longer", None),
    ("data", 0, "memory", None, None),
    ("data", 0, "offset", ONE, None),
    ("data", 0, "name", "d", None),
    ("data", 1, "memory", 0, "its memory isn't there, or its offset isn't well formed"),
    ("data", 1, "offset", ONE, "it has an offset, and no memory"),
    ("customs", 0, "name", "other", "its name can't be changed"),
    ("customs", 0, "data", b"new", None),
]
# Of worked.KINDS, which imports a table, a memory, a global and a tag; and of the imported function of worked.ITEMS.
BROUGHT: List[Tried] = [
    ("tables", 0, "element_ty", EXTERNREF, fixed("element_ty")),
    ("tables", 0, "initial", 1, fixed("initial")),
    ("tables", 0, "maximum", 9, fixed("maximum")),
    ("tables", 0, "table64", True, fixed("table64")),
    ("tables", 0, "init", b"\xD0\x70\x0B", fixed("init")),
    ("tables", 0, "imported", None, fixed("imported")),
    ("tables", 0, "name", "t", None),
    ("memories", 0, "initial", 2, None),
    ("memories", 0, "maximum", 3, None),
    ("memories", 0, "shared", True, None),
    ("memories", 0, "memory64", True, None),
    ("memories", 0, "page_size_log2", 0, None),
    ("memories", 0, "imported", None, "its import can't be changed"),
    ("memories", 0, "name", "m", None),
    ("globals", 0, "type", I64, brought("type")),
    ("globals", 0, "mutable", True, brought("mutable")),
    ("globals", 0, "init", ONE, None),
    ("globals", 0, "shared", True, brought("shared")),
    ("globals", 0, "imported", None, "its import can't be changed"),
    ("globals", 0, "name", "g", None),
    ("tags", 0, "type", 1, fixed("type")),
    ("tags", 0, "imported", None, fixed("imported")),
    ("tags", 0, "name", "e", None),
]
BROUGHT_FUNCTION: List[Tried] = [
    ("funcs", 0, "type", 0, "its type can't be changed"),
    ("funcs", 0, "body", TRAP, None),
    ("funcs", 0, "imported", 1, "its import can't be changed"),
    ("funcs", 0, "name", "f", None),
    ("funcs", 0, "local_names", {0: "z"}, LOCALS),
]
# Of items that were added: a function 3 and a global 3, each with an export; an imported function 4 and global 4, by imports 2 and 3; and one of each other kind.
ADDED: List[Tried] = [
    ("types", 3, "params", (F64,), None),
    ("types", 3, "results", (F64,), None),
    ("types", 3, "name", "new", None),
    ("imports", 2, "module", "other", None),
    ("imports", 2, "name", "other", None),
    ("imports", 2, "kind", ExportItem(TABLE, 0), "its import can't be changed"),
    ("funcs", 3, "type", 1, None),
    ("funcs", 3, "body", Body(b"\0\1\0\x0B"), None),
    ("funcs", 3, "imported", 0, "it has a body and an import"),
    ("funcs", 3, "name", "new", None),
    ("funcs", 3, "local_names", {0: "z"}, LOCALS),
    ("funcs", 4, "type", 1, None),
    ("funcs", 4, "body", TRAP, None),
    ("funcs", 4, "imported", 0, "its import can't be changed"),
    ("funcs", 4, "name", "new", None),
    ("funcs", 4, "local_names", {0: "z"}, LOCALS),
    ("globals", 3, "type", FUNCREF, None),
    ("globals", 3, "mutable", False, None),
    ("globals", 3, "init", SEVEN, None),
    ("globals", 3, "shared", True, None),
    ("globals", 3, "imported", 1, "it has a value and an import"),
    ("globals", 3, "name", "new", None),
    ("globals", 4, "type", F64, None),
    ("globals", 4, "mutable", False, None),
    ("globals", 4, "init", SEVEN, None),
    ("globals", 4, "shared", True, None),
    ("globals", 4, "imported", 1, "its import can't be changed"),
    ("globals", 4, "name", "new", None),
    ("exports", 2, "name", "other", None),
    ("exports", 2, "item", ExportItem(TABLE, 1), None),
    ("elements", 2, "items", [0], None),
    ("elements", 2, "table", None, "it has an offset, and no table"),
    ("elements", 2, "offset", InstrSeqBuilder().i32_const(0).const_expr(), None),
    ("elements", 2, "type", FUNCREF, "it lists functions and has a `type`, or expressions and has none"),
    ("elements", 2, "declared", True, "it has a table, and declares functions"),
    ("elements", 2, "name", "new", None),
    ("data", 2, "value", b"longer", None),
    ("data", 2, "memory", None, "it has an offset, and no memory"),
    ("data", 2, "offset", InstrSeqBuilder().i32_const(0).const_expr(), None),
    ("data", 2, "name", "new", None),
    ("customs", 2, "name", "other", None),
    ("customs", 2, "data", b"new", None),
]
CLASSES = {
    "types": Type, "imports": Import, "funcs": Function, "tables": Table, "memories": Memory, "globals": Global, "tags": Tag, "exports": Export, "elements": Element,
    "data": Data, "customs": CustomSection,
}
KINDS = {
    "types": "type", "imports": "import", "funcs": "function", "tables": "table", "memories": "memory", "globals": "global", "tags": "tag", "exports": "export",
    "elements": "element segment", "data": "data segment", "customs": "custom section",
}


def added(module: Module) -> None:
    """An item more of each kind that can be added."""
    own = module.types.add((), (I32,))
    function = module.funcs.add_local(own, TRAP)
    module.exports.add("new", FUNCTION, function)
    value = module.globals.add_local(I64, True, InstrSeqBuilder().i64_const(1).const_expr())
    module.add_import_func("m", "n", module.types.add())
    module.add_import_global("m", "g", I64, True)
    module.exports.add("value", GLOBAL, value)
    module.elements.add(Element([function], 0, ONE))
    module.data.add(Data(b"abc", 0, ONE))
    module.customs.add("new", b"123")


def with_what_it_needs(module: Module, field: str) -> None:
    """A memory that threads share has a most; and an offset of 32 bits is of no memory whose addresses have 64."""
    if field == "shared":
        module.memories[0].maximum = 3
    elif field == "memory64" and len(module.data) > 0:
        module.data.delete(0)


def place(module: Module, arena: str, id_: int, output: Module) -> int:
    """The id in the output: bodies stand there by their size, and an import in front of what the module has itself."""
    if arena in ("funcs", "globals"):
        kind = FUNCTION if arena == "funcs" else GLOBAL
        for export in module.exports.values():
            if export.item == (kind, id_):
                found = output.exports.by_name(export.name)
                assert found is not None
                return output.exports[found].item.id
    return id_


class Fields(unittest.TestCase):
    """Each field of each item."""

    def one(self, tried: Tried, module: Module) -> None:
        arena, id_, field, value, why = tried
        if arena in ("funcs", "globals") and not any(it.item == (KINDS[arena], id_) for it in module.exports.values()):
            module.exports.add("found", KINDS[arena], id_)
        if arena == "memories":
            with_what_it_needs(module, field)
        item = getattr(module, arena)[id_]
        self.assertNotEqual(getattr(item, field), value)
        setattr(item, field, value)
        if why is not None:
            with self.assertRaises(BadItem) as raised:
                module.emit_wasm()
            which = ("function", 4) if tried[:3] == ("imports", 2, "kind") else (KINDS[arena], id_)
            self.assertEqual(str(raised.exception), f"{which[0]} {which[1]}: {why}")
            return
        output = Module(module.emit_wasm())
        if arena == "types":
            found: Any = next(it for it in output.types.values() if getattr(it, field) == value)
        elif arena == "imports" or field == "imported":
            found = next(it for it in output.imports.values() if getattr(it, field) == value)
        else:
            found = getattr(output, arena)[place(module, arena, id_, output)]
        self.assertEqual(type(found), CLASSES[arena])
        if (arena, field) == ("funcs", "type"):
            found, value = dataclasses.replace(found, type=output.types[found.type].params), module.types[value].params
        if isinstance(value, Body):
            value = Body(bytes(value))
        self.assertEqual(getattr(found, field), value)

    def all_of(self, table: List[Tried], data: bytes, change: Callable[[Module], Any] = lambda module: None) -> None:
        for tried in table:
            with self.subTest(tried=tried):
                module = Module(data)
                change(module)
                self.one(tried, module)

    def test_own(self) -> None:
        self.all_of(OWN, worked.ITEMS)

    def test_brought(self) -> None:
        self.all_of(BROUGHT, worked.KINDS, lambda module: module.types.add((I32,), ()))
        self.all_of(BROUGHT_FUNCTION, worked.ITEMS)

    def test_added(self) -> None:
        self.all_of(ADDED, worked.ITEMS, added)

    def test_no_field_is_left_out(self) -> None:
        def fields_of(*arenas: str) -> Set[Tuple[str, str]]:
            return {(arena, field.name) for arena in arenas for field in dataclasses.fields(CLASSES[arena]) if not field.name.startswith("_")}

        self.assertEqual({(tried[0], tried[2]) for tried in OWN}, fields_of(*CLASSES))
        self.assertEqual({(tried[0], tried[2]) for tried in BROUGHT}, fields_of("tables", "memories", "globals", "tags"))
        self.assertEqual({(tried[0], tried[2]) for tried in BROUGHT_FUNCTION}, fields_of("funcs"))
        come = fields_of("types", "imports", "funcs", "globals", "exports", "elements", "data", "customs")
        self.assertEqual({(tried[0], tried[2]) for tried in ADDED}, come)

    def test_producers(self) -> None:
        first = Module(worked.ITEMS).producers[0]
        self.assertEqual({it.name for it in dataclasses.fields(Producer)}, {"field", "name", "version"})
        for field in ("name", "version"):
            module = Module(worked.ITEMS)
            module.producers[0] = dataclasses.replace(first, **{field: "other"})
            del module.producers[1]
            self.assertEqual(Module(module.emit_wasm()).producers[0], module.producers[0])
        module = Module(worked.ITEMS)
        module.producers[0] = dataclasses.replace(first, field="sdk")
        del module.producers[1]
        self.assertIn(module.producers[0], Module(module.emit_wasm()).producers)
        module.producers[0] = dataclasses.replace(first, field="other")
        with self.assertRaisesRegex(BadItem, "^producer 0: its field isn't `language`, `processed-by` or `sdk`$"):
            module.emit_wasm()

    def test_of_the_module(self) -> None:
        module = Module(worked.ITEMS)
        self.assertEqual(set(Module.__mro__[1].__slots__), {*CLASSES, "start", "producers", "name"})
        module.start, module.name = module.funcs.add_local(module.types.add(), OTHER_START), "other"
        output = Module(module.emit_wasm())
        assert output.start is not None
        self.assertEqual((output.funcs[output.start].body, output.name), (OTHER_START, "other"))

    def test_names_of_locals_go_with_another_body(self) -> None:
        for body, names, is_refused in ((OTHER, {}, False), (OTHER, {0: "x", 1: "y"}, False), (OTHER, {0: "z"}, True)):
            module = Module(worked.ITEMS)
            module.funcs[1].body, module.funcs[1].local_names = body, dict(names)
            if is_refused:
                self.assertRaisesRegex(BadItem, f"function 1: {LOCALS}", module.emit_wasm)
            else:
                output = Module(module.emit_wasm())
                self.assertEqual([it.local_names for it in output.funcs.values() if it.name == "work"], [{}])

    def test_no_other_field_is_there(self) -> None:
        module = Module(worked.ITEMS)
        for item in (module, *(getattr(module, arena)[id_] for arena, id_, *_ in OWN)):
            with self.assertRaisesRegex(AttributeError, "nmae"):
                item.nmae = "other"


OTHER_START = Body(b"\0\1\x0B")


if __name__ == "__main__":
    unittest.main()
