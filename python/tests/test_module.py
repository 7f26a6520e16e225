"""Each field of each item of a small module is written, and comes out so or is refused by name; and modules of other tools are changed, beside what other calls make
of them.
"""
import copy
import dataclasses
import inspect
import pathlib
import subprocess
import sys
import tempfile
import typing
import unittest
from typing import Any, Callable, List

import mulkavesh
from mulkavesh import BadEdit, BadModule, Cause, InvalidModule, Rule, module as public, opcodes
from mulkavesh.module import (
    EXTERNREF, F32, F64, FUNCREF, FUNCTION, GLOBAL, I32, I64, TABLE, BadItem, Body, CustomSection, Data, Element, ExportItem, InstrSeqBuilder, Module, Producer, RefType,
    TypeId,
)
from tests import worked
from tests.test_samples import samples

TRAP = Body(b"\0\0\x0B")
EXAMPLES = pathlib.Path(__file__).resolve().parent.parent / "examples"
OURS = Producer("processed-by", "walrus", "0.28.0")
# Of larger modules not all is tried.
MOST_BYTES = 100_000


def changed(change: Callable[[Module], Any]) -> Module:
    """What comes out of the module with all kinds where this is changed."""
    module = Module(worked.ITEMS)
    change(module)
    return Module(module.emit_wasm())


def edits(change: Callable[[Module], Any]) -> bytes:
    """The list of edits where this is changed."""
    module = Module(worked.ITEMS)
    change(module)
    return module.edits()


class Written(unittest.TestCase):
    """Each field of each item."""

    def refuses(self, text: str, change: Callable[[Module], Any]) -> None:
        module = Module(worked.ITEMS)
        change(module)
        with self.assertRaises(BadItem) as raised:
            module.emit_wasm()
        self.assertEqual(str(raised.exception), text)

    def breaks(self, cause: Any, change: Callable[[Module], Any]) -> None:
        module = Module(worked.ITEMS)
        change(module)
        with self.assertRaises(BadModule) as raised:
            module.emit_wasm()
        self.assertEqual(raised.exception.cause, cause)

    def test_what_is_read(self) -> None:
        module = Module(worked.ITEMS)
        work = module.funcs[module.funcs.by_name("work")]
        self.assertEqual((work.type, work.local_names, bytes(work.body)), (1, {0: "x", 1: "y"}, b"\1\1\x7F\x20\0\x10\0\x0B"))
        self.assertEqual((module.types[work.type].params, module.types[work.type].results), ((I32,), (I32,)))
        self.assertEqual(module.imports[module.imports.find("env", "g")].kind, (GLOBAL, 0))
        self.assertEqual((module.funcs[0].imported, module.funcs[0].body), (0, None))
        table = module.tables[0]
        self.assertEqual((table.initial, table.maximum, table.table64, table.element_ty, table.init), (1, 2, False, FUNCREF, None))
        self.assertEqual(module.tables[1].element_ty, EXTERNREF)
        self.assertEqual((module.memories[0].initial, module.memories[0].maximum), (1, None))
        self.assertEqual((module.globals[1].type, module.globals[1].init), (I64, InstrSeqBuilder().i64_const(5).const_expr()))
        self.assertEqual((module.tags[0].type, module.start, module.name), (0, 2, "m"))
        self.assertEqual((module.exports.get_func("run"), module.exports.get_func("mem")), (1, None))
        self.assertEqual(module.elements[0], Element([1], 0, b"\x41\0\x0B"))
        self.assertEqual([it.value for it in module.data.values()], [b"ab", b"c"])
        self.assertEqual([it.name for it in module.customs.values()], ["note", "other"])
        self.assertEqual(module.producers, [Producer("language", "C", "11"), Producer("other", "t", ""), OURS])

    def test_nothing_changed(self) -> None:
        self.assertEqual(edits(lambda module: None), b"")
        self.assertEqual(Module(worked.ITEMS).emit_wasm(gc=True), mulkavesh.gc(worked.ITEMS))
        self.assertRaises(InvalidModule, Module, b"")
        self.assertRaises(TypeError, Module, 5)
        self.assertNotIn(b"producers", Module(worked.ITEMS).emit_wasm(producers=False))
        self.assertNotIn(b"work", Module(worked.ITEMS).emit_wasm(names=False))
        legacy = Module(worked.LEGACY)
        self.assertRaises(InvalidModule, legacy.emit_wasm, legacy=False)
        self.assertEqual(len(legacy.types), 3)

    def test_edits_are_as_the_form_says(self) -> None:
        self.assertEqual(edits(lambda module: module.exports.add("f", FUNCTION, 0)), b"\7\5\1\1f\0\0")
        body = InstrSeqBuilder().i64_const(42).return_().body()
        self.assertEqual(edits(lambda module: module.funcs.add_local(TypeId(2), body)), b"\x10\4\2\0\0\x0B\x11\7\x0A\3\0\x42\x2A\x0F\x0B")
        self.assertEqual(edits(lambda module: setattr(module.funcs[2], "body", TRAP)), b"\x11\5\x0A\2\0\0\x0B")
        self.assertEqual(edits(lambda module: module.exports.delete(0)), b"\x12\2\7\0")
        self.assertEqual(edits(lambda module: setattr(module, "start", None)), b"\x12\1\x08")
        self.assertEqual(edits(lambda module: module.import_func(2, "env", "f5")), b"\x13\x09\0\2\3env\2f5")
        self.assertEqual(edits(lambda module: setattr(module.funcs[2], "name", "f")), b"\x14\4\x0A\2\1f")
        self.assertEqual(edits(lambda module: setattr(module.funcs[1], "name", None)), b"\x14\2\x0A\1")
        self.assertEqual(edits(lambda module: module.insert_front(1, InstrSeqBuilder().call(2))), b"\x17\3\1\x10\2")

    def test_types(self) -> None:
        named = changed(lambda module: setattr(module.types[1], "name", "unary"))
        self.assertEqual([it.name for it in named.types.values() if it.name], ["unary"])

        def add(module: Module) -> None:
            self.assertEqual(module.types.add((I32,), (I32,)), 1)
            type_ = module.types.add((RefType("any", False), RefType(TypeId(0)), "v128"), ())
            module.exports.add("typed", FUNCTION, module.funcs.add_local(type_, TRAP))

        output = changed(add)
        params = output.types[output.funcs[output.exports.get_func("typed")].type].params
        self.assertEqual((params[0], params[2], len(params)), (RefType("any", False), "v128", 3))
        self.refuses("type 1: its `params` can't be changed, only its name", lambda module: setattr(module.types[1], "params", ()))

    def test_imports(self) -> None:
        def rename(module: Module) -> None:
            for it in module.imports.values():
                it.module, it.name = "./env.js", it.name + "2"

        output = changed(rename)
        self.assertEqual([(it.module, it.name) for it in output.imports.values()], [("./env.js", "f2"), ("./env.js", "g2")])
        self.refuses("import 0: what it brings can't be changed", lambda module: setattr(module.imports[0], "kind", ExportItem(GLOBAL, 0)))
        self.refuses("import 0: an item of its kind can't go", lambda module: module.imports._take(0))

    def test_exports(self) -> None:
        def change(module: Module) -> None:
            module.exports[0].name, module.exports[0].item = "start", ExportItem(TABLE, 1)
            module.exports.add("é", GLOBAL, 0)
            module.exports.delete(1)

        output = changed(change)
        self.assertEqual([(it.name, it.item) for it in output.exports.values()], [("start", (TABLE, 1)), ("é", (GLOBAL, 0))])
        self.refuses("export 2: what it exports isn't there", lambda module: module.exports.add("g", FUNCTION, 9))
        self.breaks(Rule.EXPORT_NAMES, lambda module: module.exports.add("run", FUNCTION, 0))

    def test_bodies(self) -> None:
        body = InstrSeqBuilder().local_get(0).local_get(1).op(opcodes.I32_ADD).body(I32)
        output = changed(lambda module: setattr(module.funcs[1], "body", body))
        run = output.funcs[output.exports.get_func("run")]
        # its name stays, and those of its locals are gone
        self.assertEqual((bytes(run.body), run.name, run.local_names), (b"\1\1\x7F\x20\0\x20\1\x6A\x0B", "work", {}))
        text = "function {}: its body isn't well formed, or names what isn't there"
        self.refuses(text.format(1), lambda module: setattr(module.funcs[1], "body", InstrSeqBuilder().block().body()))
        many = Body(b"\1\xFF\xFF\xFF\xFF\x0F\x7F\0\x0B")
        self.refuses(text.format(3), lambda module: module.funcs.add_local(TypeId(0), many))

    def test_fronts(self) -> None:
        def change(module: Module) -> None:
            for id_, it in module.funcs.items():
                if it.body:
                    module.insert_front(id_, InstrSeqBuilder().i32_const(id_).drop())
                    # what is put later stands before it
                    module.insert_front(id_, InstrSeqBuilder().block().end())

        output = changed(change)
        run = output.funcs[output.exports.get_func("run")]
        self.assertEqual(bytes(run.body), b"\0\x02\x40\x0B\x41\1\x1A\x20\0\x10\0\x0B")
        self.assertEqual(run.local_names, {0: "x"})
        text = "function {}: what stands in front of its body isn't well formed, or names what isn't there"
        self.refuses(text.format(2), lambda module: module.insert_front(2, InstrSeqBuilder().call(7)))
        # a local of its own isn't one of those that operators in front may name
        self.refuses(text.format(1), lambda module: module.insert_front(1, InstrSeqBuilder().local_get(1).drop()))
        self.assertRaisesRegex(BadItem, "function 0: it has no body", Module(worked.ITEMS).insert_front, 0, InstrSeqBuilder())

    def test_functions_come(self) -> None:
        def change(module: Module) -> None:
            type_ = module.types.add()
            more, _ = module.add_import_func("env", "more", type_)
            first = module.funcs.add_local(type_, TRAP)
            second = module.funcs.add_local(type_, InstrSeqBuilder().call(first).call(more).body())
            module.funcs[first].body = InstrSeqBuilder().call(second).body()
            module.exports.add("first", FUNCTION, first)
            self.assertEqual((module.called(more), module.called(first), module.called(1)), ("more", f"function[{first}]", "work"))

        output = changed(change)
        first = output.exports.get_func("first")
        second = bytes(output.funcs[first].body)[2]
        self.assertEqual(bytes(output.funcs[second].body), bytes([0, 0x10, first, 0x10, 1, 0x0B]))
        self.refuses("function 3: its type isn't there, or isn't one of functions", lambda module: module.funcs.add_local(TypeId(9), TRAP))

    def test_an_import_becomes_a_function(self) -> None:
        for change in (lambda module: module.replace_imported_func(0, TRAP), lambda module: setattr(module.funcs[0], "body", TRAP)):
            output = changed(change)
            self.assertEqual((len(output.imports), len(output.funcs)), (1, 3))
        self.assertRaisesRegex(BadItem, "function 1: it isn't imported", Module(worked.ITEMS).replace_imported_func, 1, TRAP)

        def rename(module: Module) -> None:
            module.funcs[0].body, module.imports[0].name = TRAP, "h"

        self.refuses("import 0: it is gone, since what it brought is the module's own", rename)

    def test_a_function_becomes_an_import(self) -> None:
        def change(module: Module) -> None:
            module.import_func(2, "later", "b")
            module.import_func(1, "later", "a")
            self.assertRaisesRegex(BadItem, "function 1: it has no body", module.import_func, 1, "x", "y")

        output = changed(change)
        # imports stand in the order in which they came
        self.assertEqual([it.name for it in output.imports.values()], ["f", "g", "b", "a"])
        run = output.funcs[output.exports.get_func("run")]
        self.assertEqual((run.imported, run.name), (3, "work"))

        def other(id_: int, imported: Any) -> Callable[[Module], Any]:
            def change(module: Module) -> None:
                module.funcs[id_].body, module.funcs[id_].imported = None, imported
            return change

        self.refuses("function 2: its import can't be changed", other(2, 0))
        self.refuses("function 0: its import can't be changed", other(0, 1))
        self.refuses("function 2: it has neither a body nor an import", other(2, None))
        self.refuses("function 0: it has neither a body nor an import", other(0, None))
        self.refuses("function 2: it has a body and an import", lambda module: setattr(module.funcs[2], "imported", 0))

    def test_an_exported_function_is_replaced(self) -> None:
        def change(module: Module) -> None:
            self.assertEqual(module.replace_exported_func(1, TRAP), 3)
            self.assertRaisesRegex(BadItem, "function 0: it isn't exported", module.replace_exported_func, 0, TRAP)

        output = changed(change)
        self.assertEqual((bytes(output.funcs[output.exports.get_func("run")].body), len(output.funcs)), (TRAP.data, 4))

    def test_what_of_a_function_is_refused(self) -> None:
        self.refuses("function 1: its type can't be changed", lambda module: setattr(module.funcs[1], "type", 0))
        self.refuses("function 1: the names of its locals can't be changed", lambda module: module.funcs[1].local_names.clear())
        self.refuses("function 2: an item of its kind can't go", lambda module: module.funcs._take(2))

    def test_tables_and_tags(self) -> None:
        def change(module: Module) -> None:
            module.tables[1].name, module.tags[0].name = "t", "e"

        output = changed(change)
        self.assertEqual((output.tables[1].name, output.tags[0].name), ("t", "e"))
        others = {"element_ty": EXTERNREF, "initial": 0, "maximum": 9, "table64": True, "init": b"\xD0\x70\x0B", "imported": 0}
        for field, value in others.items():
            self.refuses(f"table 0: its `{field}` can't be changed, only its name", lambda module: setattr(module.tables[0], field, value))
        self.refuses("tag 0: its `type` can't be changed, only its name", lambda module: setattr(module.tags[0], "type", 1))
        self.refuses("tag 0: its `imported` can't be changed, only its name", lambda module: setattr(module.tags[0], "imported", 1))
        self.refuses("table 2: an item of its kind can't be added", lambda module: module.tables._put(copy.copy(module.tables[0])))
        self.refuses("tag 0: an item of its kind can't go", lambda module: module.tags._take(0))

    def test_memories(self) -> None:
        for fields in ({"initial": 2}, {"maximum": 9}, {"shared": True, "maximum": 3}, {"page_size_log2": 0}, {"name": "m"}):
            output = changed(lambda module: [setattr(module.memories[0], field, value) for field, value in fields.items()])
            for field, value in fields.items():
                self.assertEqual(getattr(output.memories[0], field), value)

        def widen(module: Module) -> None:
            module.memories[0].memory64 = True
            module.data.delete(0)

        self.assertTrue(changed(widen).memories[0].memory64)
        self.breaks(Rule.LIMITS, lambda module: setattr(module.memories[0], "maximum", 0))
        self.refuses("memory 0: its import can't be changed", lambda module: setattr(module.memories[0], "imported", 1))
        self.refuses("memory 1: an item of its kind can't be added", lambda module: module.memories._put(copy.copy(module.memories[0])))

    def test_globals(self) -> None:
        fields = {"type": F64, "mutable": False, "init": InstrSeqBuilder().f64_const(1.5).const_expr(), "name": "x"}
        output = changed(lambda module: [setattr(module.globals[1], field, value) for field, value in fields.items()])
        self.assertEqual({field: getattr(output.globals[1], field) for field in fields}, fields)
        self.assertTrue(changed(lambda module: setattr(module.globals[2], "shared", True)).globals[2].shared)
        text = "global 1: its type or its initialiser isn't well formed, or names what isn't there"
        self.refuses(text, lambda module: setattr(module.globals[1], "init", InstrSeqBuilder().global_get(7).const_expr()))

        def to_import(module: Module) -> None:
            module.globals[1].init, module.globals[1].imported = None, 1

        self.refuses("global 1: it can't come to be imported", to_import)
        self.refuses("global 1: it has neither a value nor an import", lambda module: setattr(module.globals[1], "init", None))
        for field, value in (("type", I64), ("mutable", True), ("shared", True)):
            text = f"global 0: its `{field}` can't be changed, since an import brings it"
            self.refuses(text, lambda module: setattr(module.globals[0], field, value))
        self.refuses("global 0: its import can't be changed", lambda module: setattr(module.globals[0], "imported", 0))

    def test_an_imported_global_becomes_the_modules_own(self) -> None:
        def change(module: Module) -> None:
            module.globals[0].init = InstrSeqBuilder().i32_const(-7).const_expr()
            module.exports.add("g", GLOBAL, 0)

        output = changed(change)
        own = output.globals[output.exports[output.exports.by_name("g")].item.id]
        self.assertEqual((own.init, len(output.imports)), (b"\x41\x79\x0B", 1))

    def test_globals_come(self) -> None:
        def change(module: Module) -> None:
            brought, _ = module.add_import_global("env", "h", F32, False)
            own = module.globals.add_local(EXTERNREF, True, InstrSeqBuilder().ref_null("extern").const_expr())
            copied = module.globals.add_local(F32, False, InstrSeqBuilder().global_get(brought).const_expr())
            module.globals.add_local(FUNCREF, False, InstrSeqBuilder().ref_func(1).const_expr())
            module.exports.add("own", GLOBAL, own)
            module.exports.add("copy", GLOBAL, copied)
            module.globals[copied].name = "copy"

        output = changed(change)
        found = output.globals[output.exports[output.exports.by_name("copy")].item.id]
        self.assertEqual((found.name, found.init, len(output.globals)), ("copy", b"\x23\1\x0B", 7))

    def test_the_start_function(self) -> None:
        self.assertIsNone(changed(lambda module: setattr(module, "start", None)).start)
        other = changed(lambda module: setattr(module, "start", module.funcs.add_local(module.types.add(), TRAP)))
        self.assertEqual(other.funcs[other.start].body, TRAP)
        self.refuses("the start function: it isn't there", lambda module: setattr(module, "start", 9))
        self.breaks(Rule.START, lambda module: setattr(module, "start", 1))

    def test_elements(self) -> None:
        expressions = [InstrSeqBuilder().ref_func(id_).const_expr() for id_ in (0, 2)]

        def change(module: Module) -> None:
            module.elements.delete(0)
            module.elements[1].name = "passive"
            module.elements.add(Element(expressions, 0, b"\x41\1\x0B", FUNCREF))
            module.elements.add(Element([1], declared=True))

        output = changed(change)
        wanted = [Element([2], name="passive"), Element(expressions, 0, b"\x41\1\x0B", FUNCREF), Element([1], declared=True)]
        self.assertEqual(output.elements.values(), wanted)
        for field, value in (("items", [2]), ("table", 1), ("offset", b"\x41\1\x0B"), ("type", FUNCREF), ("declared", True)):
            self.refuses(f"element segment 0: its `{field}` can't be changed, only its name", lambda module: setattr(module.elements[0], field, value))
        text = "element segment 2: its table, its offset or what it lists isn't there, or isn't well formed"
        self.refuses(text, lambda module: module.elements.add(Element([], 7, b"\x41\0\x0B")))

    def test_data(self) -> None:
        def change(module: Module) -> None:
            first = module.data[0]
            first.value, first.offset, first.name = b"longer", InstrSeqBuilder().global_get(0).const_expr(), "d"
            module.data.delete(1)
            module.data.add(Data(b"new"))

        output = changed(change)
        self.assertEqual(output.data.values(), [Data(b"longer", 0, b"\x23\0\x0B", "d"), Data(b"new")])
        text = "data segment 1: its memory isn't there, or its offset isn't well formed"

        def nowhere(module: Module) -> None:
            module.data[1].memory, module.data[1].offset = 1, b"\x41\0\x0B"

        self.refuses(text, nowhere)
        self.assertIsNone(changed(lambda module: setattr(module.data[0], "memory", None)).data[0].memory)

    def test_a_segment_that_came_and_went_has_an_id(self) -> None:
        def change(module: Module) -> None:
            gone, stays = module.data.add(Data(b"gone")), module.data.add(Data(b"stays"))
            module.data.delete(gone)
            module.elements.delete(module.elements.add(Element([])))
            module.funcs[2].body = InstrSeqBuilder().op(opcodes.DATA_DROP, stays).body()

        output = changed(change)
        self.assertEqual([it.value for it in output.data.values()], [b"ab", b"c", b"stays"])
        self.assertEqual(bytes(output.funcs[output.start].body), b"\0\xFC\x09\2\x0B")

    def test_custom_sections(self) -> None:
        def change(module: Module) -> None:
            module.customs[0].data = b"new"
            module.customs.remove_raw("other")
            module.customs.add("more", b"123")

        self.assertEqual(changed(change).customs.values(), [CustomSection("note", b"new"), CustomSection("more", b"123")])
        self.refuses("custom section 0: its name can't be changed", lambda module: setattr(module.customs[0], "name", "x"))
        for name in ("name", "producers", ".debug_info"):
            text = "custom section 2: the library writes sections of its name itself, or none"
            self.refuses(text, lambda module: module.customs.add(name, b""))

    def test_producers(self) -> None:
        def change(module: Module) -> None:
            module.producers.add_language("C", "17")
            module.producers.add_language("D", "2")
            module.producers.add_sdk("kit", "")
            module.producers.add_processed_by("tool", "1.0")

        wanted = ["language C 17", "language D 2", "other t ", "processed-by walrus 0.28.0", "processed-by tool 1.0", "sdk kit "]
        self.assertEqual([f"{it.field} {it.name} {it.version}" for it in changed(change).producers], wanted)
        self.assertEqual(changed(lambda module: module.producers.clear()).producers, [OURS])
        self.assertEqual(changed(lambda module: module.producers.pop(1)).producers, [Producer("language", "C", "11"), OURS])
        self.refuses("producer 0: its field isn't `language`, `processed-by` or `sdk`", lambda module: module.producers.pop(0))
        twice = Producer("language", "C", "3")
        self.refuses("producer 3: one of its name stands before it in its field", lambda module: module.producers.append(twice))

    def test_the_name(self) -> None:
        self.assertEqual(changed(lambda module: setattr(module, "name", "other")).name, "other")
        self.assertIsNone(changed(lambda module: setattr(module, "name", None)).name)

    def test_operators(self) -> None:
        builder = InstrSeqBuilder().block(I32).loop(of_type=64).if_().else_().br(1).br_if(0).end()
        builder.load(opcodes.I32_LOAD, 0, 2, 300).store(opcodes.I32_STORE, 1, 0, 1)
        builder.f32_const(1.5).f64_const(-2.0).local_set(3).local_tee(128).select().ref_func(4).call_indirect(1, 2).op(opcodes.I32X4_ADD)
        wanted = [
            b"\x02\x7F\x03\xC0\0\x04\x40\x05\x0C\1\x0D\0\x0B", b"\x28\2\xAC\2\x36\x40\1\1", b"\x43\0\0\xC0\x3F\x44\0\0\0\0\0\0\0\xC0\x21\3\x22\x80\1\x1B\xD2\4",
            b"\x11\1\2\xFD\xAE\1",
        ]
        self.assertEqual(builder.data, b"".join(wanted))


class Lists(unittest.TestCase):
    """The calls of lists of edits and of items."""

    def test_a_list_is_made(self) -> None:
        self.assertEqual(mulkavesh.edit(worked.TWO, b"", gc=True, producers=False), worked.ONE)
        self.assertEqual(mulkavesh.edit(worked.TWO, bytearray(b"\7\5\1\1g\0\0"), producers=False)[:8], worked.HEADER)
        self.assertEqual(mulkavesh.read(worked.TWO)[:5], b"\1\3\x60\0\0")

    def test_refusals(self) -> None:
        for listed, made in ((b"\x63\0", 0), (b"\x12\x09\7", 0), (b"\7\5\1\1g\0\0\7\5\1\1h\0\7", 1), (b"\3\2\1\0", 0), (b"\0\5\4name", 0)):
            with self.assertRaises(BadEdit) as raised:
                mulkavesh.edit(worked.TWO, listed)
            self.assertEqual(raised.exception.made, made)
        with self.assertRaises(BadModule) as whole:
            mulkavesh.edit(worked.TWO, b"\7\5\1\1f\0\0")
        self.assertEqual((whole.exception.cause, str(whole.exception)), (Rule.EXPORT_NAMES, "the changed module is invalid: two exports have the same name"))
        self.assertRaises(InvalidModule, mulkavesh.edit, b"", b"\x63")
        self.assertEqual(str(mulkavesh._bad_module(11)), "the changed module is invalid: it names an item that is gone")
        self.assertEqual({mulkavesh._bad_module(number).cause for number in range(11, 15)}, set(Cause))


class Declared(unittest.TestCase):
    """That all is typed and told."""

    def test_all_is_typed_and_told(self) -> None:
        for name in public.__all__:
            found = getattr(public, name)
            if inspect.isclass(found):
                self.assertTrue(inspect.getdoc(found), name)
                typing.get_type_hints(found)
                for method, function in inspect.getmembers(found, inspect.isfunction):
                    if not dataclasses.is_dataclass(found) and not hasattr(found, "_fields") and function.__module__.startswith("mulkavesh"):
                        hints = typing.get_type_hints(function)
                        self.assertEqual(set(hints) | {"self"}, {*inspect.signature(function).parameters, "return"}, method)

    def test_the_opcodes_of_the_sources(self) -> None:
        found = {name: number for name, number in vars(opcodes).items() if name.isupper()}
        self.assertEqual((len(found), found["I32_ADD"], found["I32X4_ADD"], found["MEMORY_COPY"]), (575, 0x6A, 0xFD_00AE, 0xFC_000A))


def small(most: int = MOST_BYTES) -> List[bytes]:
    return [data for _, data in samples() if len(data) < most]


class Samples(unittest.TestCase):
    """Modules of other tools."""

    def test_nothing_changed_is_what_gc_writes(self) -> None:
        for name, data in samples():
            module = Module(data)
            self.assertEqual(module.edits(), b"", name)
            self.assertEqual(module.emit_wasm(gc=True), mulkavesh.gc(data), name)

    def test_bodies_set_as_they_are(self) -> None:
        for data in small():
            module = Module(data)
            for it in module.funcs.values():
                if it.body:
                    it.body = Body(bytes(it.body) + b"")
            self.assertEqual(module.edits(), b"")

    def test_traps(self) -> None:
        for data in small(10_000):
            for id_ in [id_ for id_, it in Module(data).funcs.items() if it.body][:5]:
                module = Module(data)
                module.funcs[id_].body = TRAP
                self.assertEqual(module.emit_wasm(gc=True), mulkavesh.snip(data, id_))

    def test_stubs(self) -> None:
        for data in small():
            for name in {it.module for it in Module(data).imports.values() if it.kind.kind == FUNCTION}:
                module = Module(data)
                for it in module.imports.values():
                    if it.module == name and it.kind.kind == FUNCTION:
                        module.replace_imported_func(it.kind.id, TRAP)
                self.assertEqual(module.emit_wasm(gc=True), mulkavesh.stub(data, name.replace("*", "\\*")))

    def test_edits_of_all_kinds(self) -> None:
        for data in small():
            module = Module(data)
            type_ = module.types.add()
            added, _ = module.add_import_func("added", "f", type_)
            own = module.funcs.add_local(type_, InstrSeqBuilder().call(added).body())
            for it in (*module.imports.values(), *module.exports.values()):
                it.name = "_" + it.name
            for id_, it in module.funcs.items():
                if it.body and id_ != own:
                    module.insert_front(id_, InstrSeqBuilder().i32_const(id_).drop())
            module.exports.add("added", FUNCTION, own)
            module.customs.add("added", b"1")
            module.producers.add_sdk("added", "1")
            module.name = "added"
            output = Module(module.emit_wasm())
            for kind in ("imports", "exports", "funcs", "customs"):
                self.assertEqual(len(getattr(output, kind)), len(getattr(module, kind)))
            self.assertIsNotNone(output.exports.get_func("added"))


class Examples(unittest.TestCase):
    """The programs in the folder `examples`, each over a module in a file."""

    def ran(self, program: str, data: bytes, *words: str) -> Module:
        with tempfile.TemporaryDirectory() as folder:
            source, target = pathlib.Path(folder, "in.wasm"), pathlib.Path(folder, "out.wasm")
            source.write_bytes(data)
            for word in [word for word in words if word.startswith("{")]:
                pathlib.Path(folder, "map.json").write_text(word, encoding="utf-8")
            words = tuple(str(pathlib.Path(folder, "map.json")) if word.startswith("{") else word for word in words)
            path = {"PYTHONPATH": str(EXAMPLES.parent), "MULKAVESH_LIB": str(pathlib.Path(mulkavesh._library._name).parent)}
            command = [sys.executable, "-B", "-W", "error", str(EXAMPLES / program), str(source), str(target), *words]
            ended = subprocess.run(command, capture_output=True, text=True, env=path, check=False)
            self.assertEqual((ended.returncode, ended.stderr), (0, ""), program)
            return Module(target.read_bytes())

    def test_keep_exports(self) -> None:
        left = self.ran("keep_exports.py", worked.ITEMS, "mem")
        self.assertEqual([it.name for it in left.exports.values()], ["mem"])
        self.assertEqual(len(left.funcs), 3)

    def test_rename(self) -> None:
        told = '{"imports": {"env.f": "./b.js:c"}, "modules": {"env": "e"}, "exports": {"run": "go"}}'
        renamed = self.ran("rename.py", worked.ITEMS, told)
        self.assertEqual([(it.module, it.name) for it in renamed.imports.values()], [("./b.js", "c"), ("e", "g")])
        self.assertEqual([it.name for it in renamed.exports.values()], ["go", "mem"])

    def test_count_bytes_asked(self) -> None:
        counts = self.ran("count_bytes_asked.py", worked.ITEMS, "work")
        asked = counts.exports[counts.exports.by_name("bytes_asked")].item.id
        body = bytes(counts.funcs[counts.exports.get_func("run")].body)
        self.assertEqual(body[:11], bytes([0, 0x23, asked, 0x20, 0, 0xAD, 0x7C, 0x24, asked, 0x20, 0]))

    def test_build_id(self) -> None:
        for data in (worked.ITEMS, worked.ITEMS + worked.section(0, b"\x08build_id\1x")):
            marked = self.ran("build_id.py", data, "0102FF")
            self.assertEqual([it.data for it in marked.customs.values() if it.name == "build_id"], [b"\3\1\2\xFF"])
            self.assertIn(Producer("processed-by", "build_id.py", "1"), marked.producers)


if __name__ == "__main__":
    unittest.main()
