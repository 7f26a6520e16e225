"""Each call over modules that were worked out by hand, what each refuses, how the library is found, what is declared and what is packed."""
import base64
import concurrent.futures
import ctypes
import gzip
import hashlib
import inspect
import os
import pathlib
import pickle
import re
import shutil
import subprocess
import sys
import tempfile
import types
import typing
import unittest
import zipfile
from typing import Any, Callable, Dict, Optional
from unittest import mock

import mulkavesh
import packing
from mulkavesh import (
    Alone, BadEdit, BadModule, Beginning, Cause, Counts, Export, Fault, FaultKind, Function, Import, InvalidModule, Item, Link, MulkaveshError, NotFound, Reason, Report,
    Root, Rule, Section, Sections, Sizes, TooLarge,
)
from tests import worked

HERE = pathlib.Path(__file__).resolve().parent.parent
HEADER = HERE.parent / "include" / "mulkavesh.h"
# All calls with a module, with what else they take.
CALLS: Dict[str, Callable[[Any], Any]] = {
    "gc": mulkavesh.gc,
    "report": mulkavesh.report,
    "diagnose": mulkavesh.diagnose,
    "list": mulkavesh.list_functions,
    "dropped": mulkavesh.dropped,
    "exports": mulkavesh.exports,
    "imports": mulkavesh.imports,
    "sections": mulkavesh.sections,
    "parts": mulkavesh.parts,
    "strip": lambda module: mulkavesh.strip(module, "a"),
    "why": lambda module: mulkavesh.why(module, 0),
    "callers": lambda module: mulkavesh.callers(module, 0),
    "snip": lambda module: mulkavesh.snip(module, "a"),
    "stub": lambda module: mulkavesh.stub(module, "env"),
    "read": mulkavesh.read,
    "edit": lambda module: mulkavesh.edit(module, b""),
}


# Those that take a choice of exports.
CHOSEN: Dict[str, Callable[..., Any]] = {
    "gc": mulkavesh.gc,
    "report": mulkavesh.report,
    "list": mulkavesh.list_functions,
    "dropped": mulkavesh.dropped,
    "exports": mulkavesh.exports,
    "imports": mulkavesh.imports,
    "why": lambda module, **choice: mulkavesh.why(module, 0, **choice),
    "callers": lambda module, **choice: mulkavesh.callers(module, 0, **choice),
}


def of(call: Callable[[Any], Any], module: Any) -> Any:
    """What a call answers, or what it raises, as a text."""
    try:
        return call(module)
    except Exception as error:
        return repr(error)


class Answers(unittest.TestCase):
    """What each call answers."""

    def test_version(self) -> None:
        said = re.search(r'^version = "(\d+)\.(\d+)\.(\d+)"', (HERE / "pyproject.toml").read_text(encoding="utf-8"), re.M)
        assert said
        self.assertEqual(mulkavesh.version(), tuple(map(int, said.groups())))

    def test_gc(self) -> None:
        self.assertEqual(mulkavesh.gc(worked.TWO), worked.ONE + worked.PRODUCERS)
        self.assertEqual(mulkavesh.gc(worked.TWO, producers=False), worked.ONE)
        self.assertEqual(mulkavesh.gc(worked.HEADER), worked.HEADER + worked.PRODUCERS)

    def test_gc_and_names(self) -> None:
        self.assertEqual(mulkavesh.gc(worked.TWO_NAMED, producers=False), worked.ONE_NAMED)
        self.assertEqual(mulkavesh.gc(worked.TWO_NAMED, names=False), worked.ONE + worked.PRODUCERS)

    def test_gc_and_legacy_exceptions(self) -> None:
        self.assertEqual(mulkavesh.gc(worked.LEGACY, names=False, producers=False), worked.LEGACY_LEFT)

    def test_report(self) -> None:
        none, sizes = Counts(0, 0), Sizes(36, 31, 3, 0)
        self.assertEqual(mulkavesh.report(worked.TWO, producers=False), Report(Counts(1, 1), none, none, none, none, none, none, sizes))
        self.assertEqual(sizes.rest, 2)
        told = mulkavesh.report(worked.TWO).bytes
        self.assertEqual((told.written, told.rest), (72, -39))
        debug = bytes.fromhex("00 08 06") + b".debug" + b"\1"
        self.assertEqual(mulkavesh.report(worked.TWO + debug, producers=False).bytes, Sizes(46, 31, 3, 10))
        self.assertEqual(mulkavesh.report(worked.ROOTS, drop=()).elements, Counts(2, 0))
        self.assertEqual(mulkavesh.report(worked.KINDS, keep="E"), mulkavesh.report(worked.KINDS, drop=["T", b"G", "X"]))
        self.assertEqual(mulkavesh.report(worked.KINDS, keep="E").memories, Counts(1, 0))
        self.assertEqual(mulkavesh.report(worked.KINDS, keep="E").tables, Counts(0, 1))

    def test_diagnose(self) -> None:
        self.assertIsNone(mulkavesh.diagnose(worked.TWO))
        self.assertIsNone(mulkavesh.diagnose(worked.LEGACY))
        self.assertEqual(mulkavesh.diagnose(worked.LEGACY, legacy=False), Fault(FaultKind.BODY, 0))
        self.assertEqual(mulkavesh.diagnose(b"no module"), Fault(FaultKind.HEADER, Beginning.OTHER))
        self.assertEqual(mulkavesh.diagnose(worked.TWO + b"\0"), Fault(FaultKind.SECTION, len(worked.TWO)))
        found = mulkavesh.diagnose(worked.TWO[:-10])
        self.assertEqual(found, Fault(FaultKind.RULE, Rule.COUNTS))
        self.assertIsInstance(found and found.number, Rule)
        found = mulkavesh.diagnose(gzip.compress(worked.TWO))
        self.assertEqual(found, Fault(FaultKind.HEADER, Beginning.GZIP))
        self.assertIsInstance(found and found.number, Beginning)

    def test_faults_that_were_worked_out(self) -> None:
        count = 0
        for flags, kind, number, module, words in worked.faults():
            with self.subTest(words, module=module.hex(" ")):
                found = mulkavesh.diagnose(module, legacy=not flags & 4)
                self.assertEqual(found, Fault(FaultKind(kind), number) if kind else None)
                self.assertEqual(str(found) if found else "", words)
            count += 1
        self.assertGreater(count, 13)

    def test_list(self) -> None:
        self.assertEqual(mulkavesh.list_functions(worked.TWO), [Function(1, 2, None)])
        self.assertEqual(mulkavesh.list_functions(worked.TWO_NAMED), [Function(1, 2, "é")])
        self.assertEqual(mulkavesh.list_functions(worked.CALLS), [Function(0, 4, None), Function(1, 3, None)])
        self.assertEqual(mulkavesh.list_functions(worked.HEADER), [])
        self.assertEqual(mulkavesh.list_functions(worked.CALLS, drop="a"), [])

    def test_dropped(self) -> None:
        self.assertEqual(mulkavesh.dropped(worked.TWO), [Function(0, 3, None)])
        self.assertEqual(mulkavesh.dropped(worked.TWO_NAMED), [Function(0, 3, "g")])
        self.assertEqual(mulkavesh.dropped(worked.CALLS), [])
        self.assertEqual(mulkavesh.dropped(worked.CALLS, drop="*"), [Function(0, 4, None), Function(1, 3, None)])

    def test_exports(self) -> None:
        wanted = [Export("function", 0, "a"), Export("function", 0, "b"), Export("function", 1, "*")]
        self.assertEqual(mulkavesh.exports(worked.THREE), wanted)
        self.assertEqual(mulkavesh.exports(worked.THREE, keep=["a", r"\*"]), [wanted[0], wanted[2]])
        self.assertEqual(mulkavesh.exports(worked.THREE, keep="*", drop=("a", "b")), wanted[2:])
        kinds = zip(("table", "memory", "global", "tag"), "TEGX")
        self.assertEqual(mulkavesh.exports(worked.KINDS), [Export(kind, 0, name) for kind, name in kinds])

    def test_imports(self) -> None:
        self.assertEqual(mulkavesh.imports(worked.IMPORTS), [Import("function", 0, "env", "f"), Import("function", 2, "m", "h")])
        self.assertEqual(mulkavesh.imports(worked.IMPORTS, drop=b"a"), [])
        kinds = zip(("table", "memory", "global", "tag"), "tegx")
        self.assertEqual(mulkavesh.imports(worked.KINDS), [Import(kind, 0, "m", name) for kind, name in kinds])

    def test_chosen_exports(self) -> None:
        for choice in ({"keep": "a"}, {"keep": ["a"]}, {"drop": ["b", r"\*"]}, {"keep": b"*", "drop": iter(("b", r"\*"))}, {"keep": "a*"}):
            self.assertEqual(mulkavesh.gc(worked.THREE, producers=False, **choice), worked.AS_A)  # type: ignore[arg-type]
        self.assertEqual(mulkavesh.gc(worked.THREE, producers=False, drop="*"), worked.HEADER)
        self.assertEqual(mulkavesh.gc(worked.THREE, producers=False, keep="a", drop="a"), worked.HEADER)
        self.assertEqual(mulkavesh.gc(worked.THREE, keep=(), drop=[]), mulkavesh.gc(worked.THREE))

    def test_answers_that_need_more_room(self) -> None:
        module, wanted = worked.listed_in_more(), [Function(index, 2, None) for index in range(120)]
        self.assertGreater(12 * len(wanted), len(module) + 256)
        self.assertEqual(mulkavesh.list_functions(module), wanted)
        found = mulkavesh.why(worked.chained(), 499)
        self.assertEqual([link.index for link in found.links], [*range(500)])
        self.assertEqual((found.root, found.alone), (Root.EXPORTED, Alone(1, 2)))
        self.assertEqual(len(mulkavesh.dropped(worked.chained(), drop="a")), 500)

    def test_sections(self) -> None:
        wanted = [Section(1, None, 8, 6, 1), Section(3, None, 14, 5, 2), Section(7, None, 19, 7, 1), Section(10, None, 26, 10, 2)]
        self.assertEqual(mulkavesh.sections(worked.TWO), Sections(wanted, 36, True))
        wanted = [Section(0, "a", 8, 5, None), Section(0, "a", 13, 5, None), Section(0, "é", 18, 6, None)]
        self.assertEqual(mulkavesh.sections(worked.SECTIONS), Sections(wanted, 24, True))
        self.assertEqual(mulkavesh.sections(worked.HEADER), Sections([], 8, True))

    def test_sections_of_a_cut_module(self) -> None:
        whole = mulkavesh.sections(worked.TWO)
        for cut in range(27, 36):
            self.assertEqual(mulkavesh.sections(worked.TWO[:cut]), Sections(whole.sections[:3], 26, False))

    def test_parts(self) -> None:
        wanted = [*mulkavesh.sections(worked.TWO).sections, Item("function", 0, 30, 3), Item("function", 1, 34, 2)]
        self.assertEqual(mulkavesh.parts(worked.TWO), wanted)
        functions = [it for it in mulkavesh.parts(worked.IMPORTS) if isinstance(it, Item)]
        self.assertEqual(functions, [Item("function", 3, len(worked.IMPORTS) - 8, 8)])
        data = worked.module("05 03 01 00 01", "0B 0B 02 00 41 00 0B 02 07 07 01 01 09")
        self.assertEqual(mulkavesh.parts(data)[2:], [Item("data", 0, 16, 7), Item("data", 1, 23, 3)])
        self.assertEqual(mulkavesh.parts(worked.HEADER), [])

    def test_kinds_of_sections(self) -> None:
        found = mulkavesh.sections(worked.BROKEN)
        self.assertEqual([it.kind for it in found.sections], ["custom", "code", "function", "custom", "custom", "custom"])
        kinds = "custom type import function table memory global export start element code data".split() + ["data count", "tag", "unknown"]
        self.assertEqual([Section(number, None, 8, 2, None).kind for number in range(15)], kinds)
        self.assertEqual(Section(255, None, 8, 2, None).kind, "unknown")

    def test_strip(self) -> None:
        self.assertEqual(mulkavesh.strip(worked.SECTIONS, "a"), worked.BOTH_GONE)
        self.assertEqual(mulkavesh.strip(worked.SECTIONS, "é", "a"), worked.HEADER)
        self.assertEqual(mulkavesh.strip(worked.SECTIONS), worked.SECTIONS)
        self.assertEqual(mulkavesh.strip(worked.TWO_NAMED, "name"), worked.TWO)
        self.assertEqual(mulkavesh.strip(worked.ONE + worked.PRODUCERS, "producers"), worked.ONE)

    def test_strip_by_stars(self) -> None:
        for name in ("*", "**", b"*"):
            self.assertEqual(mulkavesh.strip(worked.SECTIONS, name), worked.HEADER)
        for name in ("a*", "*a", "*a*"):
            self.assertEqual(mulkavesh.strip(worked.SECTIONS, name), worked.BOTH_GONE)
        self.assertEqual(mulkavesh.strip(worked.SECTIONS, b"*\xA9"), worked.LAST_GONE)
        without = worked.BROKEN.replace(b"\0\x04\x02a*\x03", b"")
        self.assertEqual(len(without), len(worked.BROKEN) - 6)
        self.assertEqual(mulkavesh.strip(worked.BROKEN, r"a\*"), without)
        for name in ("c*", "a*a", r"\*", r"a\*"):
            self.assertRaises(NotFound, mulkavesh.strip, worked.SECTIONS, name)

    def test_what_strip_keeps(self) -> None:
        self.assertEqual(mulkavesh.strip(worked.SECTIONS, "*", keep="é"), worked.BOTH_GONE)
        self.assertEqual(mulkavesh.strip(worked.SECTIONS, "*", keep=b"a*"), worked.LAST_GONE)
        self.assertEqual(mulkavesh.strip(worked.SECTIONS, "*", keep=["a", "é"]), worked.SECTIONS)
        self.assertEqual(mulkavesh.strip(worked.SECTIONS, "a", keep=iter(("é", "c"))), worked.BOTH_GONE)
        self.assertRaises(NotFound, mulkavesh.strip, worked.SECTIONS, "*", "c", keep="c")

    def test_strip_of_what_breaks_a_rule(self) -> None:
        self.assertEqual(mulkavesh.diagnose(worked.BROKEN), Fault(FaultKind.RULE, Rule.ORDER))
        self.assertEqual(mulkavesh.strip(worked.BROKEN, ".debug*"), worked.NO_DEBUG)

    def test_names_of_each_kind(self) -> None:
        for name in ("é", "é".encode(), bytearray("é".encode()), memoryview("é".encode())):
            self.assertEqual(mulkavesh.strip(worked.SECTIONS, name), worked.LAST_GONE)
            self.assertEqual(mulkavesh.strip(worked.SECTIONS, "*", keep=name), worked.BOTH_GONE)
        for name in ("a", b"a", bytearray(b"a"), memoryview(b"a")):
            self.assertEqual(mulkavesh.snip(worked.CALLS, name), worked.SNIPPED)
            self.assertEqual(mulkavesh.gc(worked.THREE, producers=False, keep=name), worked.AS_A)
            self.assertEqual(mulkavesh.why(worked.CALLS, name), mulkavesh.why(worked.CALLS, 0))
            self.assertEqual(mulkavesh.callers(worked.CALLS, name), [])
        for name in ("env", b"env", bytearray(b"env"), memoryview(b"env")):
            self.assertEqual(mulkavesh.stub(worked.IMPORTS, name), worked.STUBBED)

    def test_why(self) -> None:
        a, called = Link("function", 0, 4, None, ("a",)), Link("function", 1, 3, None, ())
        self.assertEqual(mulkavesh.why(worked.CALLS, 1), Reason("function", 1, (a, called), Root.EXPORTED, Alone(1, 3)))
        for function in (0, "0", "a", b"a"):
            self.assertEqual(mulkavesh.why(worked.CALLS, function), Reason("function", 0, (a,), Root.EXPORTED, Alone(2, 7)))
        self.assertEqual(mulkavesh.why(worked.TWO, 0), Reason("function", 0, (), None, None))
        self.assertEqual(mulkavesh.why(worked.CALLS, 1, drop="*"), Reason("function", 1, (), None, None))
        self.assertIsInstance(mulkavesh.why(worked.CALLS, 0).root, Root)

    def test_why_by_name(self) -> None:
        found = mulkavesh.why(worked.TWO_NAMED, "é")
        self.assertEqual(found.links, (Link("function", 1, 2, "é", ("f",)),))
        self.assertEqual(mulkavesh.why(worked.TWO_NAMED, "f"), found)
        self.assertEqual(mulkavesh.why(worked.TWO_NAMED, "g"), Reason("function", 0, (), None, None))
        for kind, name in zip(("table", "memory", "global", "tag"), "TEGX"):
            link = Link(kind, 0, None, None, (name,))
            self.assertEqual(mulkavesh.why(worked.KINDS, name), Reason(kind, 0, (link,), Root.EXPORTED, None))

    def test_roots(self) -> None:
        self.assertEqual(mulkavesh.why(worked.ROOTS, 0).root, Root.START)
        for function, segment, root in ((1, 0, Root.ACTIVE), (2, 1, Root.DECLARED)):
            found = mulkavesh.why(worked.ROOTS, function)
            self.assertEqual((found.root, [(link.kind, link.index) for link in found.links]), (root, [("element", segment), ("function", function)]))

    def test_callers(self) -> None:
        self.assertEqual(mulkavesh.callers(worked.CALLS, 1), [Link("function", 0, 4, None, ("a",))])
        self.assertEqual(mulkavesh.callers(worked.CALLS, 0), [])
        self.assertEqual(mulkavesh.callers(worked.CALLS, 1, drop="a"), [])
        self.assertEqual(mulkavesh.callers(worked.ROOTS, 1), [Link("element", 0, None, None, ())])

    def test_snip(self) -> None:
        for functions in ((0,), ("0",), ("a",), ("a*",), ("*",), (1, "a"), ("a", "a", 0)):
            self.assertEqual(mulkavesh.snip(worked.CALLS, *functions), worked.SNIPPED)  # type: ignore[arg-type]
        self.assertEqual(mulkavesh.snip(worked.CALLS, 1), worked.CALLED_TRAPS)
        self.assertEqual(mulkavesh.snip(worked.CALLS, 1, producers=False) + worked.PRODUCERS, worked.CALLED_TRAPS)
        self.assertEqual(mulkavesh.snip(worked.CALLS), mulkavesh.gc(worked.CALLS))
        self.assertEqual(mulkavesh.snip(worked.TWO_NAMED, "g", names=False), worked.ONE + worked.PRODUCERS)

    def test_stub(self) -> None:
        self.assertEqual(mulkavesh.stub(worked.IMPORTS, "env"), worked.STUBBED)
        self.assertEqual(mulkavesh.stub(worked.IMPORTS, "e*", imports="f"), worked.STUBBED)
        self.assertEqual(mulkavesh.stub(worked.IMPORTS, "none", "*", imports=["f", b"g", "none"]), worked.STUBBED)
        self.assertEqual(mulkavesh.stub(worked.IMPORTS, "env", producers=False) + worked.PRODUCERS, worked.STUBBED)
        self.assertEqual(mulkavesh.stub(worked.IMPORTS, "env", imports="g"), mulkavesh.gc(worked.IMPORTS))

    def test_modules_of_each_kind(self) -> None:
        every_other = memoryview(b"".join(bytes((byte, 0)) for byte in worked.TWO))[::2]
        for module in (bytearray(worked.TWO), memoryview(worked.TWO), memoryview(bytearray(worked.TWO)), every_other):
            self.assertEqual(mulkavesh.gc(module, producers=False), worked.ONE)
            self.assertEqual(bytes(module), worked.TWO)
        for name, call in CALLS.items():
            with self.subTest(name):
                self.assertEqual(of(call, bytearray(worked.IMPORTS)), of(call, worked.IMPORTS))

    def test_threads(self) -> None:
        modules = [worked.TWO, worked.CALLS, worked.IMPORTS, worked.chained(), worked.SECTIONS, b""]
        work = [(call, module) for module in modules for call in CALLS.values()] * 20
        alone = [of(call, module) for call, module in work]
        with concurrent.futures.ThreadPoolExecutor(4) as pool:
            self.assertEqual(list(pool.map(of, *zip(*work))), alone)


class Refusals(unittest.TestCase):
    """What each call refuses."""

    def assert_invalid(self, fault: Fault, call: Callable[..., Any], *words: Any, **choices: Any) -> None:
        with self.assertRaises(InvalidModule) as raised:
            call(*words, **choices)
        self.assertEqual(raised.exception.fault, fault)

    def assert_framing(self, fault: Fault, module: bytes) -> None:
        """`strip` and `sections` refuse these bytes only where their framing is none, and then with this fault."""
        if fault.kind == FaultKind.HEADER:
            self.assert_invalid(fault, mulkavesh.sections, module)
        elif mulkavesh.sections(module).whole:
            self.assertEqual(mulkavesh.strip(module), module)
            return
        else:
            self.assertEqual(fault.kind, FaultKind.SECTION)
        self.assert_invalid(fault, mulkavesh.strip, module, "a")

    def test_faults_of_refusals(self) -> None:
        count = 0
        for flags, kind, number, module, words in worked.faults():
            if not kind:
                continue
            fault, legacy = Fault(FaultKind(kind), number), not flags & 4
            with self.subTest(words, module=module.hex(" ")):
                self.assert_invalid(fault, mulkavesh.gc, module, names=not flags & 1, producers=not flags & 2, legacy=legacy)
                for call in CHOSEN.values():
                    self.assert_invalid(fault, call, bytearray(module), legacy=legacy)
                    self.assert_invalid(fault, call, module, keep="none", legacy=legacy)
                self.assert_framing(fault, module)
                self.assert_invalid(fault, mulkavesh.snip, module, "a", legacy=legacy)
                self.assert_invalid(fault, mulkavesh.stub, module, "env", legacy=legacy)
            count += 1
        self.assertGreater(count, 13)

    def test_faults_of_legacy_exceptions(self) -> None:
        for call in CHOSEN.values():
            self.assert_invalid(Fault(FaultKind.BODY, 0), call, worked.LEGACY, legacy=False)
        self.assert_invalid(Fault(FaultKind.BODY, 0), mulkavesh.snip, worked.LEGACY, 0, legacy=False)
        self.assert_invalid(Fault(FaultKind.BODY, 0), mulkavesh.stub, worked.LEGACY, "*", legacy=False)

    def test_what_a_refusal_says(self) -> None:
        with self.assertRaises(InvalidModule) as raised:
            mulkavesh.why(b"no module", 0)
        text = "the input is no module that keeps the rules: the bytes don't begin as a WebAssembly module"
        self.assertEqual(str(raised.exception), text)
        copied = pickle.loads(pickle.dumps(raised.exception))
        self.assertEqual((type(copied), str(copied), copied.fault), (InvalidModule, text, Fault(FaultKind.HEADER, Beginning.OTHER)))

    def test_no_memory_for_the_fault(self) -> None:
        tried = mulkavesh._tried

        def full(call: str, *words: Any) -> Any:
            if call == "diagnose":
                raise MemoryError
            return tried(call, *words)

        library = types.SimpleNamespace(mulkavesh_gc=lambda *words: 1, mulkavesh_diagnose=lambda *words: 3)
        for patched in (mock.patch.object(mulkavesh, "_library", library), mock.patch.object(mulkavesh, "_tried", full)):
            with patched, self.assertRaises(InvalidModule) as raised:
                mulkavesh.gc(b"")
            self.assertEqual((raised.exception.fault, str(raised.exception)), (None, "the input is no module that keeps the rules"))

    def test_only_a_refusal_is_looked_into(self) -> None:
        with mock.patch.object(mulkavesh, "_tried", wraps=mulkavesh._tried) as tried:
            self.assertEqual(mulkavesh.gc(worked.TWO, producers=False), worked.ONE)
            self.assertRaises(NotFound, mulkavesh.why, worked.TWO, 2)
            self.assertRaises(InvalidModule, mulkavesh.gc, b"")
        self.assertEqual([call.args[0] for call in tried.call_args_list], ["gc", "why", "gc", "diagnose"])

    def test_invalid_modules(self) -> None:
        for name, call in CALLS.items():
            for module in (b"", bytearray(), memoryview(b""), b"\0asm", b"no module at all", worked.TWO[:-1], worked.TWO + b"\0"):
                with self.subTest(name, module=bytes(module)):
                    if name == "diagnose":
                        self.assertIsNotNone(call(module))
                    elif name == "sections" and bytes(module).startswith(worked.HEADER):
                        self.assertFalse(call(module).whole)
                    else:
                        self.assertRaises(InvalidModule, call, module)

    def test_what_is_not_found(self) -> None:
        self.assertRaisesRegex(NotFound, "no custom section fits 'c'$", mulkavesh.strip, worked.SECTIONS, "c")
        self.assertRaisesRegex(NotFound, "no custom section fits one of 'a', b'c'$", mulkavesh.strip, worked.SECTIONS, "a", b"c")
        self.assertRaises(NotFound, mulkavesh.strip, worked.SECTIONS, "")
        self.assertRaises(NotFound, mulkavesh.strip, worked.TWO, "*")
        for call in (mulkavesh.why, mulkavesh.callers):
            self.assertRaisesRegex(NotFound, "no function or export 2$", call, worked.TWO, 2)
            self.assertRaisesRegex(NotFound, "no function or export 'b'$", call, worked.CALLS, "b")
            for nothing in (2**32 - 1, "4294967296", "-1", "", "*", b"\xFF"):
                self.assertRaises(NotFound, call, worked.CALLS, nothing)
        self.assertRaisesRegex(NotFound, "meant by 'b'$", mulkavesh.snip, worked.CALLS, "b")
        self.assertRaisesRegex(NotFound, "meant by one of 'a', 2$", mulkavesh.snip, worked.CALLS, "a", 2)
        for imported in (0, 1, 2, "4", r"\*"):
            self.assertRaises(NotFound, mulkavesh.snip, worked.IMPORTS, imported)
        self.assertRaisesRegex(NotFound, "from 'en'$", mulkavesh.stub, worked.IMPORTS, "en")
        self.assertRaisesRegex(NotFound, "from one of 'en', b'' as 'f'$", mulkavesh.stub, worked.IMPORTS, "en", b"", imports="f")
        self.assertRaises(NotFound, mulkavesh.stub, worked.IMPORTS)
        self.assertRaises(NotFound, mulkavesh.stub, worked.IMPORTS, "env", imports="h")

    def test_names_that_fit_no_export(self) -> None:
        for name, call in CHOSEN.items():
            for choice, wanted in (({"keep": "c"}, "c"), ({"keep": ["a", b"c", "d"]}, b"c"), ({"keep": "a", "drop": ["b", "é"]}, "é"), ({"drop": ("", "c")}, "")):
                with self.subTest(name, **choice):
                    with self.assertRaises(NotFound) as raised:
                        call(worked.THREE, **choice)
                    self.assertEqual((str(raised.exception), raised.exception.name), (f"no export fits {wanted!r}", wanted))
        with self.assertRaises(NotFound) as raised:
            mulkavesh.why(worked.THREE, "none", keep="c")
        self.assertEqual(raised.exception.name, "c")
        copied = pickle.loads(pickle.dumps(raised.exception))
        self.assertEqual((type(copied), str(copied), copied.name), (NotFound, "no export fits 'c'", "c"))
        with self.assertRaises(NotFound) as raised:
            mulkavesh.why(worked.THREE, "none", keep="a")
        self.assertIsNone(raised.exception.name)

    def test_names_that_are_not_utf_8(self) -> None:
        for name in (b"\xFF", "\uDCFF", "a\uD800"):
            self.assertRaises(NotFound, mulkavesh.strip, worked.SECTIONS, name)
            self.assertRaises(NotFound, mulkavesh.gc, worked.CALLS, keep=name)
            self.assertRaises(NotFound, mulkavesh.why, worked.CALLS, name)
            self.assertRaises(NotFound, mulkavesh.snip, worked.CALLS, name)
            self.assertRaises(NotFound, mulkavesh.stub, worked.IMPORTS, name)

    def test_indices_out_of_range(self) -> None:
        for index in (-1, 2**32, 2**32 + 1, -(2**32), 2**64):
            for call in (mulkavesh.why, mulkavesh.callers, mulkavesh.snip):
                self.assertRaises(ValueError, call, worked.TWO, index)

    def test_other_types(self) -> None:
        for name, call in CALLS.items():
            for module in ("", None, 5, [0], 0.5):
                with self.subTest(name, module=module):
                    self.assertRaises(TypeError, call, module)
        for name in (None, 5, ["a"]):
            self.assertRaises(TypeError, mulkavesh.strip, worked.SECTIONS, name)
            self.assertRaises(TypeError, mulkavesh.strip, worked.SECTIONS, "a", keep=[name])
            self.assertRaises(TypeError, mulkavesh.stub, worked.IMPORTS, name)
            self.assertRaises(TypeError, mulkavesh.gc, worked.CALLS, keep=[name])
        for keep in (None, 5):
            self.assertRaises(TypeError, mulkavesh.strip, worked.SECTIONS, "a", keep=keep)
            self.assertRaises(TypeError, mulkavesh.stub, worked.IMPORTS, "env", imports=keep)
            self.assertRaises(TypeError, mulkavesh.gc, worked.CALLS, drop=keep)
        for index in (None, 0.5, ["a"]):
            for call in (mulkavesh.why, mulkavesh.callers, mulkavesh.snip):
                self.assertRaises(TypeError, call, worked.TWO, index)

    def test_each_status(self) -> None:
        """What each status raises; those that only huge modules come to are told by a library that answers nothing else."""
        wanted = {1: InvalidModule, 2: TooLarge, 3: MemoryError, 5: MulkaveshError, 6: NotFound, 7: BadEdit, 9: MulkaveshError}
        for status, kind in wanted.items():
            library = types.SimpleNamespace(**{f"mulkavesh_{call}": lambda *words, status=status: status for call in ("gc", "diagnose")})
            with mock.patch.object(mulkavesh, "_library", library), self.assertRaises(Exception) as raised:
                mulkavesh.gc(worked.TWO)
            self.assertIs(type(raised.exception), kind)
        for kind in (InvalidModule, TooLarge, NotFound, BadEdit, BadModule):
            self.assertTrue(issubclass(kind, MulkaveshError))

    def test_memory_runs_out(self) -> None:
        """In a process that gets the room that Python asks for, and not what the library does."""
        ended = in_python(OUT_OF_MEMORY, {"MULKAVESH_LIB": str(library().parent), "PYTHONPATH": str(HERE)})
        self.assertEqual((ended.stdout, ended.stderr), ("MemoryError('out of memory')\n", ""))


OUT_OF_MEMORY = """
import mulkavesh, resource
from tests import worked
module = worked.large()
pages = int(open("/proc/self/statm").read().split()[0])
limit = pages * resource.getpagesize() + len(module) + 8 * 2**20
resource.setrlimit(resource.RLIMIT_AS, (limit, limit))
try:
    print(len(mulkavesh.gc(module)))
except MemoryError as error:
    print(repr(error))
"""


def library() -> pathlib.Path:
    """The library that is tested."""
    return pathlib.Path(getattr(mulkavesh, "_library")._name).resolve()


def in_python(code: str, variables: Dict[str, str]) -> "subprocess.CompletedProcess[str]":
    """What another process of this Python does that has these variables and neither of its own for this module."""
    own = {name: value for name, value in os.environ.items() if name not in ("MULKAVESH_LIB", "PYTHONPATH")}
    command = [sys.executable, "-B", "-c", code]
    return subprocess.run(
        command, env={**own, **variables}, cwd="/", stdout=subprocess.PIPE, stderr=subprocess.PIPE, universal_newlines=True, check=False)


LOADED = "import mulkavesh; print(mulkavesh._library._name, mulkavesh.version())"
FOUND_BY_THE_SYSTEM = "import ctypes.util; ctypes.util.find_library = lambda name: name == 'mulkavesh' and {!r}; "


class Finding(unittest.TestCase):
    """Where the library is looked for."""

    def setUp(self) -> None:
        folder = tempfile.TemporaryDirectory()
        self.addCleanup(folder.cleanup)
        self.top = pathlib.Path(folder.name).resolve()
        self.module = self.top / "python" / "mulkavesh"
        self.module.mkdir(parents=True)
        shutil.copy(HERE / "mulkavesh" / "__init__.py", self.module)

    def put(self, *parts: str) -> pathlib.Path:
        """The library, in a folder of this one."""
        folder = self.top.joinpath(*parts)
        folder.mkdir(parents=True, exist_ok=True)
        return pathlib.Path(shutil.copy(library(), folder))

    def loaded(self, named: Optional[pathlib.Path] = None, before: str = "") -> "subprocess.CompletedProcess[str]":
        variables = {"PYTHONPATH": str(self.module.parent), **({"MULKAVESH_LIB": str(named)} if named else {})}
        return in_python(before + LOADED, variables)

    def assert_found(self, path: pathlib.Path, *words: Any) -> None:
        ended = self.loaded(*words)
        self.assertEqual((ended.stdout, ended.stderr), (f"{path} (0, 1, 0)\n", ""))

    def assert_missing(self, text: str, *words: Any) -> None:
        ended = self.loaded(*words)
        self.assertRegex(ended.stderr.splitlines()[-1], f"^ImportError: .*{text}")

    def test_places_from_the_last_to_the_first(self) -> None:
        nowhere = FOUND_BY_THE_SYSTEM.format(None)
        self.assert_missing("there is no libmulkavesh.so in .*/python/mulkavesh or .*/lib or among the system's libraries", None, nowhere)
        system = self.put("system")
        self.assert_found(system, None, FOUND_BY_THE_SYSTEM.format(str(system)))
        self.assert_found(self.put("crates", "mulkavesh_c", "out", "lib"), None, nowhere)
        self.assert_found(self.put("python", "mulkavesh"))
        named = self.put("named")
        self.assert_found(named, named.parent)

    def test_a_folder_without_it(self) -> None:
        self.put("python", "mulkavesh")
        self.assert_missing("there is no libmulkavesh.so in .*/empty: set MULKAVESH_LIB", self.top / "empty")

    def test_a_file_that_is_no_library(self) -> None:
        (self.module / "libmulkavesh.so").write_bytes(b"no library")
        self.assert_missing("/mulkavesh/libmulkavesh.so can't be used: ")

    def test_another_library(self) -> None:
        other = self.put("python", "mulkavesh")
        other.write_bytes(other.read_bytes().replace(b"mulkavesh_stub\0", b"mulkavesh_stab\0"))
        self.assert_missing("can't be used: .*mulkavesh_stub")

    def test_another_version(self) -> None:
        text = (self.module / "__init__.py").read_text(encoding="utf-8")
        (self.module / "__init__.py").write_text(text.replace("\n_VERSION = (0, 1)\n", "\n_VERSION = (0, 2)\n"), encoding="utf-8")
        self.put("python", "mulkavesh")
        self.assert_missing("is of version 0.1, and this package is for 0.2")


class Packed(unittest.TestCase):
    """What pip installs."""

    def test_the_package_is_whole(self) -> None:
        with tempfile.TemporaryDirectory() as folder:
            name = packing.build_wheel(folder)
            with zipfile.ZipFile(pathlib.Path(folder, name)) as packed:
                packed.extractall(folder)
            (told,) = pathlib.Path(folder).glob("*.dist-info")
            for line in (told / "RECORD").read_text(encoding="utf-8").splitlines()[:-1]:
                path, digest, size = line.split(",")
                content = pathlib.Path(folder, path).read_bytes()
                wanted = base64.urlsafe_b64encode(hashlib.sha256(content).digest()).decode().rstrip("=")
                self.assertEqual((digest, size), (f"sha256={wanted}", str(len(content))), path)
            self.assertIn("Version: 0.1.0\nSummary: Drops", (told / "METADATA").read_text(encoding="utf-8"))
            ended = in_python(LOADED, {"PYTHONPATH": folder})
            path = pathlib.Path(folder).resolve() / "mulkavesh" / library().name
            self.assertEqual((ended.stdout, ended.stderr), (f"{path} (0, 1, 0)\n", ""))


class Declared(unittest.TestCase):
    """That what is declared here agrees with the header, and that all is typed."""

    IN_C = {
        "const uint8_t *": ctypes.c_char_p, "size_t ": ctypes.c_size_t, "uint32_t ": ctypes.c_uint32, "uint8_t *": ctypes.c_void_p,
        "size_t *": ctypes.POINTER(ctypes.c_size_t),
    }

    @unittest.skipUnless(HEADER.exists(), "there is no include/mulkavesh.h")
    def test_the_calls_of_the_header(self) -> None:
        declared = {}
        for name, parameters in re.findall(r"^uint32_t (\w+)\(([^;]*)\);", HEADER.read_text(encoding="utf-8"), re.M):
            declared[name] = [self.IN_C[kind] for kind in re.findall(r"(const uint8_t \*|uint8_t \*|uint32_t |size_t \*|size_t )\w", parameters)]
        self.assertEqual(len(declared), 17)
        for name, kinds in declared.items():
            call = getattr(getattr(mulkavesh, "_library"), name)
            self.assertEqual((name, list(call.argtypes), call.restype), (name, kinds, ctypes.c_uint32))

    @unittest.skipUnless(HEADER.exists(), "there is no include/mulkavesh.h")
    def test_the_numbers_of_the_header(self) -> None:
        numbers = {name: int(number) for name, number in re.findall(r"MULKAVESH_(\w+) = (\d+)", HEADER.read_text(encoding="utf-8"))}
        wanted = {name: getattr(mulkavesh, f"_{name}") for name in ("NO_NAMES", "NO_PRODUCERS", "NO_LEGACY", "GC")}
        for of_python, front in ((mulkavesh.Status, ""), (FaultKind, "FAULT_"), (Beginning, "BEGINS_"), (Rule, "RULE_"), (Cause, "CAUSE_"), (Root, "ROOT_")):
            wanted.update((front + name, member.value) for name, member in of_python.__members__.items())
        for of_python, front in (("_OF_LINKS", "KIND_"), ("_OF_EXTERNS", "EXTERN_")):
            wanted.update((front + word.upper(), number) for number, word in enumerate(getattr(mulkavesh, of_python)))
        wanted.update((name, getattr(mulkavesh, f"_{name}")) for name in ("FUNCTION", "SEGMENT"))
        self.assertEqual(numbers, {**wanted, "FAULT_NONE": 0, "ROOT_NONE": 0})

    def test_all_is_typed_and_told(self) -> None:
        for name, function in inspect.getmembers(mulkavesh, inspect.isfunction):
            if function.__module__ != "mulkavesh":
                continue
            hints = typing.get_type_hints(function)
            self.assertEqual(set(hints), {*inspect.signature(function).parameters, "return"}, name)
        for name in mulkavesh.__all__:
            self.assertTrue(inspect.getdoc(getattr(mulkavesh, name)), name)


if __name__ == "__main__":
    unittest.main()
