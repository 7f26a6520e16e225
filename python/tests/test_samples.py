"""The calls `strip`, `sections` and `parts` over the modules of tests/samples, and of ../shared/samples where that is there, beside what stands in them, read anew;
and those under a choice of exports, beside one another.
"""
import pathlib
import unittest
from typing import Callable, Iterator, List, Optional, Tuple

import mulkavesh
from mulkavesh import Item, NotFound, Reason, Section, Sections

TOP = pathlib.Path(__file__).resolve().parent.parent.parent
FOLDERS = (TOP / "tests" / "samples", TOP.parent / "shared" / "samples")
CUSTOM, START, CODE, DATA_COUNT = 0, 8, 10, 12
# NAMEs that say which sections go and which stay, and a test of a name that says the same of both.
CHOICES: List[Tuple[str, List[str], Callable[[str], bool], Callable[[str], bool]]] = [
    (".debug*", [], lambda name: name.startswith(".debug"), lambda name: False),
    ("*", [], lambda name: True, lambda name: False),
    ("*", ["name", "*_*"], lambda name: True, lambda name: name == "name" or "_" in name),
    ("*e*", ["*_*"], lambda name: "e" in name, lambda name: "_" in name),
    ("producers", [], lambda name: name == "producers", lambda name: False),
]


def samples() -> Iterator[Tuple[str, bytes]]:
    """The modules, by their names."""
    return ((path.name, path.read_bytes()) for folder in FOLDERS for path in sorted(folder.glob("*.wasm")))


def number(module: bytes, at: int) -> Tuple[int, int]:
    """The number that stands at a place, and the place behind it."""
    byte = module[at]
    if byte < 128:
        return byte, at + 1
    value, behind = number(module, at + 1)
    return byte - 128 + 128 * value, behind


def section(module: bytes, start: int) -> Section:
    """The section that stands at a place."""
    kind, (size, content) = module[start], number(module, start + 1)
    count, behind = number(module, content)
    name = module[behind : behind + count].decode() if kind == CUSTOM else None
    return Section(kind, name, start, content + size - start, None if kind in (CUSTOM, START, DATA_COUNT) else count)


def sections(module: bytes) -> Iterator[Section]:
    """All that stand in a module."""
    at = 8
    while at < len(module):
        found = section(module, at)
        yield found
        at += found.size


def bodies(module: bytes) -> Iterator[Tuple[int, int]]:
    """The place and the size of the body of each function."""
    for found in sections(module):
        count, at = number(module, number(module, found.start + 1)[1]) if found.id == CODE else (0, 0)
        for _ in range(count):
            size, at = number(module, at)
            yield at, size
            at += size


def without(module: bytes, goes: Callable[[str], bool]) -> bytes:
    """The module without the custom sections that a test of their names takes."""
    stay = (it for it in sections(module) if it.name is None or not goes(it.name))
    return module[:8] + b"".join(module[it.start : it.start + it.size] for it in stay)


def stripped(module: bytes, name: str, keep: List[str]) -> Optional[bytes]:
    """What the library answers, or None where it finds no such section."""
    try:
        return mulkavesh.strip(module, name, keep=keep)
    except NotFound:
        return None


class Samples(unittest.TestCase):
    """Modules of other tools."""

    def test_sections(self) -> None:
        for name, module in samples():
            with self.subTest(name):
                self.assertEqual(mulkavesh.sections(module), Sections([*sections(module)], len(module), True))

    def test_parts(self) -> None:
        for name, module in samples():
            with self.subTest(name):
                parts = mulkavesh.parts(module)
                self.assertEqual([it for it in parts if isinstance(it, Section)], [*sections(module)])
                functions = [it for it in parts if isinstance(it, Item) and it.kind == "function"]
                self.assertEqual([(it.start, it.size) for it in functions], [*bodies(module)])
                indices = [it.index for it in functions]
                self.assertEqual(indices, [*range(indices[0] if indices else 0, len(indices) + (indices[0] if indices else 0))])
                segments = [it for it in parts if isinstance(it, Item) and it.kind == "data"]
                self.assertEqual([it.index for it in segments], [*range(len(segments))])
                for first, second in zip(segments, segments[1:]):
                    self.assertEqual(first.start + first.size, second.start)

    def test_strip(self) -> None:
        gone = 0
        for name, module in samples():
            for goes, stay, is_chosen, stays in CHOICES:
                with self.subTest(name, goes=goes, keep=stay):
                    is_there = any(it.name is not None and is_chosen(it.name) for it in sections(module))
                    wanted = without(module, lambda it: is_chosen(it) and not stays(it)) if is_there else None
                    self.assertTrue(stripped(module, goes, stay) == wanted)
                    gone += len(module) - len(wanted or module)
        self.assertGreater(gone, 100)

    def test_chosen_exports(self) -> None:
        for name, module in samples():
            names = [export.name.replace("*", r"\*") for export in mulkavesh.exports(module)]
            half = len(names) // 2
            for keep, drop in (([], []), (names[:half], []), ([], names[half:]), (names, names[::2])):
                with self.subTest(name, keep=keep, drop=drop):
                    self.choose(module, keep, drop)
            with self.assertRaises(NotFound) as raised:
                mulkavesh.gc(module, keep=names, drop="no export has this name")
            self.assertEqual(raised.exception.name, "no export has this name")

    def choose(self, module: bytes, keep: List[str], drop: List[str]) -> None:
        """What goes and what stays is all that is there, and what is written has what is told to stay."""
        written, report = mulkavesh.gc(module, keep=keep, drop=drop), mulkavesh.report(module, keep=keep, drop=drop)
        stay, go = mulkavesh.list_functions(module, keep=keep, drop=drop), mulkavesh.dropped(module, keep=keep, drop=drop)
        self.assertEqual(sorted(it.size for it in stay), sorted(size for _, size in bodies(written)))
        functions = [it for it in mulkavesh.parts(module) if isinstance(it, Item) and it.kind == "function"]
        self.assertEqual(sorted(it.index for it in stay + go), [it.index for it in functions])
        sizes = {it.index: it.size for it in functions}
        self.assertEqual([it.size for it in go], [sizes[it.index] for it in go])
        self.assertEqual((report.bytes.written, report.bytes.dropped), (len(written), sum(it.size for it in go)))
        self.assertEqual([(it.kind, it.name) for it in mulkavesh.exports(module, keep=keep, drop=drop)], [(it.kind, it.name) for it in mulkavesh.exports(written)])
        of_module, of_written = mulkavesh.imports(module, keep=keep, drop=drop), mulkavesh.imports(written)
        self.assertEqual([(it.kind, it.module, it.name) for it in of_module], [(it.kind, it.module, it.name) for it in of_written])
        self.assertEqual(sum(it.kind == "function" for it in of_module) + len(stay), report.functions.kept)

    def test_reasons(self) -> None:
        for name, module in samples():
            if len(module) < 20_000:
                with self.subTest(name):
                    self.explain(module)

    def explain(self, module: bytes) -> None:
        """Each function that stays has a chain, and with it goes what isn't left where it traps."""
        kept, stay = mulkavesh.report(module).functions.kept, {it.index: it for it in mulkavesh.list_functions(module)}
        for it in mulkavesh.dropped(module):
            self.assertEqual(mulkavesh.why(module, it.index), Reason("function", it.index, (), None, None))
        for index, it in stay.items():
            found = mulkavesh.why(module, index)
            last = found.links[-1]
            self.assertEqual((last.kind, last.index, last.size, last.name), ("function", index, it.size, it.name))
            assert found.alone
            left = mulkavesh.report(mulkavesh.snip(module, index)).functions.kept
            self.assertEqual(found.alone.functions, kept - left + 1)
            self.assertGreaterEqual(found.alone.bytes, it.size)
            callers = mulkavesh.callers(module, index)
            self.assertTrue(len(found.links) == 1 or found.links[-2] in callers)


if __name__ == "__main__":
    unittest.main()
