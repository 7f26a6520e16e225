"""The calls `gc` and `report` over the modules of tests/samples, and of ../shared/samples where that is there, beside the program walrus-gc: the same bytes;
and `diagnose`, which has to say that nothing is wrong exactly where the program accepts.

The program is the one that the environment variable MULKAVESH_PROGRAM names, or else that of crates/walrus_gc/out.
"""
import os
import pathlib
import subprocess
import sys
import unittest
from typing import List, Tuple

import mulkavesh
from tests import worked

TOP = pathlib.Path(__file__).resolve().parent.parent.parent
PROGRAM = os.environ.get("MULKAVESH_PROGRAM") or str(TOP / "crates" / "walrus_gc" / "out" / "walrus_gc")
FOLDERS = (TOP / "tests" / "samples", TOP.parent / "shared" / "samples")
WORDS = ("--no-names", "--no-producers", "--no-legacy")
INVALID = (1, b"", b"walrus-gc: The input WebAssembly is invalid\n")


def of_program(module: bytes, words: List[str]) -> Tuple[int, bytes, bytes]:
    """The status of the program, what it writes, and what it tells."""
    ran = subprocess.run([PROGRAM, *words], input=module, stdout=subprocess.PIPE, stderr=subprocess.PIPE, check=False)
    return ran.returncode, ran.stdout, ran.stderr


def lines(report: mulkavesh.Report) -> str:
    """The lines of the program for what is kept and dropped."""
    kinds = ("functions", "tables", "memories", "tags", "globals", "elements", "data")
    return "".join(f"{kind} kept {getattr(report, kind).kept} dropped {getattr(report, kind).dropped}\n" for kind in kinds)


def of_call(module: bytes, words: List[str]) -> Tuple[int, bytes, bytes]:
    """What the program has to do under these words, by the calls."""
    names, producers, legacy = (word not in words for word in WORDS)
    try:
        if "--report" in words:
            return 0, lines(mulkavesh.report(module, names=names, producers=producers, legacy=legacy)).encode(), b""
        return 0, mulkavesh.gc(module, names=names, producers=producers, legacy=legacy), b""
    except mulkavesh.InvalidModule:
        return INVALID


def setUpModule() -> None:
    if not os.access(PROGRAM, os.X_OK):
        print(f"\nnot compared with the program: there is no {PROGRAM}", file=sys.stderr)
        raise unittest.SkipTest("there is no program")


class BesideTheProgram(unittest.TestCase):
    """Under all words."""

    def compare(self, module: bytes, words: List[str]) -> None:
        wanted, fault = of_program(module, words), mulkavesh.diagnose(module, legacy="--no-legacy" not in words)
        self.assertTrue(of_call(module, words) == wanted)
        self.assertEqual(fault is not None, wanted == INVALID, fault)

    def test_samples(self) -> None:
        modules = {path.name: path.read_bytes() for folder in FOLDERS for path in sorted(folder.glob("*.wasm"))}
        self.assertGreater(len(modules), 2)
        for name, module in modules.items():
            for which in range(16):
                words = [word for bit, word in enumerate((*WORDS, "--report")) if which >> bit & 1]
                with self.subTest(name, words=words):
                    self.compare(module, words)

    def test_what_is_no_module(self) -> None:
        for module in (b"", b"no module", *(module for _, _, _, module, _ in worked.faults())):
            for words in ([], ["--no-legacy"]):
                with self.subTest(module=module.hex(" "), words=words):
                    self.compare(module, words)


if __name__ == "__main__":
    unittest.main()
