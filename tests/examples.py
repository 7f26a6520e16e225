#!/usr/bin/env python3
"""Compares what the example programs of rust and python leave of modules with what a validator and an engine say. tests/examples.sh calls it.

tests/examples.py BUILT MODULES.. : BUILT is where cargo left the examples of rust, each of MODULES a folder.

Each of the ten programs changes each module that wasm-validate holds valid, but object files and what has relocations. What it leaves has to be valid again. Modules
that run in node answer calls of their exports then as they did before, but where the program is to change that; and two made ones answer what was worked out by hand.
Prints the counts and a line for each find.
"""
import json
import pathlib
import subprocess
import sys
import tempfile
from typing import Any, Dict, List, Optional, Sequence

TOP = pathlib.Path(__file__).resolve().parent.parent
sys.path.insert(0, str(TOP / "python"))
sys.dont_write_bytecode = True

import mulkavesh  # noqa: E402
from mulkavesh.module import FUNCTION, Module  # noqa: E402

IN_RUST = ("snip_pattern", "stub_wasi", "call_at_start", "bind", "roundtrip", "split")
IN_PYTHON = ("keep_exports", "rename", "count_bytes_asked", "build_id")
# A number of each type, by its place among the arguments.
NUMBERS = (7, 5, 3, 2)
# Not called: what waits for other threads, and what would take the numbers for addresses of what is made before.
NOT_CALLED = ("wait", "sqlite3_step", "sqlite3_finalize", "sqlite3_prepare_v2", "sqlite3_exec", "sqlite3_close", "sqlite3_open", "dynCall_jiji")
BUILD_ID = "0102ff"
FIBONACCI = """(module
  (func $fib (export "fib") (param i32) (result i32)
    local.get 0 i32.const 2 i32.lt_s if (result i32) local.get 0 else
      local.get 0 i32.const 1 i32.sub call $fib local.get 0 i32.const 2 i32.sub call $fib i32.add end)
  (func $apply (export "apply") (param i32) (result i32) local.get 0 i32.const 0 call_indirect (param i32) (result i32))
  (table 1 funcref) (elem (i32.const 0) $fib))"""
# Function 4, which nothing else exports, is one that the section `descriptors` names.
BOUND = """(module
  (import "__placeholder__" "log" (func $log (param i32))) (import "__placeholder__" "keep" (func $keep (param i32) (result i32)))
  (func (export "greet") (param i32) (result i32) local.get 0 i32.const 11 i32.add call $log local.get 0 call $keep i32.const 16 i32.add)
  (func (export "__describe_greet") unreachable)
  (func $closure (param i32) (result i32) local.get 0 call $log local.get 0 i32.const 100 i32.sub))"""


class Tries:
    """The programs, run in a folder of their own."""

    def __init__(self, built: pathlib.Path, work: pathlib.Path) -> None:
        self.built, self.work = built, work
        self.valid = self.run = self.finds = 0

    def find(self, text: str) -> None:
        self.finds += 1
        print("FIND", text)

    def left(self, program: str, source: pathlib.Path, *words: str) -> Optional[pathlib.Path]:
        """What a program leaves of a module, where that is valid."""
        target = self.work / f"{program}.wasm"
        target.unlink(missing_ok=True)
        command = [str(self.built / program)] if program in IN_RUST else [sys.executable, "-B", str(TOP / "python" / "examples" / f"{program}.py")]
        ended = subprocess.run([*command, str(source), str(target), *words], capture_output=True, text=True, check=False, env={"PYTHONPATH": str(TOP / "python"), **ENV})
        if ended.returncode != 0:
            self.find(f"{program} {source.name}: {ended.stderr.strip()}")
            return None
        if not is_valid(target):
            self.find(f"{program} {source.name}: what it leaves isn't valid")
            return None
        self.valid += 1
        return target

    def answers(self, plan: Dict[str, Any], *files: pathlib.Path) -> Optional[List[Dict[str, Any]]]:
        """What the modules answer in node, or None where they can't be linked there."""
        path = self.work / "plan.json"
        path.write_text(json.dumps(plan), encoding="utf-8")
        ended = subprocess.run(["node", str(TOP / "tests" / "run.mjs"), str(path), *map(str, files)], capture_output=True, text=True, check=False, timeout=60)
        return [json.loads(line) for line in ended.stdout.splitlines()] if ended.returncode == 0 else None

    def same(self, program: str, source: pathlib.Path, target: Optional[pathlib.Path], plan: Dict[str, Any], **told: Any) -> None:
        """Whether both answer the same, and the second one has what is told."""
        if target is None:
            return
        both = self.answers(plan, source, target)
        if both is None:
            self.find(f"{program} {source.name}: it can't be run any more")
            return
        before, after = both
        self.run += 1
        for key in ("answers", "written"):
            told.setdefault(key, before[key])
        wrong = {key: (after.get(key), value) for key, value in told.items() if not (value(after.get(key)) if callable(value) else after.get(key) == value)}
        if wrong:
            self.find(f"{program} {source.name}: {wrong}")


ENV = {"MULKAVESH_LIB": str(pathlib.Path(mulkavesh._library._name).parent), "PATH": "/usr/bin:/bin"}


def is_valid(path: pathlib.Path) -> bool:
    return subprocess.run(["wasm-validate", "--enable-all", str(path)], capture_output=True, check=False).returncode == 0


def is_taken(path: pathlib.Path) -> bool:
    """Whether the library takes a module that is valid, and it has no relocations."""
    data = path.read_bytes()
    if not is_valid(path) or mulkavesh.diagnose(data) is not None:
        return False
    return not any((it.name or "").startswith(("linking", "reloc.")) for it in mulkavesh.sections(data).sections)


def calls_of(module: Module) -> List[List[str]]:
    """A call of each exported function that takes and gives numbers."""
    calls = []
    for export in module.exports.values():
        if export.item.kind == FUNCTION and export.name not in NOT_CALLED:
            type_ = module.types[module.funcs[export.item.id].type]
            if type_.params is not None and set((*type_.params, *(type_.results or ()))) <= {"i32", "i64", "f32", "f64"}:
                calls.append([export.name, *(f"{ty}:{NUMBERS[at % 4]}" for at, ty in enumerate(type_.params))])
    return calls


def try_module(tries: Tries, path: pathlib.Path) -> bool:
    """Has each program change a module; whether it runs."""
    data = path.read_bytes()
    module = Module(data)
    plan: Dict[str, Any] = {"calls": calls_of(module)}
    runs = bool(plan["calls"]) and tries.answers(plan, path) is not None

    def compared(program: str, target: Optional[pathlib.Path], asked: Dict[str, Any] = plan, **told: Any) -> None:
        if runs:
            tries.same(program, path, target, asked, **told)

    dropped = [it.name for it in mulkavesh.dropped(data) if it.name and len(it.name) > 3]
    kept = {it.name or "" for it in module.funcs.values()} - set(dropped)
    word = next((it for it in dropped if not any(it in name for name in kept)), "no such word")
    compared("snip_pattern", tries.left("snip_pattern", path, word))
    wasi = [it for it in module.imports.values() if it.module == "wasi_snapshot_preview1"]
    stubbed = tries.left("stub_wasi", path)
    if wasi:
        compared("stub_wasi", stubbed, written="", answers=lambda it: it is not None, imports=lambda it: not any("wasi" in name for name in it))
    else:
        compared("stub_wasi", stubbed)
    compared("call_at_start", tries.left("call_at_start", path), entered=lambda count: count > 0)
    compared("bind", tries.left("bind", path))
    compared("roundtrip", tries.left("roundtrip", path))
    names = [it.name for it in module.exports.values()]
    first = next((call for call in plan["calls"]), None)
    if names:
        memories = [it.name for it in module.exports.values() if it.item.kind == "memory"]
        kept_exports = tries.left("keep_exports", path, *([first[0]] if first else names[:1]), *memories)
        compared("keep_exports", kept_exports, {"calls": [first]})
        maps = tries.work / "map.json"
        renamed = {name: f"other_{name}" for name in names}
        maps.write_text(json.dumps({"modules": {"wasi_snapshot_preview1": "wasi"}, "exports": renamed}), encoding="utf-8")
        compared("rename", tries.left("rename", path, str(maps)), {**plan, "renamed": renamed}, imports=lambda it: "wasi_snapshot_preview1.fd_write" not in it)
    asks = any(it.name in ("malloc", "dlmalloc", "__rust_alloc", "__rdl_alloc") for it in module.funcs.values())
    compared("count_bytes_asked", tries.left("count_bytes_asked", path), bytes_asked=(lambda it: int(it) > 0) if asks and "malloc" in names else (lambda it: int(it) >= 0))
    compared("build_id", tries.left("build_id", path, BUILD_ID), customs=[f"{len(BUILD_ID) // 2:02x}{BUILD_ID}"])
    named = [it.name for it in module.funcs.values() if it.body and it.name]
    split = [call for call in plan["calls"] if call[0] in named]
    if split and not wasi:
        target = tries.left("split", path, split[0][0])
        compared("split", target, {"calls": [split[0]], "from": str(path)}, imports=lambda it: f"deferred.{split[0][0]}" in it)
    elif named:
        tries.left("split", path, named[0])
    return runs


def try_made(tries: Tries) -> None:
    """Modules of which the answers were worked out by hand."""
    fibonacci, bound = tries.work / "fibonacci.wasm", tries.work / "bound.wasm"
    for path, text in ((fibonacci, FIBONACCI), (bound, BOUND)):
        path.with_suffix(".wat").write_text(text, encoding="utf-8")
        subprocess.run(["wat2wasm", str(path.with_suffix(".wat")), "-o", str(path)], check=True)
    bound.write_bytes(bound.read_bytes() + b"\0\x10\x0Bdescriptors\4\0\0\0")
    # fib(10) makes 177 calls, and apply(3) those of fib(3) and one more.
    plan: Dict[str, Any] = {"calls": [["fib", "i32:10"], ["apply", "i32:3"]]}
    tries.same("call_at_start", fibonacci, tries.left("call_at_start", fibonacci), plan, answers=["55", "2"], entered=177 + 5 + 1)
    more = {"calls": [["fib", "i32:10"], ["less_five", "i64:50", "f32:0"], ["counter"], ["counter"]]}
    tries.same("roundtrip", fibonacci, tries.left("roundtrip", fibonacci), more, answers=["55", "45", "undefined", "undefined"], count="2")
    greet = {"calls": [["greet", "i32:5"], ["closure_0", "i32:3"], ["__describe_greet"]], "logs": True}
    wanted = {"answers": ["5016", "-97", "gone"], "logs": [[16, 7], [3, 7]], "imports": ["./bindings.js.keep", "./bindings.js.log_with_level"]}
    tries.same("bind", bound, tries.left("bind", bound), greet, **wanted)


def main(built: str, folders: Sequence[str]) -> int:
    paths = {path.name: path for folder in folders for path in sorted(pathlib.Path(folder).glob("*.wasm"))}
    with tempfile.TemporaryDirectory() as work:
        tries = Tries(pathlib.Path(built), pathlib.Path(work))
        try_made(tries)
        taken = [path for path in paths.values() if is_taken(path)]
        ran = [path for path in taken if try_module(tries, path)]
    print(f"tests/examples.sh: {len(IN_RUST) + len(IN_PYTHON)} programs, {len(taken)} of {len(paths)} modules: {tries.valid} outputs are valid; of {len(ran)} modules that run, and two "
          f"made ones, {tries.run} outputs answer as they have to; {tries.finds} finds")
    return 1 if tries.finds else 0


if __name__ == "__main__":
    sys.exit(main(sys.argv[1], sys.argv[2:]))
