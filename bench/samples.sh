#!/usr/bin/env bash
# Runs the built program on the modules of tests/samples and of ../shared/samples, beside binaryen's `wasm-opt -all
# --remove-unused-module-elements`, which drops what nothing reaches, and names too, and, where PARITY names it, a program that copies a module
# from standard input to standard output by the crate parity-wasm, which drops nothing. Prints a table of Markdown: of each module the
# bytes, and of each program the processor's milliseconds, the megabytes at the peak and the bytes that come out; nothing where it refuses it.
# The programs take turns, and each time is the least of nine. bench/samples.sh [PROGRAM], the proved one where none is given. No part of the gate.
set -eu
here=$(cd "$(dirname "$0")" && pwd)
[ "${1-}" = --told ] || exec "$here/../tools/heartbeat.sh" 15 "bench/samples.sh: measuring" "$here/samples.sh" --told "$@"
shift
program=${1:-$here/../crates/walrus_gc/out/walrus_gc}
[ $# -gt 0 ] || "$here/../tools/build.sh" walrus_gc
PYTHONPATH=$here PYTHONDONTWRITEBYTECODE=1 exec python3 - "$program" "${PARITY-}" "$here/../tests/samples" "$here/../../shared/samples" << 'PY'
import os, pathlib, shutil, sys, tempfile
from measuring import compared, in_turns

ROUNDS = 9

program, parity, *folders = sys.argv[1:]
modules = {path.name: str(path) for folder in folders for path in pathlib.Path(folder).glob("*.wasm")}
output = os.path.join(tempfile.mkdtemp(), "output.wasm")
is_wanted = {"walrus-gc": True, "wasm-opt": shutil.which("wasm-opt"), "parity-wasm": parity}
commands = {name: command for name, command in compared(program, parity, output).items() if is_wanted.get(name)}


def cells(module):
    """What each program takes for a module."""
    for name, seconds, peak in in_turns(commands, module, ROUNDS):
        yield name, f"{seconds * 1000:.1f}, {peak / 1e6:.1f}, {os.path.getsize(output)}"


print("| Module | bytes |", " | ".join(commands), "|")
print("|---|---|" + "---|" * len(commands))
for name, module in sorted(modules.items()):
    told = dict(cells(module))
    print(f"| {name.removesuffix('.wasm')} | {os.path.getsize(module)} |", " | ".join(told.get(it, "") for it in commands), "|", flush=True)
shutil.rmtree(os.path.dirname(output))
PY
