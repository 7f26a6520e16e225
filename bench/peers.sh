#!/usr/bin/env bash
# Runs the program on modules beside its peers, and prints a table of Markdown: of each module the bytes, of each program the processor's seconds,
# user and system, and the megabytes at the peak, and of each peer in brackets how many times as much of both the program takes; nothing where
# one refuses the module, or isn't there. The peers are binaryen's `wasm-opt -all --remove-unused-module-elements`, on one core by
# BINARYEN_CORES=1 (by taskset it begins as many threads as without), a program that PARITY names, which copies a module from standard input to
# standard output by the crate parity-wasm, wabt's `wasm-strip`, and `cat`. They take turns, and each time is the least of ROUNDS, five where
# none are given. bench/peers.sh FILE.., PROGRAM names another program than the proved one. No part of the gate.
set -eu
here=$(cd "$(dirname "$0")" && pwd)
[ "${1-}" = --told ] || exec "$here/../tools/heartbeat.sh" 15 "bench/peers.sh: measuring" "$here/peers.sh" --told "$@"
shift
[ $# -gt 0 ] || { echo "bench/peers.sh FILE.." >&2; exit 2; }
[ -n "${PROGRAM-}" ] || "$here/../tools/build.sh" walrus_gc
program=${PROGRAM:-$here/../crates/walrus_gc/out/walrus_gc}
export BINARYEN_CORES=1
PYTHONPATH=$here PYTHONDONTWRITEBYTECODE=1 exec python3 - "$program" "${PARITY-}" "${ROUNDS:-5}" "$@" << 'PY'
import os, sys, tempfile
from measuring import compared, in_turns

program, parity, rounds, *modules = sys.argv[1:]
folder = tempfile.TemporaryDirectory()
commands = compared(program, parity, os.path.join(folder.name, "output.wasm"))


def cells(module):
    """What each program takes for a module, the peers beside what the program takes."""
    ours = None
    for name, seconds, peak in in_turns(commands, module, int(rounds)):
        if name == "walrus-gc":
            ours = seconds, peak
        times = f" ({ours[0] / max(seconds, 1e-6):.2f}, {ours[1] / peak:.2f})" if ours and name != "walrus-gc" else ""
        yield name, f"{seconds:.3f}, {peak / 1e6:.1f}{times}"


print("| Module | bytes |", " | ".join(commands), "|")
print("|---|---|" + "---|" * len(commands))
for module in modules:
    told = dict(cells(module))
    name = os.path.basename(module).removesuffix(".wasm")
    print(f"| {name} | {os.path.getsize(module)} |", " | ".join(told.get(it, "") for it in commands), "|", flush=True)
folder.cleanup()
PY
