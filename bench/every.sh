#!/usr/bin/env bash
# Runs the built program on made modules of every section, and on modules of their code alone (bench/make.py every), and prints a table: the
# bytes, the processor seconds, the least of three runs, and the megabytes at the peak of both, and the bytes of memory for each byte that
# isn't code. Says below it whether the time grows as the size, which is that the largest module takes at most three times as long for a
# byte as the smallest, and whether the peak is at most that of the code alone and 16 bytes for each other byte; the status is 1 where
# one of these doesn't hold. With PARTS="types tables exports,globals" it also measures the code with one of these parts, or some, alone.
# bench/every.sh [MEGABYTES..], 1 10 100 where none are given; PROGRAM names another program than the proved one. No part of the gate.
set -eu
here=$(cd "$(dirname "$0")" && pwd)
[ "${1-}" = --told ] || exec "$here/../tools/heartbeat.sh" 15 "bench/every.sh: measuring" "$here/every.sh" --told "$@"
shift
[ -n "${PROGRAM-}" ] || "$here/../tools/build.sh" walrus_gc
[ $# -gt 0 ] || set -- 1 10 100
export PROGRAM=${PROGRAM:-$here/../crates/walrus_gc/out/walrus_gc}
PYTHONPATH=$here PYTHONDONTWRITEBYTECODE=1 exec python3 - "$here/make.py" "$@" << 'PY'
import os, subprocess, sys, tempfile
from measuring import peak_of, run

ROUNDS = 3
BYTES_FOR_A_BYTE = 16
TIMES_FOR_A_BYTE = 3

make, *sizes = sys.argv[1:]
program, parts = os.environ["PROGRAM"], os.environ.get("PARTS", "").split()
folder = tempfile.TemporaryDirectory()
module, output = (os.path.join(folder.name, name) for name in ("in.wasm", "out.wasm"))


def measured(kind, size):
    """The bytes of a made module, the processor seconds and the peak."""
    with open(module, "wb") as file:
        subprocess.run([sys.executable, make, kind, size], stdout=file, check=True)
    seconds = min(run([program], module, output)[1] for _ in range(ROUNDS))
    return os.path.getsize(module), seconds, peak_of([program], module, output)


print(f"{'kind':24} {'MB':>5} {'bytes':>10} {'seconds':>8} {'peak':>7}   {'of code':>10} {'seconds':>8} {'peak':>7}  peak/other byte")
times, costs = [], []
for size in sizes:
    code, code_seconds, code_peak = measured("every:code", size)
    for kind in ["every", *(f"every:{part}" for part in parts)]:
        count, seconds, peak = measured(kind, size)
        cost = (peak - code_peak) / (count - code)
        print(f"{kind:24} {size:>5} {count:10} {seconds:8.2f} {peak / 1e6:7.1f}"
              f"   {code:10} {code_seconds:8.2f} {code_peak / 1e6:7.1f} {cost:8.1f}", flush=True)
        if kind == "every":
            times.append(seconds / count)
            costs.append(cost)
longer, most = times[-1] / times[0], max(costs)
word = lambda holds: "holds" if holds else "FAILS"
print(f"{word(longer <= TIMES_FOR_A_BYTE)}: the last takes {longer:.2f} times as long for a byte as the first, at most {TIMES_FOR_A_BYTE}")
print(f"{word(most <= BYTES_FOR_A_BYTE)}: at most {most:.1f} bytes of memory for each byte that isn't code, at most {BYTES_FOR_A_BYTE}")
folder.cleanup()
sys.exit(0 if longer <= TIMES_FOR_A_BYTE and most <= BYTES_FOR_A_BYTE else 1)
PY
