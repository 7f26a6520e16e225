#!/usr/bin/env bash
# Runs the built program wasm_copy on made modules and on the modules of ../shared/samples, and prints a table: the megabytes
# a second that `cat` copies, that `dd` copies by one buffer of the file's size (it takes as much memory as the file), that
# are read and checked (--read), and that are copied, this as a share of the first two; and the peak memory of the last two.
# bench/wire.sh [MEGABYTES..], 1 10 100 where none are given. No part of the gate.
set -eu
here=$(cd "$(dirname "$0")" && pwd)
[ "${1-}" = --told ] || exec "$here/../tools/heartbeat.sh" 15 "bench/wire.sh: measuring" "$here/wire.sh" --told "$@"
shift
program=$here/../crates/wasm_copy/out/wasm_copy
"$here/../tools/build.sh" wasm_copy
files=$(mktemp -d)
trap 'rm -rf "$files"' EXIT
[ $# -gt 0 ] || set -- 1 10 100

# a line of the table for the modules behind $1 (a kind) and $2 (megabytes, or a count of files)
line() {
  PYTHONPATH=$here PYTHONDONTWRITEBYTECODE=1 python3 - "$program" "$files/out" "$@" <<'PY'
import os, sys
from measuring import measure, whole_copy

ROUNDS = 9

program, sink, kind, size, modules = *sys.argv[1:5], sys.argv[5:]
count = sum(os.path.getsize(module) for module in modules)
cat, _ = measure(lambda _: ["cat"], modules, sink, ROUNDS)
dd, _ = measure(whole_copy, modules, sink, ROUNDS)
read, read_peak = measure(lambda _: [program, "--read"], modules, sink, ROUNDS)
copy, copy_peak = measure(lambda _: [program], modules, sink, ROUNDS)
rate = lambda seconds: f"{count / 1e6 / seconds:7.1f}"
print(f"{kind:8} {size:>4} {count:10} {rate(cat)} {rate(dd)} {rate(read)} {rate(copy)} {cat / copy:8.2f} {dd / copy:7.2f}"
      f" {read_peak / 1e6:9.1f} {copy_peak / 1e6:9.1f} {copy_peak / count:8.1f}")
PY
}

echo "MB/s, and peak memory in MB"
printf '%-8s %4s %10s %7s %7s %7s %7s %8s %7s %9s %9s %8s\n' kind MB bytes cat dd read copy copy/cat copy/dd read-peak copy-peak mem/byte
for megabytes in "$@"; do
  for kind in code small entries; do
    python3 "$here/make.py" "$kind" "$megabytes" > "$files/in.wasm"
    line "$kind" "$megabytes" "$files/in.wasm"
  done
done
samples=$here/../../shared/samples
[ ! -d "$samples" ] || line samples - "$samples"/*.wasm
