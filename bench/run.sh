#!/usr/bin/env bash
# Runs the built program on made modules and prints a table: time, bytes a second, peak memory, memory a byte of input,
# beside `cat` of the same file. bench/run.sh [MEGABYTES..], 1 10 100 where none are given; KINDS="group tables" measures other kinds of
# modules than small, mixed and huge (bench/make.py). No part of the gate.
set -eu
here=$(cd "$(dirname "$0")" && pwd)
[ "${1-}" = --told ] || exec "$here/../tools/heartbeat.sh" 15 "bench/run.sh: measuring" "$here/run.sh" --told "$@"
shift
program=$here/../crates/walrus_gc/out/walrus_gc
"$here/../tools/build.sh" walrus_gc
files=$(mktemp -d)
trap 'rm -rf "$files"' EXIT
[ $# -gt 0 ] || set -- 1 10 100

# seconds and peak kilobytes of a command that reads $1 and writes $2
measure() {
  local input=$1 output=$2
  shift 2
  python3 - "$input" "$output" "$@" <<'PY'
import os, resource, sys, time
source, sink, command = sys.argv[1], sys.argv[2], sys.argv[3:]
begin = time.monotonic()
pid = os.fork()
if pid == 0:
    os.dup2(os.open(source, os.O_RDONLY), 0)
    os.dup2(os.open(sink, os.O_WRONLY | os.O_CREAT | os.O_TRUNC, 0o644), 1)
    os.execvp(command[0], command)
_, status, usage = os.wait4(pid, 0)
print(f"{time.monotonic() - begin:.3f} {usage.ru_maxrss} {os.waitstatus_to_exitcode(status)}")
PY
}

printf '%-6s %6s %12s %9s %9s %9s %10s %9s %6s\n' kind MB bytes seconds cat MB/s peak-MB mem/byte status
for megabytes in "$@"; do
  for kind in ${KINDS:-small mixed huge}; do
    python3 "$here/make.py" "$kind" "$megabytes" > "$files/in.wasm"
    size=$(stat -c %s "$files/in.wasm")
    read -r seconds peak status < <(measure "$files/in.wasm" "$files/out.wasm" "$program" --no-producers)
    read -r plain _ _ < <(measure "$files/in.wasm" "$files/copy.wasm" cat)
    python3 -c "
size, seconds, plain, peak = $size, $seconds, $plain, $peak
print(f'{\"$kind\":6} {\"$megabytes\":>6} {size:12} {seconds:9.3f} {plain:9.3f} {size / 1e6 / max(seconds, 1e-3):9.1f} {peak / 1024:10.1f} {peak * 1024 / size:9.1f} $status')"
  done
done
