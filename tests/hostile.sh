#!/usr/bin/env bash
# Compares what walrus-gc does on mutated modules with what it may do: its status, output, time and memory.
# tests/hostile.sh [COUNT [SEED [PROGRAM]]], 10,000, 1 and the proved program where none are given.
# The modules that are mutated are those of tests/samples, and of ../shared/samples and ../shared/rows where these are there. A crash, a run of more
# than ten seconds, more memory than 64 times the input and 50 MB, an unsettled output, or one that wabt refuses though it takes the input is a find,
# and the status is 1 then. A thousand take some ten to twenty seconds on 4 processors (hostile.py). No part of the gate.
set -eu
top=$(cd "$(dirname "$0")/.." && pwd)
count=${1:-10000} seed=${2:-1} program=${3:-$top/crates/walrus_gc/out/walrus_gc}
[ $# -gt 2 ] || "$top/tools/build.sh" walrus_gc
set -- "$top/tests/samples"
for folder in "$top/../shared/samples" "$top/../shared/rows"; do
  [ ! -d "$folder" ] || set -- "$@" "$folder"
done
exec "$top/tests/hostile.py" --seed "$seed" --jobs "$(nproc)" "$count" "$program" "$@"
