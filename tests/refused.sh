#!/usr/bin/env bash
# Compares each run of walrus-gc to which memory is refused with the run that has ample memory.
# tests/refused.sh [PROGRAM [SCENES]], the proved ones where none is given. On each row of ../shared/rows and
# each small module of tests/samples and ../shared/samples every request for memory fails in turn; then all modules are run under less and less
# address space. Each run has to end as with ample memory, or with status 1, `out of memory` and nothing written. Of SCENES (walrus_refusals), which
# makes the calls of the library again that lack memory, every request fails in turn too, and each run has to print `all stands`. Prints a line for
# each find, and the counts (refused.py). It needs a C compiler, and takes three to six minutes. No part of the gate.
set -eu
top=$(cd "$(dirname "$0")/.." && pwd)
program=${1:-$top/crates/walrus_gc/out/walrus_gc}
scenes=${2:-$top/crates/walrus_refusals/out/walrus_refusals}
[ $# -gt 0 ] || "$top/tools/build.sh" walrus_gc
[ $# -gt 1 ] || "$top/tools/build.sh" walrus_refusals
room=$(mktemp -d)
trap 'rm -rf "$room"' EXIT
cc -O1 -shared -fPIC -o "$room/refused.so" "$top/tests/refused.c"
python3 -B "$top/tests/refused.py" "$program" "$scenes" "$room/refused.so" "$top/tests/samples" "$top/../shared/samples" "$top/../shared/rows"
