#!/usr/bin/env bash
# Compares what the calls from JavaScript answer, and what the page shows, with what walrus-gc writes and with answers that were worked out by hand.
# tests/web.sh [FOLDER [PROGRAM]], the folder that web/build.sh left and the proved program where none are given, or those of web/build.sh --unproved
# and of tools/unproved.sh. The callers stand in tests/web.
#   worked.mjs   each call on modules whose bytes were worked out by hand (and faults.txt), an error of each kind, each way to load, memory that grows, runs
#                out and is let go
#   beside.mjs   the modules of tests/samples, ../shared/samples (where it is there), made ones of tests/made (where wabt is there) and 2,000 mutants of them,
#                beside the program under its words: the same bytes and statuses, and a fault where it refuses; `sections`, `strip` and `exports` beside what
#                stands there; half of the exports chosen in several ways; chains, callers and what would go with a function beside lists and what `snip` leaves
#   fields.mjs   each field of each item of a small module, changed by `mulkavesh/module`
#   module.mjs   modules that are changed by `mulkavesh/module`: a small one; those of tests/samples and ../shared/samples beside `gc`,
#                `snip` and `stub`; and a program over the packages' types, where a TypeScript compiler is (Debian's node-typescript)
#   browser.py   the page in a headless Chromium (where one is there; chromium.py drives it): drops, the counts, lists, chains and download of these modules,
#                with all exports ticked and with some, beside the program and the library; keys alone, refusals, 20 MB, the policy, wide and narrow.
#                MULKAVESH_SCREENS names a folder for screenshots
# Prints the counts and a line for each find. Where there is no node, nothing is run, and the status is 2. A minute of one processor.
set -eu
exec < /dev/null
top=$(cd "$(dirname "$0")/.." && pwd)
command -v node > /dev/null || { echo "tests/web.sh: there is no node, so nothing is run" >&2; exit 2; }
folder=${1:-$top/web/dist}
program=${2:-$top/crates/walrus_gc/out/walrus_gc}
[ $# -gt 0 ] || "$top/web/build.sh"
[ $# -gt 1 ] || "$top/tools/build.sh" walrus_gc
folder=$(realpath -- "$folder") program=$(realpath -- "$program")
work=$(mktemp -d)
trap 'rm -rf -- "$work"' EXIT
status=0

# The mutants that the other tests make by this seed, of the modules that the program takes and that have less than 100,000 bytes.
make_mutants() {
  python3 - "$top/tests" "$program" "$work/mutants" "$@" << 'PY'
import pathlib
import random
import subprocess
import sys

sys.dont_write_bytecode = True
tests, program, out, *folders = sys.argv[1:]
sys.path.insert(0, tests)
from hostile import mutated

modules = [path.read_bytes() for folder in folders for path in sorted(pathlib.Path(folder).glob("*.wasm"))]
bases = [it for it in modules if len(it) < 100_000 and subprocess.run([program], input=it, capture_output=True, check=False).returncode == 0]
for which in range(2000):
    (pathlib.Path(out) / f"mutant-{which:04}.wasm").write_bytes(mutated(random.Random(f"73:{which}"), bases))
PY
}

modules=("$top/tests/samples")
[ ! -d "$top/../shared/samples" ] || modules+=("$top/../shared/samples")
real=("${modules[@]}")
if command -v wat2wasm > /dev/null; then
  features=(--enable-multi-memory --enable-memory64 --enable-exceptions --enable-threads --enable-extended-const)
  mkdir "$work/made" && modules+=("$work/made")
  for text in "$top"/tests/made/*.wat; do wat2wasm "${features[@]}" "$text" -o "$work/made/$(basename "$text" .wat).wasm"; done
else
  echo "not compared: made modules, since there is no wat2wasm"
fi
mkdir "$work/mutants" && make_mutants "${modules[@]}"
node "$top/tests/web/worked.mjs" "$folder" || status=1
node "$top/tests/web/beside.mjs" "$folder" "$program" "$work/mutants" "${modules[@]}" || status=1
node "$top/tests/web/fields.mjs" "$folder" || status=1
node "$top/tests/web/module.mjs" "$folder" "${real[@]}" || status=1
if command -v tsc > /dev/null; then
  mkdir -p "$work/types/node_modules" && ln -s "$folder" "$work/types/node_modules/mulkavesh" && cp "$top/tests/web/types.mts" "$work/types"
  (cd "$work/types" && tsc --strict --noEmit --module node16 --moduleResolution node16 --target es2022 --lib es2022,dom types.mts) || { echo "FIND types.mts" && status=1; }
else
  echo "not compared: the types, since there is no TypeScript compiler"
fi
if chromium=$("$top/tests/web/chromium.sh"); then
  python3 "$top/tests/web/browser.py" "$chromium" "$folder" "$program" "${real[@]}" || status=1
else
  echo "not run: the page, since there is no Chromium"
fi
[ "$status" = 0 ] && echo "tests/web.sh: no finds" || echo "tests/web.sh: there are finds"
exit "$status"
