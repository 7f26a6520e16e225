#!/usr/bin/env bash
# Compares what the calls from Rust answer with what walrus-gc writes, and with answers that were worked out by hand.
# tests/rust.sh [FOLDER [PROGRAM]], the static library that tools/build.sh mulkavesh_c left and the proved program where none are given, or those of
# tools/unproved.sh. The crates stand in rust; they need no others, so nothing is fetched, and nothing is left in the tree.
#   header.py    the declarations of mulkavesh-sys are compared with the sources (tools/header.py)
#   cargo test   each call on worked modules, in the tests and in the docs, `diagnose` and refusals on the bytes of faults.txt, and all on those of
#                tests/samples and ../shared/samples (where it is there): `gc`, `report` and `diagnose` beside the program, over mutants of the small
#                ones too, `sections` and `strip` beside what stands in them, and the other calls beside one another; in four threads at once. Modules that are
#                changed: each field of each item of small ones, those of the samples beside `gc`, `snip`, `stub` and `strip`, and the examples that change one
#   cargo doc    without a warning
#   shrink_last  the example, on a module in a file: it is what the program writes, alone; and what is refused stays as it was, and what is wrong is told
# Prints the counts and a line for each find. Where there is no cargo, nothing is run, and the status is 2. Half a minute of one processor.
set -eu
top=$(cd "$(dirname "$0")/.." && pwd)
cargo --version > /dev/null 2>&1 || { echo "tests/rust.sh: there is no cargo, so nothing is run" >&2; exit 2; }
folder=${1:-$top/crates/mulkavesh_c/out/lib}
program=${2:-$top/crates/walrus_gc/out/walrus_gc}
[ $# -gt 0 ] || "$top/tools/build.sh" mulkavesh_c
[ $# -gt 1 ] || "$top/tools/build.sh" walrus_gc
work=$(mktemp -d)
trap 'rm -rf -- "$work"' EXIT
status=0
MULKAVESH_LIB=$(realpath -- "$folder")
MULKAVESH_PROGRAM=$(realpath -- "$program")
export MULKAVESH_LIB MULKAVESH_PROGRAM CARGO_TARGET_DIR=$work/target

find_is() {
  echo "FIND $1"
  status=1
}

# Whether the example leaves what the program writes in the place of a module, and other bytes as they were; and no file beside them.
shrinks() {
  mkdir "$work/files" && cp "$top/tests/samples/c22-shared.wasm" "$work/files/module" && echo "no module" > "$work/files/other"
  : > "$work/said"
  "$MULKAVESH_PROGRAM" --no-names < "$work/files/module" > "$work/wanted"
  "$CARGO_TARGET_DIR/debug/examples/shrink_last" --no-names "$work/files/module" > "$work/said" 2>&1 || return 1
  ! "$CARGO_TARGET_DIR/debug/examples/shrink_last" "$work/files/other" 2>> "$work/said" || return 1
  grep -q "invalid: the bytes don't begin as a WebAssembly module" "$work/said" || return 1
  cmp "$work/files/module" "$work/wanted" && [ "$(cat "$work/files/other")" = "no module" ] && [ "$(find "$work/files" -type f | wc -l)" = 2 ]
}

"$top/tools/header.py" || status=1
cargo test --offline --locked --no-fail-fast --workspace --manifest-path "$top/rust/Cargo.toml" > "$work/told" 2>&1 || find_is "cargo test: status $?"
[ "$status" = 0 ] || grep -Ev '^(test .* ok|running|$)' "$work/told" | tail -n 60
grep -oE '(not )?compared: .*' "$work/told" | awk '!seen[$0]++ { print "tests/rust.sh: " $0 }'
awk '/^test result:/ { passed += $4; failed += $6 } END { printf "tests/rust.sh: %d tests passed, %d failed\n", passed, failed }' "$work/told"
RUSTDOCFLAGS="-D warnings" cargo doc --quiet --offline --locked --no-deps --workspace --manifest-path "$top/rust/Cargo.toml" > "$work/told" 2>&1 ||
  find_is "cargo doc: $(grep -m 3 -E '^(error|warning)' "$work/told")"
shrinks || find_is "shrink_last leaves other files: $(cat "$work/said")"
[ "$status" = 0 ] && echo "tests/rust.sh: no finds" || echo "tests/rust.sh: there are finds"
exit "$status"
