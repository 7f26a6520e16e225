#!/usr/bin/env bash
# Compares what the example programs that change modules leave with what wabt's wasm-validate and node say of it.
# tests/examples.sh [FOLDER], the libraries that tools/build.sh mulkavesh_c left where none is given, or those of tools/unproved.sh.
#   examples.py  has each program of rust/mulkavesh/examples and of python/examples that changes a module change those of tests/samples and ../shared/samples (where it
#                is there): what is left is valid, and what runs answers as before
# Prints the counts and a line for each find. Where there is no cargo, node, python3 or wabt, nothing is run, and the status is 2. A minute of one processor.
set -eu
top=$(cd "$(dirname "$0")/.." && pwd)
for command in cargo node python3 wasm-validate wat2wasm; do
  command -v "$command" > /dev/null || { echo "tests/examples.sh: there is no $command, so nothing is run" >&2; exit 2; }
done
folder=${1:-$top/crates/mulkavesh_c/out/lib}
[ $# -gt 0 ] || "$top/tools/build.sh" mulkavesh_c
work=$(mktemp -d)
trap 'rm -rf -- "$work"' EXIT
MULKAVESH_LIB=$(realpath -- "$folder")
export MULKAVESH_LIB CARGO_TARGET_DIR=$work/target
cargo build --quiet --offline --locked --examples --manifest-path "$top/rust/Cargo.toml"
modules=("$top/tests/samples")
[ ! -d "$top/../shared/samples" ] || modules+=("$top/../shared/samples")
python3 "$top/tests/examples.py" "$work/target/debug/examples" "${modules[@]}"
