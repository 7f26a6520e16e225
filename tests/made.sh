#!/usr/bin/env bash
# Compares what walrus-gc writes of made modules with what wabt makes of their kept parts, byte for byte.
# tests/made.sh [PROGRAM], the proved program where none is given.
# Of each text NAME.wat of tests/made wabt's wat2wasm makes a module, and of NAME.kept.wat what has to be kept of it. What the program writes of the
# module has to be the same bytes, and wabt's wasm-validate has to accept it too. Prints a line a module and the count. Where wabt (Debian's package
# of that name, which tools/install.sh puts in) isn't there, nothing is run, and the status is 2.
set -eu
top=$(cd "$(dirname "$0")/.." && pwd)
command -v wat2wasm > /dev/null || { echo "tests/made.sh: there is no wat2wasm, so nothing is run" >&2; exit 2; }
program=${1:-$top/crates/walrus_gc/out/walrus_gc}
[ $# -gt 0 ] || "$top/tools/build.sh" walrus_gc
features=(--enable-multi-memory --enable-memory64 --enable-exceptions --enable-threads --enable-extended-const)
files=$(mktemp -d)
trap 'rm -rf "$files"' EXIT

# Whether what comes of a module is what has to be kept of it, and is valid.
comes_out() {
  wat2wasm "${features[@]}" "$1.wat" -o "$files/in" && wat2wasm "${features[@]}" "$1.kept.wat" -o "$files/kept" || return 1
  "$program" --no-producers < "$files/in" > "$files/out" 2> "$files/told" || { echo "status $?: $(cat "$files/told")"; return 1; }
  cmp -s "$files/kept" "$files/out" || { echo "other bytes: $(od -An -v -tx1 "$files/out" | tr -d '\n')"; return 1; }
  wasm-validate "${features[@]}" "$files/out" || return 1
  echo "$(stat -c %s "$files/in") bytes, kept $(stat -c %s "$files/out")"
}

all=0 passed=0
for text in "$top"/tests/made/*.kept.wat; do
  name=${text%.kept.wat} all=$((all + 1)) word=FAILED
  if told=$(comes_out "$name"); then
    passed=$((passed + 1)) word=pass
  fi
  printf '%-7s %-20s %s\n' "$word" "$(basename "$name")" "$told"
done
echo "of $passed of $all made modules what has to be kept comes out"
[ "$all" -gt 0 ] && [ "$passed" = "$all" ]
