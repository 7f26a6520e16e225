#!/usr/bin/env bash
# Compares what wasm_copy and walrus-gc write of real modules with what went in, and the names in these with those that other tools found.
# tests/samples.sh [FOLDER..], where none is given tests/samples and, where it is there, ../shared/samples.
# First it looks whether walrus-gc gets its words. Each module is copied by wasm_copy, which also reads the copy and compares the records, and the
# copy is copied, which has to stay as it is. The names that wasm_copy lists are held against those of tests/names, first those of its stored run.
# Last walrus-gc is run over each module, and kept.py says in what its output is compared with the input. Prints a line a file and the counts.
# `.ci/run` runs it behind the gate.
set -eu
top=$(cd "$(dirname "$0")/.." && pwd)
if [ $# = 0 ]; then
  set -- "$top/tests/samples"
  [ ! -d "$top/../shared/samples" ] || set -- "$@" "$top/../shared/samples"
fi
"$top/tools/build.sh" wasm_copy
"$top/tools/build.sh" walrus_gc
program=$top/crates/wasm_copy/out/wasm_copy
smaller=$top/crates/walrus_gc/out/walrus_gc
files=$(mktemp -d)
trap 'rm -rf "$files"' EXIT

# The modules of the folders, one of several of the same name.
modules() {
  find "$@" -maxdepth 1 -name '*.wasm' -printf '%f\t%p\n' | sort -u -t "$(printf '\t')" -k 1,1 | cut -f 2
}

# Whether the module is copied, and the copy stays as it is.
is_copied() {
  "$program" --again < "$1" > "$files/copy" 2> "$files/told" || { echo "status $?: $(cat "$files/told")"; return 1; }
  "$program" < "$files/copy" > "$files/again" 2> "$files/told" || { echo "its copy: status $?: $(cat "$files/told")"; return 1; }
  cmp -s "$files/copy" "$files/again" || { echo "its copy is copied as other bytes"; return 1; }
  cmp -s "$1" "$files/copy" && echo "the same bytes" || echo "$(stat -c %s "$files/copy") bytes"
}

# Whether the names that the program lists for the module are those of the list, of which there need be none.
is_listed() {
  [ -e "$2" ] || { echo "no list"; return 0; }
  "$program" --names < "$1" > "$files/names" 2> "$files/told" || { echo "names: status $?: $(cat "$files/told")"; return 1; }
  python3 "$top/tests/expected-names.py" --shorten < "$files/names" > "$files/short"
  cmp -s "$files/short" "$2" || { echo "other names"; return 1; }
  echo "$(wc -l < "$files/names") names"
}

# Writes the bytes that the digits say.
bytes() {
  printf "$(sed 's/../\\x&/g' <<< "$1")"
}

# Whether the program gets each of its words: over a module with names and a legacy try two words leave the names out and add no producers,
# and a third refuses it.
are_heard() {
  bytes "0061736D0100000001080260000060017F00030201000D03010001070501016600000A0C010A00067F410007000B1A0B000F046E616D650002016D010401000161" > "$files/named"
  bytes "0061736D01000000010D0360000060017F0060017F017F030201000D03010001070501016600000A0C010A00067F410007000B1A0B" > "$files/wanted"
  "$smaller" --no-names --no-producers < "$files/named" > "$files/heard" 2> "$files/told" || { echo "status $?: $(cat "$files/told")"; return 1; }
  cmp -s "$files/heard" "$files/wanted" || { echo "other bytes at two words"; return 1; }
  if "$smaller" --no-names --no-producers --no-legacy < "$files/named" > "$files/heard" 2> "$files/told"; then
    echo "not refused at three words"
    return 1
  fi
  [ "$(cat "$files/told")" = "walrus-gc: The input WebAssembly is invalid" ] && [ ! -s "$files/heard" ] || { echo "not refused as invalid"; return 1; }
}

if told=$(are_heard); then
  echo "the words of walrus_gc: heard"
else
  echo "the words of walrus_gc: FAILED: $told" && exit 1
fi

if told=$(is_listed "$top/crates/wasm_copy/stdin" "$top/tests/names/every.txt"); then
  echo "the stored run: $told"
else
  echo "the stored run: FAILED: $told" && exit 1
fi

mapfile -t all_modules < <(modules "$@")
copied=0 listed=0 all=0
for module in "${all_modules[@]}"; do
  all=$((all + 1)) word=FAILED
  if told=$(is_copied "$module"); then
    copied=$((copied + 1)) word=copied
  fi
  if names=$(is_listed "$module" "$top/tests/names/$(basename "$module" .wasm).txt"); then
    listed=$((listed + 1))
  else
    word=FAILED
  fi
  printf '%-7s %8s bytes as %-15s %-12s %s\n' "$word" "$(stat -c %s "$module")" "$told" "$names" "$(basename "$module")"
done
echo "$copied of $all modules are copied, of $listed the names are listed as they are"

kept=yes
"$top/tests/kept.py" "$smaller" "$program" "${all_modules[@]}" || kept=no
[ "$all" -gt 0 ] && [ "$copied" = "$all" ] && [ "$listed" = "$all" ] && [ "$kept" = yes ]
