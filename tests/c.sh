#!/usr/bin/env bash
# Compares what the calls of the C interface answer with what walrus-gc writes, and with answers that were worked out by hand.
# tests/c.sh [--lists COUNT] [FOLDER [PROGRAM]], the libraries that tools/build.sh mulkavesh_c left and the proved program where none are given, or those of tools/unproved.sh.
# The callers stand in tests/c; each is compiled against both libraries, the static and the shared one.
#   call.c     over the modules of tests/samples, the made ones of tests/made (where wabt is there), ../shared/samples and ../shared/rows (where they are there), and
#              2,000 mutants of them, beside the program: the same bytes and statuses; over the bytes of faults.txt; each request for memory refused in turn; what
#              `sections` and `strip` answer beside what stands in the bytes; and what is made under a choice of exports beside what is made of modules whose
#              exports were taken away by hand, and reasons beside lists (c.py and roots.py say what else); items beside what stands in the bytes, edits of every kind,
#              and lists of edits beside what gc, snip, stub and strip make (edit_lists.py)
#   lists.c    10,000 lists of edits that were mutated, of all kinds in turn, within 20 times their memory and 64 MB (edit_mutants.py); with --lists nothing but so many
#              lists of each kind: 10,000 of each take some two minutes of one processor
#   rooms.c    in rooms of every length, which end where no memory is, on small modules; and again under AddressSanitizer, in blocks of their size
#   threads.c  in four threads at once
# The header is compared with the sources (tools/header.py) and compiled as C and as C++, and the shared library has to show nothing but the calls. Prints the counts
# and a line for each find. Where there is no C compiler, nothing is run, and the status is 2. Two minutes of one processor.
set -eu
lists=''
[ "${1-}" != --lists ] || { lists=$2 && shift 2; }
top=$(cd "$(dirname "$0")/.." && pwd)
cc=${CC:-cc}
command -v "$cc" > /dev/null || { echo "tests/c.sh: there is no C compiler, so nothing is run" >&2; exit 2; }
folder=${1:-$top/crates/mulkavesh_c/out/lib}
program=${2:-$top/crates/walrus_gc/out/walrus_gc}
[ $# -gt 0 ] || "$top/tools/build.sh" mulkavesh_c
[ $# -gt 1 ] || [ -n "$lists" ] || "$top/tools/build.sh" walrus_gc
work=$(mktemp -d)
trap 'kill $(jobs -p) 2> /dev/null && wait; rm -rf -- "$work"' EXIT
status=0
flags=(-O1 -g -Wall -Wextra -Werror "-I$top/include")

# A caller over the static library, and one over the shared library.
compile() {
  "$cc" "${flags[@]}" "$top/tests/c/$1.c" "$folder/libmulkavesh.a" -pthread -o "$work/$1"
  "$cc" "${flags[@]}" "$top/tests/c/$1.c" "-L$folder" "-Wl,-rpath,$(realpath "$folder")" -lmulkavesh -pthread -o "$work/$1-shared"
}

# Whether the shared library shows the calls and nothing else.
shows_calls() {
  nm -D --defined-only "$folder/libmulkavesh.so" | awk '{ print $3 }' | sort > "$work/shown"
  "$top/tools/exports.py" --names mulkavesh_c | sort | diff - "$work/shown"
}

modules=("$top/tests/samples")
[ ! -d "$top/../shared/samples" ] || modules+=("$top/../shared/samples")
[ ! -d "$top/../shared/rows" ] || modules+=("$top/../shared/rows")
if command -v wat2wasm > /dev/null; then
  features=(--enable-multi-memory --enable-memory64 --enable-exceptions --enable-threads --enable-extended-const)
  mkdir "$work/made" && modules+=("$work/made")
  for text in "$top"/tests/made/*.wat; do wat2wasm "${features[@]}" "$text" -o "$work/made/$(basename "$text" .wat).wasm"; done
else
  echo "not compared: made modules, since there is no wat2wasm"
fi
if [ -n "$lists" ]; then
  for caller in call lists; do compile "$caller"; done
  "$top/tests/edit_mutants.py" --each "$lists" "$work/lists" "$work/call" "${modules[@]}" || status=1
  exit "$status"
fi

"$top/tools/header.py" || status=1
"$cc" -std=c99 -pedantic-errors -Wall -Wextra -Werror -fsyntax-only -x c "$top/include/mulkavesh.h" || status=1
if command -v c++ > /dev/null; then
  c++ -pedantic-errors -Wall -Wextra -Werror -fsyntax-only -x c++ "$top/include/mulkavesh.h" || status=1
fi
for caller in call lists rooms threads; do compile "$caller"; done
shows_calls || { echo "FIND the shared library shows other names" && status=1; }
"$cc" -O1 -shared -fPIC -o "$work/refused.so" "$top/tests/refused.c"

small=("$work/none.wasm" "$work/empty.wasm")
printf '\0asm\1\0\0\0' > "$work/none.wasm" && : > "$work/empty.wasm"
mapfile -t -O 2 small < <(find "$top/tests/samples" -name '*.wasm' -size -1000c | sort)
runs=("rooms" "threads" "threads-shared")
if "$cc" "${flags[@]}" -fsanitize=address -DIN_BLOCKS "$top/tests/c/rooms.c" "$folder/libmulkavesh.a" -o "$work/rooms-asan" 2> "$work/told"; then
  "$cc" "${flags[@]}" -fsanitize=address "$top/tests/c/threads.c" "$folder/libmulkavesh.a" -pthread -o "$work/threads-asan"
  runs+=("rooms-asan" "threads-asan")
else
  echo "not compared: rooms under AddressSanitizer, which the compiler doesn't have"
fi
# These side by side, and what is held against the program meanwhile.
waiting=()
for run in "${runs[@]}"; do
  "$work/$run" "${small[@]}" > "$work/$run.told" 2>&1 &
  waiting+=($!)
done
"$top/tests/c.py" "$program" "$work/call" "$work/call-shared" "$work/refused.so" 2000 "${modules[@]}" || status=1
"$top/tests/edit_mutants.py" 10000 "$work/lists" "$work/call" "${modules[@]}" || status=1
for which in "${!runs[@]}"; do
  wait "${waiting[which]}" || { echo "FIND ${runs[which]}: status $?" && status=1; }
  sed "s/^/tests\/c.sh: ${runs[which]}: /" "$work/${runs[which]}.told"
done
[ "$status" = 0 ] && echo "tests/c.sh: no finds" || echo "tests/c.sh: there are finds"
exit "$status"
