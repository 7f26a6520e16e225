#!/usr/bin/env bash
# Compares what the calls from Python answer with what walrus-gc writes, and with answers that were worked out by hand.
# tests/python.sh [FOLDER [PROGRAM]], the shared library that tools/build.sh mulkavesh_c left and the proved program where none are given, or those of
# tools/unproved.sh. It runs the tests of python/tests:
#   test_mulkavesh.py  each call and each refusal on worked modules and on the bytes of faults.txt, in threads too; how the library is found; what is declared,
#                      beside the header; packing
#   test_samples.py    `strip` and `sections` of the modules of tests/samples and ../shared/samples (where it is there), beside what stands in them
#   test_fields.py     each field of each item of small modules, changed by itself
#   test_module.py     modules that are changed: a small one, those modules beside `gc`, `snip` and `stub`, and the examples
#   test_program.py    these modules beside the program, under all words: the same bytes, and a fault where it refuses
# and has mypy look at the types of the package and of its examples (pyproject.toml), where it is there.
# Prints a line, and all that fails. PYTHON names another Python. Where there is none from 3.8 on, nothing is run, and the status is 2. Some ten seconds of one
# processor.
set -eu
top=$(cd "$(dirname "$0")/.." && pwd)
python=${PYTHON:-python3}
"$python" -c 'import sys; sys.exit(sys.version_info < (3, 8))' 2> /dev/null || {
  echo "tests/python.sh: there is no Python from 3.8 on, so nothing is run" >&2
  exit 2
}
folder=${1:-$top/crates/mulkavesh_c/out/lib}
program=${2:-$top/crates/walrus_gc/out/walrus_gc}
[ $# -gt 0 ] || "$top/tools/build.sh" mulkavesh_c
[ $# -gt 1 ] || "$top/tools/build.sh" walrus_gc
told=$(mktemp)
trap 'rm -f -- "$told" "$told.types"' EXIT
MULKAVESH_LIB=$(realpath -- "$folder")
MULKAVESH_PROGRAM=$(realpath -- "$program")
export MULKAVESH_LIB MULKAVESH_PROGRAM
status=0
(cd "$top/python" && "$python" -B -W error -m unittest) > "$told" 2>&1 || status=1
if [ "$status" = 0 ]; then
  grep -a '^not compared' "$told" || true
else
  cat "$told"
fi
if command -v mypy > /dev/null; then
  (cd "$top/python" && mypy --no-incremental --cache-dir=/dev/null) > "$told.types" 2>&1 || { cat "$told.types" && status=1; }
  echo "tests/python.sh: mypy: $(tail -n 1 "$told.types")"
else
  echo "not compared: the types, since there is no mypy"
fi
version=$("$python" -c 'import platform; print(platform.python_version())')
echo "tests/python.sh: Python $version: $(grep -a '^Ran ' "$told" || echo "no tests ran"): $(tail -n 1 "$told")"
exit "$status"
