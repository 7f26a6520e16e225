#!/usr/bin/env bash
# Compares what mulkavesh writes with what walrus-gc writes and the library answers, and the files it leaves with those that have to be there.
# tests/program.sh [PROGRAM [WALRUS_GC [FOLDER]]], the proved programs and library that tools/build.sh left where none are given, or those of tools/unproved.sh.
# The program is run as a user does. What program.py tries, over the modules of tests/samples, ../shared/samples (where it is there) and made ones:
#   gc and report beside WALRUS_GC, under all words: the same bytes and statuses; list, strip, snip, stub and why beside the library in FOLDER, by the package for Python
#   the bytes of faults.txt: what check writes of them, and the line of each other subcommand that refuses them
#   files and streams, as IN and as OUT: links, rights, a named pipe, a device, IN as OUT; each failure, after which OUT is as it was and no file is beside it
#   a disk that is full, where this user may mount one; another user, where this one is root; a pipe that nobody reads; a list of a million lines into `head`
#   terminals, by Python's pty: from one nothing is read, and to one no module is written, but where `-` says so; the lines of docs/USING.md
#   arguments that say nothing, of which nothing is read, with the line that is told of each; the forms of options; --json by Python's json; --help, --version, the completions, the manual page (where groff is there)
# Prints a line for each find and for what isn't tried, and the counts. Where there is no Python from 3.8 on, nothing is run, and the status is 2. A minute or less of
# one processor.
set -eu
top=$(cd "$(dirname "$0")/.." && pwd)
python=${PYTHON:-python3}
"$python" -c 'import sys; sys.exit(sys.version_info < (3, 8))' 2> /dev/null || {
  echo "tests/program.sh: there is no Python from 3.8 on, so nothing is run" >&2
  exit 2
}
program=${1:-$top/crates/mulkavesh/out/mulkavesh}
walrus_gc=${2:-$top/crates/walrus_gc/out/walrus_gc}
folder=${3:-$top/crates/mulkavesh_c/out/lib}
[ $# -gt 0 ] || "$top/tools/build.sh" mulkavesh
[ $# -gt 1 ] || "$top/tools/build.sh" walrus_gc
[ $# -gt 2 ] || "$top/tools/build.sh" mulkavesh_c
MULKAVESH_LIB=$(realpath -- "$folder")
export MULKAVESH_LIB
exec "$python" -B -W error "$top/tests/program.py" "$(realpath -- "$program")" "$(realpath -- "$walrus_gc")"
