#!/usr/bin/env bash
# Proves and builds a crate, with all crates below it, and says on standard error how far it is: tools/build.sh CRATE.
# A program stands in crates/CRATE/out/CRATE then. Where no source is newer than what is built, it ends at once.
#   tools/build.sh --is-new FILE CRATE   builds nothing: status 0 where FILE is there and no source that CRATE stands on is newer, else 1
#   tools/build.sh --needs NAME          builds nothing: where there is no rt or no python3, NAME says so in a line, and the status is 1
set -eu
top=$(cd "$(dirname "$0")/.." && pwd)

# The crate and all crates of the repository that it stands on, by crates.txt.
crates_of() {
  awk -v crate="$1" '
    { sub(/#.*/, "") }
    split($0, half, ":") == 2 { split(half[1], head, " "); below[head[1]] = half[2] }
    function tell(name,    names, count, at) {
      if (!(name in below) || told[name]++) return
      print name
      count = split(below[name], names, " ")
      for (at = 1; at <= count; at++) tell(names[at])
    }
    END { tell(crate) }' "$top/crates.txt"
}

# Whether nothing is newer than the file: the same sources as in build.py.
is_new() {
  local parts=() crate part
  [ -f "$1" ] || return 1
  for crate in $(crates_of "$2"); do
    for part in src specs proofs; do
      [ ! -e "$top/crates/$crate/$part" ] || parts+=("$top/crates/$crate/$part")
    done
  done
  [ -z "$(find "$top/crates.txt" "${parts[@]}" -newer "$1" -print -quit)" ]
}

# Whether the commands are there.
needs() {
  local name=$1 command from
  shift
  for command; do
    [ "$command" = rt ] && from=', which comes with the Rattle kit' || from=''
    command -v "$command" > /dev/null || { echo "$name: there is no command $command$from; README.md, \"Quick start\", says what a build needs" >&2; return 1; }
  done
}

case "$#${1-}" in
  3--is-new) is_new "$2" "$3" ;;
  2--needs) needs "$2" rt python3 ;;
  *) needs build python3 && exec python3 "$top/tools/build.py" "$@" ;;
esac
