#!/usr/bin/env bash
# Tries the wrong edits of tests/edits/CRATE/, which the gate leaves out for its time, on a copy of the repository: the prover has to
# refuse each. To run when the crate, or one below it, changed. Those of different functions are tried at once (edits.py): some five seconds an
# edit; what isn't refused so takes a check of the whole crate from nothing, and then ten to thirty seconds each. Prints a line an edit and the
# counts. No part of the gate.
# tools/edits.sh [CRATE..], all crates where none is given; LANES=N works on N crates at a time (1 to 4 GB of memory each), 2 where it isn't set.
set -eu
top=$(cd "$(dirname "$0")/.." && pwd)
[ $# -gt 0 ] || set -- $(ls "$top/tests/edits")
for crate in "$@"; do
  [ -d "$top/tests/edits/$crate" ] || { echo "tools/edits.sh: there is no folder tests/edits/$crate" >&2; exit 1; }
  "$top/tools/build.sh" "$crate"
done
room=$(mktemp -d)
trap 'rm -rf "$room"' EXIT
tar -C "$top" --exclude=out/incremental --exclude=must-fail -cf - HANDLES crates.txt crates | tar -C "$room" -xf -
git -C "$room" init -q
for crate in "$@"; do
  cp -a "$top/tests/edits/$crate" "$room/crates/$crate/must-fail"
done
cd "$room"
all=$(ls crates/*/must-fail/*.edit | wc -l)
try='python3 "$0" . "$1" > "told.$1" 2>&1; ! ls "crates/$1/must-fail/"*.edit > still.$1 2>&1 || rt must-fail "$1" >> "told.$1" 2>&1; cat "told.$1"'
printf '%s\n' "$@" | "$top/tools/heartbeat.sh" 15 "tools/edits.sh: trying" xargs -P "${LANES:-2}" -I{} sh -c "$try" "$top/tools/edits.py" {}
refused=$(cat told.* | grep -c ': refused, as it must be' || true)
echo "$refused of $all wrong edits are refused"
[ "$refused" = "$all" ]
