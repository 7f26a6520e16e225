#!/usr/bin/env bash
# For a change in hand: checks the form, says which crates it proves again and for how long, and checks the changed ones, lowest first,
# and then those above them: tools/day.sh [--dry] [FILE|CRATE..], what git calls changed where none is named; --dry checks no crate.
exec python3 -B "$(dirname "$0")/day.py" "$@"
