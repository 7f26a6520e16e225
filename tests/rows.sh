#!/usr/bin/env bash
# Compares what walrus-gc writes and tells of each row of a folder with what the row says.
# tests/rows.sh [--list|--twice] [FOLDER [PROGRAM]], ../shared/rows and the proved program where none is given.
# Prints which rows pass, and their count. With --list it prints the names that pass and nothing else, so that two
# lists can be compared by `diff`. With --twice it runs the program over the output of each row of which a module comes, too: by the
# same words the same bytes have to come out, and by --report the same numbers for both, with nothing dropped.
# A row is NAME.wasm (the input), NAME.args (words, one a line; there need be none) and NAME.expect:
#   bytes in hexadecimal   status 0, these bytes, and nothing on standard error
#   ACCEPT                 status 0
#   TEXT and lines         status 0, and these lines
#   E2                     refused as invalid: status 1, the line that says so, and nothing written
#   S2                     an unknown word: status 2, the line that says so, and nothing written
# Where the folder isn't there, nothing is run, and the status is 2.
set -eu
top=$(cd "$(dirname "$0")/.." && pwd)
way=
case ${1-} in --list | --twice) way=$1 && shift ;; esac
folder=${1:-$top/../shared/rows}
[ -d "$folder" ] || { echo "tests/rows.sh: there is no folder $folder, so nothing is run" >&2; exit 2; }
program=${2:-$top/crates/walrus_gc/out/walrus_gc}
[ $# -gt 1 ] || "$top/tools/build.sh" walrus_gc
exec python3 - "$program" "$folder" $way << 'PY'
import pathlib, subprocess, sys

INVALID = b"walrus-gc: The input WebAssembly is invalid\n"
UNKNOWN = b"walrus-gc: unknown word\n"


def wanted(expect):
    """The status, standard output and standard error of a row, None for what may be anything."""
    word, _, rest = expect.partition("\n")
    if word.strip() == "TEXT":
        return 0, rest.encode(), b""
    plain = {"E2": (1, b"", INVALID), "S2": (2, b"", UNKNOWN), "ACCEPT": (0, None, b"")}
    return plain.get(word.strip()) or (0, bytes.fromhex(expect), b"")


def words_of(row):
    words = row.with_suffix(".args")
    return words.read_text().splitlines() if words.exists() else []


def run(program, words, module):
    return subprocess.run([program, *words], input=module, capture_output=True, timeout=60, check=False)


def why_not(program, row):
    """Why a row doesn't pass, or None."""
    ran = run(program, words_of(row), row.read_bytes())
    status, output, told = wanted(row.with_suffix(".expect").read_text())
    if ran.returncode != status:
        return f"status {ran.returncode}, and not {status}: {ran.stderr.decode(errors='replace').strip()}"
    if output is not None and ran.stdout != output:
        return f"other bytes: {ran.stdout.hex(' ').upper()}" if len(ran.stdout) < 200 else "other bytes"
    return None if ran.stderr == told else f"other words: {ran.stderr.decode(errors='replace').strip()}"


def comes_out(row):
    """Whether a module has to come out of a row."""
    return row.with_suffix(".expect").read_text().split()[:1] not in (["E2"], ["S2"], ["TEXT"])


def why_not_again(program, row):
    """Why the output of a row isn't its own output, or its report and that of its output differ or drop something, or None."""
    once = run(program, words_of(row), row.read_bytes())
    if once.returncode != 0:
        return f"status {once.returncode} at the first run"
    twice = run(program, words_of(row), once.stdout)
    if (twice.returncode, twice.stdout, twice.stderr) != (0, once.stdout, b""):
        return f"status {twice.returncode}, and other bytes at the second run: {twice.stdout.hex(' ').upper()[:600]}"
    first, second = (run(program, ["--report"], ran.stdout) for ran in (once, twice))
    if first.returncode != 0 or first.stdout != second.stdout:
        return "the reports differ"
    lines = first.stdout.decode().splitlines()
    return None if len(lines) == 7 and all(line.endswith(" dropped 0") for line in lines) else "something is dropped"


program, folder, way = sys.argv[1], pathlib.Path(sys.argv[2]), sys.argv[3:]
only_list, is_twice = way == ["--list"], way == ["--twice"]
rows = sorted(row for row in folder.glob("*.wasm") if row.with_suffix(".expect").exists())
if is_twice:
    rows = [row for row in rows if comes_out(row)]
passed = 0
for row in rows:
    why = why_not_again(program, row) if is_twice else why_not(program, row)
    passed += why is None
    if only_list and why is None:
        print(row.stem)
    elif not only_list:
        print(f"{'pass' if why is None else 'FAIL'} {row.stem}{'' if why is None else ': ' + why}")
if not only_list:
    print(f"{passed} of {len(rows)} rows pass" + (" twice" if is_twice else ""))
PY
