#!/usr/bin/env python3
"""Compares each run of walrus-gc to which memory is refused with the run that has ample memory:

    tests/refused.py PROGRAM SCENES LIBRARY FOLDER..

It is what tests/refused.sh runs. A folder that isn't there is passed over. LIBRARY is refused.c as a shared library. A module's words stand in
NAME.args, one a line, where that is there.
"""
import os
import pathlib
import resource
import subprocess
import sys

# Of larger modules only the address space is made less.
MOST_BYTES = 6_000
OUT_OF_MEMORY = (1, b"", b"walrus-gc: out of memory\n")
# How the program of scenes ends, whichever request fails.
ALL_STANDS = (0, b"all stands\n", b"")
# Rows whose counts lie, and under how many bytes of address space they have to be answered as with ample memory.
LYING_ROWS = ("01-20", "R12.3")
LITTLE = 64 << 20
# From one try to the next, and where that begins.
SHARE, AMPLE = 0.9, 1 << 30


def run(command, data, space=None, **how):
    """Status, output and what is told of a run, within so much address space."""
    limit = space and (lambda: resource.setrlimit(resource.RLIMIT_AS, (space, space)))
    ran = subprocess.run(command, input=data, capture_output=True, preexec_fn=limit, timeout=120, check=False, **how)
    return ran.returncode, ran.stdout, ran.stderr


def words_of(path):
    words = path.with_suffix(".args")
    return words.read_text(encoding="utf-8").splitlines() if words.exists() else []


def requests_of(command, data, library):
    """How a run with ample memory ends, and how many requests it makes."""
    reader, writer = os.pipe()
    ample = run(command, data, env={**os.environ, "LD_PRELOAD": library, "REFUSED": "0", "TOLD": str(writer)}, pass_fds=(writer,))
    os.close(writer)
    with os.fdopen(reader) as told:
        return ample, int(told.read())


def refused_in_turn(command, data, library):
    """The runs of which one request each fails: how many, and those that end as none should."""
    ample, count = requests_of(command, data, library)
    for number in range(1, count + 1):
        ended = run(command, data, env={**os.environ, "LD_PRELOAD": library, "REFUSED": str(number)})
        yield number, None if ended in (ample, OUT_OF_MEMORY) else ended


def scenes_in_turn(command, library):
    """The same of the program of scenes, which has to end as ever; and one with ample memory."""
    ample, count = requests_of(command, b"", library)
    yield 0, None if ample == ALL_STANDS else ample
    for number in range(1, count + 1):
        ended = run(command, b"", env={**os.environ, "LD_PRELOAD": library, "REFUSED": str(number)})
        yield number, None if ended == ALL_STANDS else ended


def starts(program, space):
    """Whether the program is started at all within so much address space: an unknown word is answered then."""
    return run([program, "--unknown"], b"", space)[0] == 2


def in_less_space(program, command, data):
    """The same of runs within less and less address space."""
    ample, space = run(command, data), AMPLE
    while starts(program, space):
        ended = run(command, data, space)
        yield f"{space >> 20} MB", None if ended in (ample, OUT_OF_MEMORY) else ended
        space = int(space * SHARE)


def lies(path, command, data):
    """A row whose counts lie, in little space."""
    if path.stem in LYING_ROWS:
        ended = run(command, data, LITTLE)
        yield f"{LITTLE >> 20} MB", None if ended == run(command, data) else ended


def tries_of(path, program, library):
    """All tries of a module."""
    data, command, is_row = path.read_bytes(), [program, *words_of(path)], path.parent.name == "rows"
    yield from lies(path, command, data)
    if len(data) <= MOST_BYTES:
        yield from refused_in_turn(command, data, library)
    if not is_row:
        yield from in_less_space(program, command, data)


def told(name, tries):
    """Prints the finds among these tries, and answers how many there are of both."""
    runs = finds = 0
    for what, ended in tries:
        runs += 1
        if ended:
            finds += 1
            print(f"FIND {name}, {what}: status {ended[0]}, {len(ended[1])} bytes, {(ended[2] or ended[1])[:80]!r}")
    return runs, finds


def main():
    program, scenes, library, *folders = sys.argv[1:]
    modules = [path for folder in folders for path in sorted(pathlib.Path(folder).glob("*.wasm"))]
    counts = [told("scenes", scenes_in_turn([scenes], library))]
    print(f"tests/refused.sh: {counts[0][0]} runs of the scenes, {counts[0][1]} finds", flush=True)
    counts += (told(path.name, tries_of(path, program, library)) for path in modules)
    runs, finds = map(sum, zip(*counts))
    print(f"tests/refused.sh: {runs} runs with less memory, {finds} finds")
    sys.exit(finds > 0 or not modules)


if __name__ == "__main__":
    main()
