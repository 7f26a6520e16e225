#!/usr/bin/env python3
"""Compares the code transform that a program tells with what wabt's wasm-objdump finds in the same bytes:

    tests/transform.py PROGRAM MODULE..

PROGRAM writes a module again, with the transform as lines in front of its bytes (transform.sh makes it). Of each module that is accepted, and
that wasm-objdump reads whole:

- The ranges are the bodies of the functions, each once, and so many, and the count of functions stands at its place, by the sizes in the bytes.
- Of each operator that wasm-objdump lists in the input the place is a location, and of no others; its pair's place is that of an operator of the
  output with the same mnemonic, of the same function; and each operator of the output has one.

Prints a line a module, and the counts; the status is 1 where one of these doesn't hold.
"""
import pathlib
import re
import subprocess
import sys
import tempfile


class Wrong(Exception):
    """What doesn't hold of a transform."""


def demand(holds, text):
    if not holds:
        raise Wrong(text)


def number_at(module, at):
    """The number at this place, and where it ends."""
    number = shift = 0
    while True:
        byte = module[at]
        at += 1
        number |= (byte & 127) << shift
        shift += 7
        if byte < 128:
            return number, at


def bodies_of(module):
    """The place of the count of functions, and the start and the end of each body, by the sizes in the bytes."""
    at = 8
    while at < len(module):
        name = module[at]
        size, at = number_at(module, at + 1)
        if name == 10:
            start = at
            count, at = number_at(module, at)
            bodies = []
            for _ in range(count):
                size, at = number_at(module, at)
                bodies.append((at, at + size))
                at += size
            return start, bodies
        at += size
    return 0, []


def operators_of(path):
    """The place and the mnemonic of each operator in a body, as wasm-objdump lists them, or None where it doesn't read all."""
    ran = subprocess.run(["wasm-objdump", "-d", path], capture_output=True, timeout=300, check=False)
    if ran.returncode or ran.stderr:
        return None
    found = []
    for line in ran.stdout.decode("utf-8", "replace").splitlines():
        match = re.match(r" ([0-9a-f]{6,}): ([0-9a-f ]*)\| *(\S+)?", line)
        if match and match[3] and not match[3].startswith("local["):
            found.append((int(match[1], 16), match[3]))
    # A long operator goes on in lines of its own, without a mnemonic; and bytes that it can't read are lines too.
    return found


def told(program, path):
    """What the program tells of the module: ranges by id, the place of the count, pairs of places; and the bytes that it wrote."""
    with open(path, "rb") as module:
        ran = subprocess.run([program], stdin=module, capture_output=True, timeout=300, check=False)
    if ran.returncode:
        return None
    ranges, pairs, count, at = [], [], None, 0
    while True:
        end = ran.stdout.index(b"\n", at)
        word, *numbers = ran.stdout[at:end].split()
        numbers = [int(number) for number in numbers]
        at = end + 1
        if word == b"range":
            ranges.append(tuple(numbers))
        elif word == b"count":
            count = numbers[0]
        elif word == b"place":
            pairs.append(tuple(numbers))
        else:
            demand(len(ran.stdout) - at == numbers[0], "the bytes are as many as is told")
            return ranges, count, pairs, ran.stdout[at:]


def compare(program, path, folder):
    answer = told(program, path)
    if answer is None:
        return "refused"
    ranges, count, pairs, output = answer
    written = pathlib.Path(folder) / "written.wasm"
    written.write_bytes(output)
    place, bodies = bodies_of(output)
    demand([f for f, _, _ in ranges] == sorted({f for f, _, _ in ranges}), "ranges rise by id")
    demand(sorted((start, end) for _, start, end in ranges) == bodies, "the ranges are the bodies")
    demand(count == place, "the count's place")
    demand(pairs == sorted(pairs) and len({old for old, _ in pairs}) == len(pairs), "places rise")
    before, after = operators_of(path), operators_of(written)
    if before is None or after is None:
        return f"{len(ranges)} ranges; wasm-objdump doesn't read all operators"
    old, new = dict(before), dict(after)
    demand({a for a, _ in pairs} == set(old), "the locations are the places of the input's operators")
    demand({b for _, b in pairs} == set(new) and len({b for _, b in pairs}) == len(pairs), "the places are those of the output's operators, each once")
    for a, b in pairs:
        demand(old[a] == new[b], f"the operator at {a}, {old[a]}, is at {b} {new[b]}")
    _, first = bodies_of(path.read_bytes())
    inside(pairs, first, bodies)
    return f"{len(ranges)} ranges, {len(pairs)} places"


def inside(pairs, before, after):
    """The operators of a body stay together, in their order."""
    ends = sorted(before)
    at, last = 0, None
    for old, new in pairs:
        while at < len(ends) and old >= ends[at][1]:
            at, last = at + 1, None
        demand(at < len(ends) and ends[at][0] <= old, "a location lies in a body")
        if last is None:
            home = [body for body in after if body[0] <= new < body[1]]
            demand(len(home) == 1, "a place lies in a body")
        demand(home[0][0] <= new < home[0][1] and (last is None or last < new), "the operators of a body stay together")
        last = new


def main(program, *paths):
    passed = 0
    with tempfile.TemporaryDirectory() as folder:
        for path in map(pathlib.Path, paths):
            try:
                text, word = compare(program, path, folder), "pass"
                passed += 1
            except Wrong as wrong:
                text, word = str(wrong), "FAILED"
            print(f"{word:7} {path.name:34} {text}", flush=True)
    print(f"the transform of {passed} of {len(paths)} modules holds")
    return 0 if paths and passed == len(paths) else 1


if __name__ == "__main__":
    sys.exit(main(*sys.argv[1:]))
