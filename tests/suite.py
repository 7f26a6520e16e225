#!/usr/bin/env python3
"""Compares what walrus-gc accepts and refuses with what test scripts of the standard say of the same binary modules:

    tests/suite.py PROGRAM FOLDER SCRIPT..

PROGRAM is walrus-gc, a SCRIPT a file *.wast, as those of the standard's repository (test/core), or those that binaryen's sources hold (test/spec);
wabt's `wast2json` makes its modules. Leaves in FOLDER the modules that the program accepts, for `tests/kept.py`. Prints what is not as the script
says, and the counts; the status is 1 where there is such.

- What the script calls a module, also one that can't be linked or traps as it starts, is accepted.
- What it calls malformed is refused, but where a later edition, or this profile, takes it: LATER says for which fault, of which bytes, and why.
- What it calls invalid is refused where the fault is one of RULES; it may be either else: operand types and alignments aren't checked.
Modules in text are left out, and so is a script that `wast2json` doesn't read.
"""
import collections
import json
import pathlib
import re
import subprocess
import sys
import tempfile

SHOWN = ("refused", "accepted: operand types, alignments, or what a later edition takes")
ACCEPTED = ("module", "assert_unlinkable", "assert_uninstantiable")
RULES = ("unknown ", "duplicate export name", "size minimum must", "memory size must", "start function")
# A fault by the words of a script, the bytes that are taken all the same, and why.
OFFSET = re.compile(rb"[\x28-\x3E][\x00-\x3F][\x80-\xFF]{4,9}[\x00-\x7F]"), "the offset of an access is a number of 64 bits"
LATER = {
    "integer representation too long": OFFSET,
    "integer too large": OFFSET,
    "zero flag expected": (re.compile(rb"[\x3F\x40][\x80-\xFF]{1,4}\x00"), "a memory is named by its index"),
    "invalid mutability": (re.compile(rb"[\x7C-\x7F]\x02"), "flag 2 of a global says that it is shared"),
}


def binary_modules(script, folder):
    """The commands of a script that have a binary module, or None where it isn't read."""
    listed = folder / f"{script.stem}.json"
    made = subprocess.run(["wast2json", "--enable-all", str(script), "-o", str(listed)], capture_output=True, timeout=120, check=False)
    if made.returncode:
        return None
    commands = json.loads(listed.read_text())["commands"]
    return [it for it in commands if it.get("filename", "").endswith(".wasm") and it.get("module_type", "binary") == "binary"]


def told(kind, fault, module, is_accepted):
    """What came of a module, and whether it had to be so."""
    if kind in ACCEPTED:
        return ("modules accepted", True) if is_accepted else ("modules REFUSED", False)
    if kind == "assert_invalid":
        return ("invalid by a rule, ACCEPTED", False) if is_accepted and fault.startswith(RULES) else (f"invalid, {SHOWN[is_accepted]}", True)
    if not is_accepted:
        return "malformed, refused", True
    pattern, why = LATER.get(fault, (None, None))
    return (f"malformed by the script, accepted: {why}", True) if pattern and pattern.search(module) else ("malformed, ACCEPTED", False)


def main():
    program, kept, *scripts = sys.argv[1:]
    count, is_right = collections.Counter(), bool(scripts)
    pathlib.Path(kept).mkdir(parents=True, exist_ok=True)
    with tempfile.TemporaryDirectory() as folder:
        for script in map(pathlib.Path, scripts):
            commands = binary_modules(script, pathlib.Path(folder))
            count["scripts not read"] += commands is None
            for command in commands or []:
                path = pathlib.Path(folder) / command["filename"]
                module = path.read_bytes()
                ran = subprocess.run([program], input=module, capture_output=True, timeout=120, check=False)
                if ran.returncode == 0:
                    (pathlib.Path(kept) / path.name).write_bytes(module)
                word, holds = told(command["type"], command.get("text"), module, ran.returncode == 0)
                count[word] += 1
                is_right &= holds
                if not holds:
                    print(f"{path.name}, line {command['line']}: {word}: {command.get('text', '')}")
    for word, number in sorted(count.items()):
        if number:
            print(f"{number:6} {word}")
    sys.exit(0 if is_right else 1)


main()
