#!/usr/bin/env python3
"""What `tools/unproved.sh --hinted` does to a module in LLVM's text, from standard input to standard output.

Each function gets the hint on inlining that stands at it in its source, as in the proved program, and the checks go: AddressSanitizer's, and
the traps where a value isn't allowed. The words are the root files of all crates.
"""
import pathlib
import re
import sys

ATTRIBUTES = {"": "inlinehint", "(always)": "alwaysinline", "(never)": "noinline"}
SOURCE = re.compile(r"#\[inline(?P<hint>|\(always\)|\(never\))\]|^\s*(?:pub(?:\([^)]*\))? |const |unsafe )*fn (?P<name>\w+)", re.M)
DEFINED = re.compile(r'define [^@]*@"(?P<path>[^"]*)"\(.*\) #(?P<group>\d+)')
GROUP = re.compile(r"attributes #(?P<group>\d+) = \{(?P<words>.*)\}")


def hints_of(root):
    """The hints of a crate's functions, by module and name."""
    source, hints = pathlib.Path(root).parent, {}
    for file in source.rglob("*.rt"):
        parts = [source.parent.name, *file.relative_to(source).with_suffix("").parts]
        module, hint = "::".join(it for it in parts if it not in ("lib", "main")), None
        for found in SOURCE.finditer(file.read_text()):
            if found["name"] and hint is not None:
                hints[module, found["name"]] = ATTRIBUTES[hint]
            hint = found["hint"]
    return hints


def hint_for(hints, path):
    """That of a function, or of a method, whose type stands between module and name."""
    *within, name = path.partition("::<")[0].split("::")
    return hints.get(("::".join(within), name)) or hints.get(("::".join(within[:-1]), name))


def main():
    hints = {}
    for root in sys.argv[1:]:
        hints |= hints_of(root)
    numbers = {hint: str(number) for number, hint in enumerate(ATTRIBUTES.values(), 1)}
    for line in sys.stdin:
        defined, group = DEFINED.match(line), GROUP.match(line)
        hint = hint_for(hints, defined["path"]) if defined else None
        if hint:
            at = defined.start("group")
            line = f"{line[:at]}{numbers[hint]}000{line[at:]}"
        elif group:
            words = group["words"].replace("sanitize_address", "").replace('"target-cpu"="x86-64"', '"target-cpu"="x86-64-v2"')
            line = f"attributes #{group['group']} = {{{words}}}\n"
            line += "".join(f"attributes #{number}000{group['group']} = {{ {hint} {words}}}\n" for hint, number in numbers.items())
        if "call void @llvm.trap()" not in line:
            sys.stdout.write(line)


if __name__ == "__main__":
    main()
