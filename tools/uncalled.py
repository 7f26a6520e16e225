#!/usr/bin/env python3
"""Prints the public functions that no test and no program calls, so that nothing has shown that a call of them can succeed.

    tools/uncalled.py           those that they don't even call through other functions
    tools/uncalled.py --direct  those that their own sources don't name; what is called through others is among them

Tests are the crates `*_tests` and those that have some of their own, programs those with a `main`. Functions are told apart by their names alone, so that one whose name
another has too can be missing here. Laws, which do nothing, are left out. No part of the gate.
"""
import pathlib
import re
import sys

CRATES = pathlib.Path(__file__).resolve().parent.parent / "crates"
FUNCTION = re.compile(r"^\s*(pub(?:\(crate\))? )?(?:const )?fn (\w+)", re.M)
CALL = re.compile(r"\b(\w+)(?:::<[^;{}]*?>)?\(|\b(\w+)(?=[,)])")


def source(path):
    """A source without its comments and ghost lines."""
    return re.sub(r"//.*|^\s*(ghost|ensures|requires) .*", "", path.read_text(encoding="utf-8"), flags=re.M)


def is_caller(crate):
    """Whether what the crate calls is called: it is one of tests, has some of its own, or is a program."""
    tests = any("#[test]" in it.read_text(encoding="utf-8") for it in crate.glob("src/**/*.rt"))
    return tests or crate.name.endswith("_tests") or (crate / "src" / "main.rt").exists()


def names_in(text):
    """All names that are called in a text, or handed on as values."""
    return {name for pair in CALL.findall(text) for name in pair if name}


def functions(crate):
    """Each function of a crate: its file, whether it is public, its name and its text up to the next one."""
    for path in sorted(crate.glob("src/**/*.rt")):
        text = source(path)
        starts = [*FUNCTION.finditer(text)]
        for begin, end in zip(starts, [*(it.start() for it in starts[1:]), len(text)]):
            yield path, begin[1] == "pub ", begin[2], text[begin.end():end]


def handed_on(crate):
    """The names that a crate's root hands on, and those of the modules that are public as a whole."""
    root = source(crate / "src" / "lib.rt")
    named = {name for used in re.findall(r"pub use [\w:]+?::(?:\{([^}]*)\}|(\w+));", root) for name in re.findall(r"\w+", "".join(used))}
    return named, set(re.findall(r"pub mod (\w+);", root))


def is_law(text):
    """Whether a function does nothing: its contract is all that it is."""
    return re.search(r"\{\s*\}\s*$", text) is not None


def main():
    crates = [it for it in sorted(CRATES.iterdir()) if (it / "src").is_dir()]
    called = names_in("\n".join(text for it in crates if is_caller(it) for _, _, _, text in functions(it)))
    library = [(it, *function) for it in crates if not is_caller(it) for function in functions(it)]
    waiting = [] if "--direct" in sys.argv[1:] else [*called]
    texts = {}
    for _, _, _, name, text in library:
        texts.setdefault(name, []).append(text)
    while waiting:
        more = names_in("\n".join(texts.pop(waiting.pop(), []))) - called
        called |= more
        waiting += more
    count = 0
    for crate, path, is_public, name, text in library:
        named, modules = handed_on(crate)
        is_method = re.search(rf"^\s+pub fn {name}\b", source(path), re.M)
        if is_public and name not in called and not is_law(text) and (is_method or name in named or path.stem in modules):
            print(f"{crate.name}: {path.relative_to(crate)}: {name}")
            count += 1
    print(f"tools/uncalled.py: {count} public functions aren't called")


main()
