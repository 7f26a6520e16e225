#!/usr/bin/env python3
"""Compares include/mulkavesh.h with the signatures of crates/mulkavesh_c, and rust/mulkavesh-sys and python/mulkavesh with the header.

A slice is a pointer and its length, a `&mut usize` a pointer, and a `Global` nothing. Compared are the names, the types and the order of the
parameters, the constants (those of what is wrong with bytes, of items and of roots are numbers of crates/walrus_tools), the words of docs/FORMATS.md for these with the header's
comments and with tests/faults.txt, the operators of the packages by their names with those of crates/wasm_opcodes, and the version with those of the packages; no
compiler is needed. Prints what differs, a line each, and ends with
status 1 where there is any.
"""
import pathlib
import re
import sys

sys.dont_write_bytecode = True
from exports import CRATES, exports

TOP = CRATES.parent
CRATE = "mulkavesh_c"
# The kinds of parameters: what the sources call them, and what C, Rust and ctypes do.
IN, OUT, COUNT, NUMBER, TOLD = "bytes that are read", "bytes that are written", "a length", "a number of 32 bits", "where a length is told"
RATTLE = {"Global": [], "&[u8]": [IN, COUNT], "&mut [u8]": [OUT, COUNT], "&mut usize": [TOLD], "u32": [NUMBER]}
C = {"const uint8_t *": IN, "uint8_t *": OUT, "size_t ": COUNT, "uint32_t ": NUMBER, "size_t *": TOLD}
RUST = {"*const u8": IN, "*mut u8": OUT, "usize": COUNT, "u32": NUMBER, "*mut usize": TOLD}
# The name of the length behind the parameter of each name.
LENGTHS = {"output": "room"}


def read(*parts):
    path = TOP.joinpath(*parts)
    return path.read_text(encoding="utf-8") if path.exists() else None


def of_sources():
    """What each export takes, as pairs of a name and a kind."""
    for name, parameters, result in exports(CRATE):
        taken = []
        for its_name, its_type in parameters:
            kinds = RATTLE[its_type]
            names = [its_name, LENGTHS.get(its_name, f"{its_name}_length")]
            taken += zip(names, kinds)
        yield name, (taken, result == "u32")


def of_header(text):
    for name, between in re.findall(r"^uint32_t (\w+)\(([^;]*)\);", text, re.M):
        pairs = re.findall(r"(const uint8_t \*|uint8_t \*|uint32_t |size_t \*|size_t )(\w+)", between)
        yield name, ([(its_name, C[its_type]) for its_type, its_name in pairs], True)


def of_rust(text):
    for name, between in re.findall(r"pub fn (\w+)\(([^)]*)\) -> u32;", text):
        pairs = (one.split(": ") for one in re.sub(r"\s+", " ", between).split(",") if one.strip())
        yield name, ([(its_name.strip(), RUST[its_type.strip()]) for its_name, its_type in pairs], True)


def differing(what, wanted, found):
    for name in sorted(wanted.keys() | found.keys()):
        if wanted.get(name) != found.get(name):
            yield f"{what}: {name} is {found.get(name)}, and not {wanted.get(name)}"


def faults_of_sources():
    """The kinds of what is wrong with bytes, and the rules, by the names that the header gives them."""
    text = read("crates", "walrus_tools", "src", "tool", "diagnose.rt")
    kinds = re.findall(r"(None|Fault::\w+)(?:\(\w+\))?\)? => \((\d+),", text)
    yield from ((f"FAULT_{name.removeprefix('Fault::').upper()}", int(number)) for name, number in kinds)
    for name, number in re.findall(r"Beginning::(\w+) => (\d+),", read("crates", "walrus_sections", "src", "beginnings.rt")):
        yield "BEGINS" + re.sub(r"([A-Z])", r"_\1", name).upper(), int(number)
    for name, number in re.findall(r"BrokenRule::(\w+) => (\d+),", text):
        yield "RULE" + re.sub(r"([A-Z])", r"_\1", name).upper(), int(number)


# What the header calls a cause that isn't a rule.
CAUSES = {"DeadItem": "GONE", "TwoIndices": "TWO_INDICES", "NoIndex": "NO_INDEX", "NotWritable": "NO_SPELLING"}


def causes_of_sources():
    """Why what edits left can't be written, beside the rules, by the names that the header gives them."""
    for name, number in re.findall(r"Error::(\w+) => (\d+),", read("crates", "walrus_module", "src", "flaw.rt") or ""):
        yield f"CAUSE_{CAUSES[name]}", int(number)


def items_of_sources():
    """The kinds of items, those of exports and imports, and what makes an item a root, by the names that the header gives them."""
    tools = ("crates", "walrus_tools", "src")
    for file, front, most in (("export_groups.rt", "KIND", 7), ("spelled.rt", "EXTERN", 4)):
        numbers = re.findall(r"ItemId::(\w+)\(_\) => (\d+),", read(*tools, file))
        yield from ((f"{front}_{name.upper()}", int(number)) for name, number in numbers if int(number) <= most)
    for name, number in re.findall(r"(None|Root::\w+)\)? => (\d+),", read(*tools, "tool", "reason_list.rt")):
        yield f"ROOT_{name.removeprefix('Root::').upper()}", int(number)


def constants_of_sources():
    """The statuses, flags, the version, what parts are told as, items, roots and what is wrong with bytes, by the names that the header gives them."""
    text = "".join(path.read_text(encoding="utf-8") for path in sorted((CRATES / CRATE / "src").glob("*.rt")))
    text += read("crates", "walrus_sections", "src", "tool", "section_parts.rt")
    named = {name: int(number) for name, number in re.findall(r"const (\w+): u(?:8|32) = (\d+);", text)}
    return {**named, **dict(items_of_sources()), **dict(faults_of_sources()), **dict(causes_of_sources())}


def constants_of_header(text):
    pairs = re.findall(r"MULKAVESH_(\w+)(?: =|) (\d\w*)", text)
    return {name: int(number.rstrip("u"), 0) for name, number in pairs}


def constants_of_rust(text):
    return {name: int(number) for name, number in re.findall(r"pub const MULKAVESH_(\w+): u(?:8|32) = (\d+);", text)}


def constants_of_python(text):
    found = {name: int(number) for name, number in re.findall(r"^_(FUNCTION|SEGMENT) = (\d+)$", text, re.M)}
    for name, front in (("_OF_LINKS", "KIND_"), ("_OF_EXTERNS", "EXTERN_")):
        words = re.search(rf"^{name} = \((.*)\)$", text, re.M)[1]
        found.update((front + word.upper(), number) for number, word in enumerate(re.findall(r'"(\w+)"', words)))
    for of_python, front in (("Status", ""), ("FaultKind", "FAULT_"), ("Beginning", "BEGINS_"), ("Rule", "RULE_"), ("Cause", "CAUSE_"), ("Root", "ROOT_")):
        numbers = re.search(rf"class {of_python}\(.*?(?=\n\n\n)", text, re.S)
        found.update((front + name, int(number)) for name, number in re.findall(r"^    ([A-Z_]+) = (\d+)", numbers[0], re.M))
    return found


def words_of_documents():
    """The rows of docs/FORMATS.md that say in words what is wrong with bytes: the name of each, and the words, up to what differs from one to the other."""
    section = read("docs", "FORMATS.md").partition("\n## What is wrong with bytes\n")[2].partition("\n## ")[0]
    for name, words in re.findall(r"^\|[^|]*`(\w+)`[^|]* \|[^|]*\| ([^|]*) \|$", section, re.M):
        yield name, words


def words_of_tests():
    """The words of tests/faults.txt, to which those of Rust, Python and JavaScript are held, with the place and the index of docs/FORMATS.md."""
    for words in re.findall(r"^\d[^|]*\|[^|]*\| (.+)$", read("tests", "faults.txt"), re.M):
        yield re.sub(r"of function \d+", "of function 7", re.sub(r"byte \d+ \(0x[0-9A-F]+\)", "byte 1234 (0x4D2)", words))


def unlike_the_words(header):
    """Where the header or the tests have other words than docs/FORMATS.md; the header has no place of a section and no index of a function."""
    told = re.sub(r"\s*\n \*\s*|\s+", " ", header)
    rows = dict(words_of_documents())
    for words in sorted({*words_of_tests()} ^ {*rows.values()}):
        yield f"tests/faults.txt and docs/FORMATS.md: only one of them says: {words}"
    for name, words in rows.items():
        wanted = words.replace("byte 1234 (0x4D2)", "a byte").replace("of function 7", "of a function")
        if f"{wanted[0].upper()}{wanted[1:]}." not in told:
            yield f"include/mulkavesh.h: no comment says of {name}: {wanted}"
    if len(rows) != 23:
        yield f"docs/FORMATS.md: {len(rows)} rows say what is wrong with bytes, and not 23"


def number_of(text):
    return int(text.replace("_", ""), 16)


def opcodes_of_sources():
    """The operators by their names, of the modules that opcodes.rt names."""
    folder = ("crates", "wasm_opcodes", "src")
    for module, name in re.findall(r"pub use crate::(\w+)::(\w+);", read(*folder, "opcodes.rt")):
        yield name, number_of(re.search(rf"pub const {name}: u32 = (0x[0-9A-F_]+);", read(*folder, f"{module}.rt"))[1])


def opcodes_of_packages():
    """Each file that has them, and what stands in it."""
    rust, python, web = (read(*parts) for parts in (("rust", "mulkavesh", "src", "module", "opcodes.rs"), ("python", "mulkavesh", "opcodes.py"), ("web", "opcodes.js")))
    if rust is not None:
        yield "rust/mulkavesh/src/module/opcodes.rs", {name: number_of(it) for name, it in re.findall(r"(\w+) (0x[0-9A-F_]+),", rust)}
    if python is not None:
        lines = (line.split(" = ") for line in python.splitlines() if " = 0x" in line)
        yield "python/mulkavesh/opcodes.py", {name: number_of(it) for names, numbers in lines for name, it in zip(names.split(", "), numbers.split(", "))}
    if web is not None:
        found = {name: number_of(it) for name, it in re.findall(r"(\w+) = (0x[0-9A-F_]+)", web)}
        yield "web/opcodes.js", found
        yield "web/opcodes.d.ts", {name: found.get(name) for name in re.findall(r"(\w+): number", read("web", "opcodes.d.ts"))}


def versions(number):
    """Where the packages tell their version, and what it has to be."""
    wanted = f"{number >> 16}.{number >> 8 & 255}.{number & 255}"
    for parts in (("rust", "mulkavesh-sys", "Cargo.toml"), ("rust", "mulkavesh", "Cargo.toml"), ("python", "pyproject.toml")):
        text = read(*parts)
        found = text and re.search(r'^version = "([^"]*)"', text, re.M)
        if text is not None and (not found or found[1] != wanted):
            yield f"{'/'.join(parts)}: the version is {found and found[1]}, and not {wanted}"


def wrong():
    sources, constants = dict(of_sources()), constants_of_sources()
    header = read("include", "mulkavesh.h")
    yield from differing("include/mulkavesh.h", sources, dict(of_header(header)))
    yield from differing("include/mulkavesh.h", constants, constants_of_header(header))
    yield from unlike_the_words(header)
    rust = read("rust", "mulkavesh-sys", "src", "lib.rs")
    if rust is not None:
        yield from differing("rust/mulkavesh-sys", sources, dict(of_rust(rust)))
        numbers = {name: number for name, number in constants.items() if name != "VERSION"}
        yield from differing("rust/mulkavesh-sys", numbers, constants_of_rust(rust))
    python = read("python", "mulkavesh", "__init__.py")
    if python is not None:
        others = ("VERSION", "NO_NAMES", "NO_PRODUCERS", "NO_LEGACY", "GC", "FAULT_NONE", "ROOT_NONE")
        numbers = {name: number for name, number in constants.items() if name not in others}
        yield from differing("python/mulkavesh", numbers, constants_of_python(python))
    opcodes = dict(opcodes_of_sources())
    for file, found in opcodes_of_packages():
        yield from differing(file, opcodes, found)
    yield from versions(constants["VERSION"])


def main():
    lines = [*wrong()]
    for line in lines:
        print(line)
    print(f"tools/header.py: {len(lines)} things differ" if lines else "tools/header.py: the header and what calls it are as the sources say")
    sys.exit(1 if lines else 0)


main()
