#!/usr/bin/env python3
"""Compares what walrus-gc writes of modules with what went in:

    tests/kept.py PROGRAM WASM_COPY MODULE..

PROGRAM is walrus-gc, WASM_COPY the program that lists names. Prints a line a module, and the counts; the status is 1 where a module is
refused or one of these doesn't hold. Items have other indices behind a run, and functions another order, so indices aren't compared.

- A second run over the output gives the same bytes.
- The custom sections but `name`, `producers` and debug information are those of before, byte for byte: those of dynamic linking in front,
  the others behind, in their order.
- By `wasm_copy --names`: each name stands in the input, of the same kind and as often, that of a local in a function of the same name; the
  module has its own name; the producers are those of before with this program put in.
Where wabt is installed, and reads the input:
- By `wasm-objdump -x`: exports and start function are those of before, with the names of what they are. Each import, function, table,
  memory, tag, global, segment and byte of data stands in the input, as often, the functions with their signature and their name; one segment
  may be more, which declares functions. No more functions, tables, memories and globals are without a name than before, so that none has
  lost it.
- By `wasm-objdump -d`, where it reads all operators: those of each function, with the names of what they name, are those of a function of the
  same name, but for those that are dropped since nothing reaches them. So a name has stayed where it was, and what is called has the name
  that it had. Names of tags aren't compared, and none where it warns of the input's.
- `wasm-validate` accepts the output, or binaryen's `wasm-opt` where only that accepts the input; errors in custom sections are let pass where
  one is of an object file, or metadata of code.
"""
import collections
import pathlib
import re
import shutil
import subprocess
import sys
import tempfile

# All that wabt has but typed references to functions, with which it refuses what `ref.func` gives where any function may stand.
FEATURES = ["--enable-" + name for name in "exceptions threads tail-call memory64 multi-memory extended-const relaxed-simd".split()]
DYNAMIC = ("dylink", "dylink.0")
FIELD, THIS_PROGRAM = "producers processed-by ", 'producers processed-by "walrus" "0.28.0"'
# What a line of `wasm-objdump -x` on an item begins with, for the kinds of which a run adds none.
KINDS = {"function": " - func ", "table": " - table ", "memory": " - memory ", "global": " - global "}


class Wrong(Exception):
    """What doesn't hold of an output."""


def demand(holds, text):
    if not holds:
        raise Wrong(text)


def output_of(*command, given=None):
    """What a command writes, or None where it fails."""
    ran = subprocess.run(command, input=given, capture_output=True, timeout=120, check=False)
    return ran.stdout if ran.returncode == 0 else None


def number_at(module, at):
    """The number at this place, and where it ends."""
    number = shift = 0
    while True:
        byte = module[at]
        number, shift, at = number | (byte & 0x7F) << shift, shift + 7, at + 1
        if byte < 0x80:
            return number, at


def customs(module):
    """The name and the data of each custom section that a run keeps as it is, with the number of other sections in front of it, and how many
    of these there are."""
    found, at, others = [], 8, 0
    while at < len(module):
        size, begin = number_at(module, at + 1)
        if module[at] == 0:
            length, name = number_at(module, begin)
            found.append((module[name : name + length].decode(), module[name + length : begin + size], others))
        others += module[at] != 0
        at = begin + size
    return [it for it in found if it[0] not in ("name", "producers") and not it[0].startswith(".debug")], others


def expected_customs(module, others):
    """Those of a module as they stand in an output with so many other sections."""
    found = [(name, data, 0 if name in DYNAMIC else others) for name, data, _ in customs(module)[0]]
    return sorted(found, key=lambda it: it[0] not in DYNAMIC)


def names_of(wasm_copy, path):
    """The lines of `wasm_copy --names`: those of names, and those of producers."""
    text = output_of(wasm_copy, "--names", given=path.read_bytes())
    demand(text is not None, f"wasm_copy doesn't read {path.name}")
    lines, is_producer = text.decode().split("\n")[:-1], lambda line: line.startswith("producers ")
    return [it for it in lines if not is_producer(it)], [it for it in lines if is_producer(it)]


def namings(lines):
    """How often each name of a kind stands there, that of a local with its function's."""
    read = [re.fullmatch(r"(\w+)((?: \d+)*) (\".*\")", line).groups() for line in lines]
    functions = {index: name for kind, index, name in read if kind == "function"}
    owner = lambda kind, indices: functions.get(indices[: indices.rindex(" ")]) if kind == "local" else None
    return collections.Counter((kind, owner(kind, indices), name) for kind, indices, name in read)


def with_this_program(producers):
    """Producers with this program in the field `processed-by`: where it stood, or behind its other values, or in a field behind all others."""
    itself = THIS_PROGRAM.rsplit(" ", 1)[0] + " "
    if any(it.startswith(itself) for it in producers):
        return [THIS_PROGRAM if it.startswith(itself) else it for it in producers]
    last = max((at for at, it in enumerate(producers, 1) if it.startswith(FIELD)), default=len(producers))
    return [*producers[:last], THIS_PROGRAM, *producers[last:]]


def compare_names(wasm_copy, path, output):
    names, producers = names_of(wasm_copy, path)
    kept, kept_producers = names_of(wasm_copy, output)
    demand(namings(kept) <= namings(names), f"other names: {namings(kept) - namings(names)}")
    own = lambda lines: [it for it in lines if it.startswith("module ")]
    demand(own(names) == own(kept), "another name of the module")
    demand(kept_producers == with_this_program(producers), f"other producers: {kept_producers}")
    return len(kept)


def details(text):
    """The lines of each section by `wasm-objdump -x`, without indices, and without what it says of a global that starts as a reference; a
    signature in place of the index of its type."""
    types = dict(reversed(re.findall(r"^ - type\[(\d+)\] (?:<.*> )?(.*)$", text, re.MULTILINE)))
    text = re.sub(r"(ref mutable=\d) - init i32=-?\d+$", r"\1", text, flags=re.MULTILINE)
    text = re.sub(r"\bsig=(\d+)", lambda found: types.get(found[1], "?"), text)
    text = re.sub(r"\[\d+\]", "", re.sub(r"\b(function|table|memory|global|flags(?!=3 )|ref\.func)(=|: ?)\d+", r"\1", text))
    sections, lines = collections.defaultdict(list), []
    for line in filter(None, text.split("\n")):
        head = re.match(r"([A-Z]\w*):", line)
        lines = sections[head[1]] if head else lines
        lines.append(line)
    return sections


def without_added(old, new):
    """The lines of element segments without the last segment, where that is one more that declares functions."""
    declared = lambda lines: sum(it.startswith(" - segment flags=3 ") for it in lines)
    last = max((at for at, it in enumerate(new) if it.startswith(" - segment ")), default=0)
    return new[:last] if declared(new) == declared(old) + 1 and declared(new[last:]) else new


def unnamed(sections, lines):
    """How many items of each kind have no name, by the lines of sections and those of `wasm_copy --names`."""
    items = [line for section in ("Import", "Function", "Table", "Memory", "Global") for line in sections[section]]
    count = lambda words, start: sum(it.startswith(start) for it in words)
    return {kind: count(items, word) - count(lines, kind + " ") for kind, word in KINDS.items()}


def operators(text, is_named):
    """The lists of operators of the functions of each name by `wasm-objdump -d`, each, where asked for, with the name of what it names, but for
    tags, whose names it takes from subsection 10."""
    functions, body = collections.defaultdict(list), []
    for line in text.split("\n"):
        head = re.match(r"[0-9a-f]+ func\[\d+\](.*):$", line)
        found = re.match(r" [0-9a-f]+: [0-9a-f ]+\| +(\S+)(?:.*( <.*>))?", line)
        if head:
            body = []
            functions[head[1]].append(body)
        elif found and not found[1].startswith("local["):
            body.append((found[1], found[2] if is_named and found[1] != "throw" else None))
    return functions


def is_within(few, many):
    rest = iter(many)
    return all(it in rest for it in few)


def shown(flag, path):
    """The text of `wasm-objdump`, or None where it doesn't read the module."""
    text = output_of("wasm-objdump", flag, str(path))
    return text and text.decode()


def compare_operators(path, output):
    before, after = shown("-d", path), shown("-d", output)
    if before is None:
        return
    demand(after is not None, "wasm-objdump doesn't read its operators")
    # It warns of names that it passes over, as where indices don't rise.
    is_named = not subprocess.run(["wasm-objdump", "-x", str(path)], capture_output=True, timeout=120, check=False).stderr
    old, new = operators(before, is_named), operators(after, is_named)
    for name, bodies in new.items():
        for body in bodies:
            demand(any(is_within(body, other) for other in old[name]), f"other operators of{name}")


def compare_items(wasm_copy, path, output):
    """Compares by `wasm-objdump`, where that reads the input; whether it does."""
    before, after = shown("-x", path), shown("-x", output)
    if before is None:
        return False
    demand(after is not None, "wasm-objdump doesn't read it")
    old, new = details(before), details(after)
    for section in ("Export", "Start"):
        demand(old[section][1:] == new[section][1:], f"another section {section}: {new[section]}")
    new["Elem"] = without_added(old["Elem"], new["Elem"])
    for section in ("Import", "Function", "Table", "Memory", "Tag", "Global", "Elem", "Data"):
        added = collections.Counter(new[section][1:]) - collections.Counter(old[section])
        demand(not added, f"not of before in section {section}: {list(added)}")
    less, more = unnamed(new, names_of(wasm_copy, output)[0]), unnamed(old, names_of(wasm_copy, path)[0])
    demand(all(less[kind] <= more[kind] for kind in KINDS), f"without names {less}, before {more}")
    compare_operators(path, output)
    return True


def is_valid(path):
    """Whether wabt or binaryen accept a module, for each of the two that is installed. What object files and metadata say of indices stays as
    it was, so that it may be wrong of the output."""
    stale = any(name == "linking" or name.startswith(("reloc.", "metadata.code.")) for name, _, _ in customs(path.read_bytes())[0])
    commands = {"wasm-validate": FEATURES + ["--ignore-custom-section-errors"] * stale, "wasm-opt": ["-all"]}
    return {it: output_of(it, *commands[it], str(path)) is not None for it in commands if shutil.which(it)}


def validity(path, output):
    """Which tool accepts the output, of those that accept the input; none where there is none."""
    before = is_valid(path)
    readers = [it for it in before if before[it]]
    if not readers:
        return None
    demand(is_valid(output)[readers[0]], f"{readers[0]} doesn't accept it")
    return readers[0]


def outcome(program, wasm_copy, path, folder):
    """A word and a text on what comes of a module."""
    module, output = path.read_bytes(), folder / "output.wasm"
    ran = subprocess.run([program], input=module, capture_output=True, timeout=120, check=False)
    demand(ran.returncode == 0, f"status {ran.returncode}: {ran.stderr.decode(errors='replace').strip()}")
    output.write_bytes(ran.stdout)
    demand(output_of(program, given=ran.stdout) == ran.stdout, "a second run gives other bytes")
    kept, others = customs(ran.stdout)
    demand(kept == expected_customs(module, others), "other custom sections")
    names = compare_names(wasm_copy, path, output)
    is_compared = shutil.which("wasm-objdump") and compare_items(wasm_copy, path, output)
    word = "kept" if validity(path, output) is None else "valid"
    items = "items as before" if is_compared else "items not compared"
    return word, f"{len(module)} bytes as {len(ran.stdout)}, {names} names, {items}"


def main():
    program, wasm_copy, *paths = sys.argv[1:]
    missing = [it for it in ("wasm-objdump", "wasm-validate", "wasm-opt") if not shutil.which(it)]
    if missing:
        print(f"there is no {', '.join(missing)} (wabt, binaryen), so what comes out is compared and validated without")
    count = collections.Counter()
    with tempfile.TemporaryDirectory() as folder:
        for path in map(pathlib.Path, paths):
            try:
                word, told = outcome(program, wasm_copy, path, pathlib.Path(folder))
            except Wrong as wrong:
                word, told = "FAILED", str(wrong)
            count[word] += 1
            print(f"{word:7} {path.name:28} {told}", flush=True)
    right = len(paths) - count["FAILED"]
    print(f"the program handles {right} of {len(paths)} modules as it has to, {count['valid']} of them valid by a tool that reads them")
    sys.exit(1 if not paths or count["FAILED"] else 0)


main()
