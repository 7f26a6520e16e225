#!/usr/bin/env python3
"""Compares what the callers of tests/c.sh answer with what walrus-gc writes, and with what stands in the modules:

    tests/c.py PROGRAM STATIC SHARED REFUSED COUNT FOLDER..

It is what tests/c.sh does with the callers that it compiled, but for rooms and threads. STATIC and SHARED are tests/c/call.c over the two libraries,
REFUSED is refused.c as a shared library, COUNT says how many mutants, and FOLDER.. hold modules: those with a file NAME.expect are rows, whose words
stand in NAME.args. The calls `gc` and `report` are held against the program: the same bytes, and the status that its own one and what it tells come
to. So is `diagnose`, which has to say that nothing is wrong exactly where the program accepts, and against the faults that were worked out by hand
(tests/faults.txt). The calls under a choice of exports, and `snip` and `stub`: tests/roots.py. `read` and `edit`: tests/edit_lists.py. The other calls are held
against what stands in the modules themselves, `sections` and `strip` also of mutants that are none. Prints the finds and the counts.
"""
import collections
import concurrent.futures
import pathlib
import random
import struct
import subprocess
import sys

sys.dont_write_bytecode = True
from answers import (
    INVALID, NOT_FOUND, NO_NAME, by_program, call, asked, choice, entries, fits, framed, function_names, imports, imports_in, placed, records, section,
)
from edit_lists import all_kinds, as_chosen, as_gc, as_snip, as_strip, as_stub, bodies_again, every_kind, in_the_items, refused_lists
from hostile import bodies, mutated, number, sections
from refused import requests_of
from roots import in_the_chains, no_list, refused_first, snipped, stubbed, under_choices

FAULTS = pathlib.Path(__file__).resolve().parent / "faults.txt"
SEED = 73
# The kinds of what is wrong with bytes.
NONE, HEADER, SECTION, RULE, BODY = range(5)
HEADER_BYTES = b"\0asm\1\0\0\0"
# What stands in front of files of other kinds, by the numbers of include/mulkavesh.h.
FRONTS = {
    3: (b"\x1f\x8b",), 4: (b"PK\3\4", b"PK\5\6"), 5: (b"\x28\xb5\x2f\xfd",), 6: (b"\x7fELF",), 7: (b"BC\xc0\xde", b"\xde\xc0\x17\x0b"),
    9: (b"\0asm\x0d\0\1\0",),
}
RULES = 10
WORDS = {"--no-names": 1, "--no-producers": 2, "--no-legacy": 4}
UNKNOWN_WORD = 8
OUT_OF_MEMORY = (3, b"")
# Of larger modules not each request for memory is refused.
MOST_BYTES_REFUSED = 2_200
# A longer name can't be handed in a word.
MOST_BYTES_OF_A_NAME = 1_000


# ---- finds


def beside_the_program(program, callers, data, words):
    """Where a caller answers otherwise than the program under these words."""
    flags = sum({WORDS.get(word, UNKNOWN_WORD) for word in words if word != "--report"})
    name = "report" if "--report" in words else "gc"
    wanted = by_program(program, words, data)
    for caller in callers:
        found = call(caller, name, data, flags)
        found = (found[0], b"".join(found[1].splitlines(True)[:7])) if name == "report" else found
        if found != wanted:
            yield f"{name} {flags}: status {found[0]} and {len(found[1])} bytes, and not {wanted[0]} and {len(wanted[1])}"


def faults():
    """The faults that were worked out by hand: a name, the flags, what is to be answered, and the bytes."""
    why = ""
    for line in FAULTS.read_text(encoding="utf-8").splitlines():
        why = line.removeprefix("# ") if line.startswith("#") else why
        if line and not line.startswith("#"):
            numbers, data, _ = line.split("|")
            flags, *wanted = map(int, numbers.split())
            yield why, flags, tuple(wanted), bytes.fromhex(data)


def fault_of(caller, data, flags):
    """The two numbers that are answered of the bytes, or the status where they aren't."""
    status, told = call(caller, "diagnose", data, flags)
    return (int.from_bytes(told[:4], "little"), int.from_bytes(told[4:], "little")) if status == 0 and len(told) == 8 else f"status {status} and {len(told)} bytes"


def as_worked_out(callers, data, flags, wanted):
    """Where a caller answers otherwise of bytes whose fault is known."""
    for caller in callers:
        found = fault_of(caller, data, flags)
        if found != wanted:
            yield f"diagnose {flags}: {found}, and not {wanted}"


def ends_sections(data, place):
    """Whether whole sections, by their sizes, stand behind the header up to this place, and bytes are left there."""
    at = 8
    while at < place:
        size, at = number(data, at + 1)
        at += size
    return at == place < len(data)


def beginning(data):
    """The number of what bytes begin as that don't begin as a module."""
    for number, fronts in FRONTS.items():
        if data.startswith(fronts):
            return number
    if len(data) < 8 and HEADER_BYTES.startswith(data):
        return 2 if data else 1
    if data.lstrip(b" \t\r\n").startswith((b"(", b";;")):
        return 8
    return 10 if len(data) >= 8 and data.startswith(b"\0asm") else 0


def can_be(data, kind, of_it):
    """Whether this can be wrong with the bytes, by their framing."""
    if kind == HEADER or not data.startswith(HEADER_BYTES):
        return kind == HEADER and not data.startswith(HEADER_BYTES) and of_it == beginning(data)
    if kind == SECTION:
        return ends_sections(data, of_it)
    if kind == RULE:
        return sections(data) is not None and 1 <= of_it <= RULES
    imported = sum(kind_of == 0 for *_, kind_of in imports(data)) if kind == BODY else 0
    return (kind, of_it) == (NONE, 0) or kind == BODY and 0 <= of_it - imported < len(bodies(section(data, 10)))


def diagnosed(program, callers, data, flags):
    """Where what is said to be wrong isn't nothing exactly where the program accepts, or can't be; the sections before a place have to be well-formed."""
    words = ["--no-legacy"] if flags else []
    accepts = by_program(program, words, data)[0] in (0, 2)
    for caller in callers:
        found = fault_of(caller, data, flags)
        if (found == (NONE, 0)) != accepts or isinstance(found, str) or not can_be(data, *found):
            yield f"diagnose {flags}: {found}, and the program {'accepts' if accepts else 'refuses'} it"
        elif found[0] == SECTION and fault_of(caller, data[: found[1]], flags)[0] not in (NONE, RULE, BODY):
            yield f"diagnose {flags}: {found}, and what stands in front of the place isn't well-formed either"


def in_the_list(caller, data, flags):
    """Where a list isn't that of the bodies that are written, and of their names."""
    (status, listed), (_, output) = call(caller, "list", data, flags), call(caller, "gc", data, 0)
    if status:
        yield f"list: status {status}"
        return
    found, named = [*entries(listed)], function_names(data)
    indices = [index for index, _, _ in found]
    if sorted(set(indices)) != indices:
        yield f"list: the indices are {indices}"
    if sorted(size for _, size, _ in found) != sorted(map(len, bodies(section(output, 10)))):
        yield "list: other sizes than those of the bodies"
    if any(name != named.get(index) for index, _, name in found):
        yield "list: other names"


def in_the_parts(caller, data):
    """Where other sections are told than by `sections`, other functions than stand in sections of code, or data segments that don't fill theirs."""
    status, told = call(caller, "parts", data)
    if status:
        if status != INVALID:
            yield f"parts: status {status}"
        return
    imported = sum(kind == 0 for code, content, _ in placed(data) if code == 2 for *_, kind in imports_in(content))
    known = call(caller, "sections", data)[1]
    wanted, found, after = [], known[:5], {138: imported, 139: 0}
    for number_of, content, place in placed(data):
        count, at = number(content, 0) if number_of in (10, 11) else (0, 0)
        for item in bodies(content) or [] if number_of == 10 else []:
            at = number(content, at)[1]
            wanted.append((place + at, len(item)))
            at += len(item)
        if number_of == 11 and count:
            wanted.append((place + at, len(content) - at))
    items, at = [], 5
    while at < len(told):
        kind, is_counted, start, size, index, length = struct.unpack_from("<BBIIII", told, at)
        more = 18 + (length if length != NO_NAME else 0)
        if kind not in after:
            found += told[at : at + more]
        else:
            if (is_counted, index, length) != (1, after[kind], NO_NAME):
                yield f"parts: {kind} with {is_counted}, {index} and {length}"
            joined = kind == 139 and items and items[-1][2] and sum(items[-1][:2]) == start
            items[-1:] = [(items[-1][0], items[-1][1] + size, True)] if joined else [*items[-1:], (start, size, kind == 139)]
            after[kind] += 1
        at += more
    if [(start, size) for start, size, _ in items] != wanted or found != known:
        yield f"parts: {items}, and not {wanted}"


def in_the_sections(caller, data):
    """Where other sections are told than stand there, or another status."""
    status, told = call(caller, "sections", data)
    wanted = framed(data)
    if wanted is None or status:
        if (status, wanted is None) != (INVALID, True):
            yield f"sections: status {status}"
        return
    (whole, end), at, found = struct.unpack_from("<BI", told), 5, []
    while at < len(told):
        kind, is_counted, start, size, count, length = struct.unpack_from("<BBIIII", told, at)
        at += 18 + (length if length != NO_NAME else 0)
        name = None if length == NO_NAME else told[at - length : at]
        found.append((kind, name, count if is_counted else None, start, size))
        if is_counted > 1 or not is_counted and count:
            yield f"sections: {is_counted} says whether {count} is a count"
    if (found, end, whole) != (*wanted, wanted[1] == len(data)):
        yield f"sections: {found}, {end}, {whole}, and not {wanted}"


def without(data, goes, stays):
    """The status and the bytes that `strip` has to answer."""
    found, end = framed(data) or ([], None)
    if end != len(data):
        return INVALID, b""
    names = [name for _, name, *_ in found if name is not None]
    if not all(any(fits(one, name) for name in names) for one in goes):
        return NOT_FOUND, b""
    gone = {name for name in names if any(fits(one, name) for one in goes) and not any(fits(one, name) for one in stays)}
    return 0, data[:8] + b"".join(data[at : at + size] for _, name, _, at, size in found if name not in gone)


def choices_for(data):
    """Names, which may have stars, of sections that go, and of those that stay after all."""
    found, _ = framed(data) or ([], 8)
    names = [name.replace(b"*", b"\\*") for name in dict.fromkeys(name for _, name, *_ in found) if name is not None and len(name) < MOST_BYTES_OF_A_NAME]
    yield from (([name], []) for name in names)
    yield from (([b"*"], [name]) for name in names)
    yield from (([b"*"], []), ([b".debug*"], []), ([b"*e*"], [b"*_*", b"name"]), ([b"*", b"no section has this name"], []), ([], []), ([], [b"*"]))


def stripped(callers, data, which=None):
    """Where other bytes are left than those of the sections that stay, by all choices or by one of them."""
    choices = [*choices_for(data)]
    for number_of, (goes, stays) in enumerate(choices) if which is None else [(which, choices[which % len(choices)])]:
        status, output = call(callers[number_of % len(callers)], "strip", data, 0, choice(goes, stays))
        if (status, output) != without(data, goes, stays):
            yield f"strip {goes} but {stays}: status {status} and {len(output)} bytes"


def refused_in_turn(caller, refused, data, least, name, *words):
    """Where a call of which one request for memory fails ends otherwise than with ample memory, or as having too little; and fewer requests than the least."""
    command = asked(caller, name, words)
    ample, count = requests_of(command, data, refused)
    for which in range(1, count + 1):
        ended = subprocess.run(command, input=data, capture_output=True, env={"LD_PRELOAD": refused, "REFUSED": str(which)}, timeout=120, check=False)
        if (ended.returncode, ended.stdout) not in (ample[:2], OUT_OF_MEMORY):
            yield f"{name}, request {which} refused: status {ended.returncode}"
    if count < least:
        yield f"{name}: only {count} requests"


def legacy(caller, data):
    """Whether a module has legacy exceptions."""
    return call(caller, "diagnose", data, 4)[1] != bytes(8)


# ---- what is tried


def tried(words):
    """The name of a try, and what it finds: also that an answer can't be read."""
    name, find, *rest = words
    try:
        return name, [*find(*rest)]
    except (ValueError, IndexError, TypeError) as error:
        return name, [f"an answer that can't be read: {error}"]


class Tries:
    """Makes the tries, several at once, and prints finds and counts."""

    def __init__(self):
        self.pool, self.counts, self.finds = concurrent.futures.ThreadPoolExecutor(4), collections.Counter(), 0

    def all(self, what, each):
        """Each try is a name, a function that yields the finds, and its words."""
        before, count = self.finds, 0
        for name, found in self.pool.map(tried, each):
            count += 1
            for line in found:
                self.finds += 1
                print(f"FIND {name}: {line}")
        print(f"tests/c.sh: {what}: {count}, {self.finds - before} finds", flush=True)


def modules_in(folders):
    paths = [path for folder in folders for path in sorted(pathlib.Path(folder).glob("*.wasm"))]
    rows = [path for path in paths if path.with_suffix(".expect").exists()]
    others = {path.name: path for path in paths if path not in rows}
    return rows, [*others.values()]


def words_of(row):
    words = row.with_suffix(".args")
    return words.read_text(encoding="utf-8").splitlines() if words.exists() else []


def main():
    program, static, shared, refused, count, *folders = sys.argv[1:]
    rows, modules = modules_in(folders)
    data = {path: path.read_bytes() for path in [*rows, *modules]}
    tries, callers = Tries(), (static, shared)
    ways = [[word for word, flag in WORDS.items() if flags & flag] + more for flags in range(8) for more in ([], ["--report"])]
    tries.all("modules under each flag", ((path.name, beside_the_program, program, callers, data[path], words) for path in modules for words in [*ways, ["--no-such-word"]]))
    tries.all("rows", ((path.name, beside_the_program, program, callers, data[path], words_of(path)) for path in rows))
    tries.all("faults that were worked out by hand", ((why, as_worked_out, callers, given, flags, wanted) for why, flags, wanted, given in faults()))
    both = [(path.name, diagnosed, program, callers, data[path], flags) for path in [*modules, *rows] for flags in (0, 4)]
    tries.all("diagnoses of modules and rows", both)
    taken = [path for path in modules if call(static, "gc", data[path])[0] == 0]
    small = [path for path in taken if len(data[path]) < 100_000]
    tries.all("lists", ((path.name, in_the_list, static, data[path], flags) for path in taken for flags in (0, 3)))
    tries.all("choices of exports", ((path.name, under_choices, program, callers, data[path]) for path in small))
    least = [path for path in small if len(data[path]) < 12_000]
    both = [(path.name, in_the_chains, callers[which], data[path], pairs) for path in least for which, pairs in enumerate(([], [(0, b"*")]))]
    tries.all("chains", both)
    tries.all("functions and imports that are replaced", ((path.name, one, program, static, data[path]) for path in least for one in (snipped, stubbed)))
    tries.all("sections", ((path.name, in_the_sections, caller, data[path]) for path in [*modules, *rows] for caller in callers))
    tries.all("parts", ((path.name, in_the_parts, caller, data[path]) for path in [*modules, *rows] for caller in callers))
    tries.all("sections that go", ((path.name, stripped, callers, data[path]) for path in [*modules, *rows]))
    tries.all("lists that are none", ((path.name, no_list, callers, data[path]) for path in small[:3]))
    tries.all("refusals", ((why, refused_first, static, given, flags) for why, flags, wanted, given in faults() if wanted != (0, 0)))
    bases = [data[path] for path in small]
    mutants = [mutated(random.Random(f"{SEED}:{i}"), bases) for i in range(int(count))]
    tries.all("mutants", ((f"mutant {i}", beside_the_program, program, [callers[i % 2]], mutant, ways[i % 16]) for i, mutant in enumerate(mutants)))
    tries.all("diagnoses of mutants", ((f"mutant {i}", diagnosed, program, [callers[i % 2]], mutant, i % 4 // 2 * 4) for i, mutant in enumerate(mutants)))
    tries.all("sections of mutants", ((f"mutant {i}", in_the_sections, callers[i % 2], mutant) for i, mutant in enumerate(mutants)))
    tries.all("parts of mutants", ((f"mutant {i}", in_the_parts, callers[i % 2], mutant) for i, mutant in enumerate(mutants)))
    tries.all("sections of mutants that go", ((f"mutant {i}", stripped, callers, mutant, i) for i, mutant in enumerate(mutants)))
    tries.all("items of modules", ((path.name, in_the_items, callers[flags // 4], data[path], flags) for path in taken for flags in (0, 4) if not flags or not legacy(static, data[path])))
    tries.all("edits of nothing", ((path.name, as_gc, callers, data[path], flags) for path in taken for flags in range(4)))
    tries.all("edits of every kind", ((path.name, all_kinds, callers, data[path], flags) for path in small for flags in (0, 8)))
    ways_of_edits = (as_snip, as_stub, as_strip, as_chosen, bodies_again)
    tries.all("lists that come to what other calls make", ((path.name, one, callers, data[path], flags) for path in taken for one in ways_of_edits for flags in (0, 3)))
    lists = [(path, [*every_kind(data[path], call(static, "read", data[path], 0)[1])]) for path in small if len(data[path]) < 12_000]
    calls = [(10, *it) for it in (("gc", 0), ("report", 0), ("list", 0), ("dropped", 0), ("why", 0, b"", b"0"), ("callers", 0, b"", b"0"), ("snip", 0, choice([b"*"])))]
    calls += [(10, "stub", 0, choice([b"*"])), (10, "gc", 0, records([(1, b"*"), (0, b"none")])), (5, "exports", 0), (5, "imports", 0)]
    calls += [(1, "diagnose", 0), (2, "sections"), (2, "parts"), (3, "strip", 0, choice([b"*"], [b"name"])), (10, "read", 0)]
    tiny = [path for path in small if len(data[path]) < MOST_BYTES_REFUSED]
    inputs = [(path.name, data[path], *one) for path in tiny for one in calls]
    inputs += [(path.name, data[path], 20, "edit", flags, b"".join(edits)) for path, edits in lists if path in tiny for flags in (0, 8)]
    inputs += [(path.name, data[path], 5, "edit", flags, listed) for path, edits in lists if path in tiny for listed in refused_lists(edits) for flags in (0, 8)]
    inputs += [(why, given, 0, "diagnose", flags) for why, flags, _, given in faults()]
    tries.all("calls of which each request for memory was refused in turn", ((name, refused_in_turn, static, refused, *one) for name, *one in inputs))
    sys.exit(tries.finds > 0 or not taken)


if __name__ == "__main__":
    main()
