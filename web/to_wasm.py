#!/usr/bin/env python3
"""LLVM's text of the library for x86-64, from standard input, turned into one for wasm32, on standard output.

    web/to_wasm.py [--proved] < IN.ll > OUT.ll

The code has lengths of 64 bits whatever the target, and so has what it keeps in memory: a pointer there stays eight bytes wide. It is stored and loaded as a
number of 64 bits, which is cut to a pointer. Nothing else sees how wide a pointer is: the text has no other way from a pointer to a number or back, and no
constant that holds a pointer; a line that this script doesn't know and that has one is refused. With nothing proved, the bytes go with which each local is
filled first.
"""
import re
import sys

LAYOUT = "e-m:e-p:32:32-p10:8:8-p20:8:8-i64:64-i128:128-n32:64-S128-ni:1:10:20"
STORE = re.compile(r"^(\s*)store ptr (.+?), ptr (.+)$")
LOAD = re.compile(r"^(\s*)(%\S+) = load ptr, ptr (.+)$")
PAIR = re.compile(r"^(\s*)(%\S+) = load \{ (\w+), (\w+) \}, ptr (.+)$")
ALLOCA = re.compile(r"= alloca ptr\b")
FILL = re.compile(r"\s*call void @llvm\.memset\.p0\.i64\(ptr \S+, i8 -86, i64 \d+, i1 false\)")
MACHINE = re.compile(r'"(target-cpu|target-features|tune-cpu|probe-stack|stack-probe-size|frame-pointer)"="[^"]*"')
# What would have to know how wide a pointer in memory is, and isn't turned.
UNKNOWN = re.compile(r"(?:= load|\bstore) (?:volatile |atomic )*(?:ptr\b|[\[<{][^]>}]*\bptr\b)|= alloca (?:ptr\b|[\[<{][^]>}]*\bptr\b)|\b(?:inttoptr|ptrtoint) ")
GLOBAL = re.compile(r"^@\S+ = [^\"]*\b(?:constant|global) [^\"]*\bptr\b")


def pair(found, name):
    """The lines that load two fields, of which one is a pointer."""
    indent, result, *kinds, rest = found.groups()
    rest, now = rest.partition(", !")[0], "poison"
    wide = ["i64" if kind == "ptr" else kind for kind in kinds]
    yield f"{indent}{name} = load {{ {wide[0]}, {wide[1]} }}, ptr {rest}"
    for at, kind in enumerate(kinds):
        yield f"{indent}{name}.{at} = extractvalue {{ {wide[0]}, {wide[1]} }} {name}, {at}"
        value = f"{name}.{at}"
        if kind == "ptr":
            yield f"{indent}{name}.p{at} = inttoptr i64 {value} to ptr"
            value = f"{name}.p{at}"
        made = result if at else f"{name}.half"
        yield f"{indent}{made} = insertvalue {{ {kinds[0]}, {kinds[1]} }} {now}, {kind} {value}, {at}"
        now = made


def turned(line, number):
    """The lines that stand for one of a function."""
    name = f"%wide{number}"
    store, load, both = STORE.match(line), LOAD.match(line), PAIR.match(line)
    if store:
        return [f"{store[1]}{name} = ptrtoint ptr {store[2]} to i64", f"{store[1]}store i64 {name}, ptr {store[3]}"]
    if load:
        place = load[3].partition(", !")[0]
        return [f"{load[1]}{name} = load i64, ptr {place}", f"{load[1]}{load[2]} = inttoptr i64 {name} to ptr"]
    if both and "ptr" in (both[3], both[4]):
        return [*pair(both, name)]
    line = ALLOCA.sub("= alloca i64", line)
    if GLOBAL.match(line) or UNKNOWN.search(line):
        sys.exit(f"to_wasm: a pointer in memory that isn't turned: {line}")
    return [line.replace(" ptrtoaddr ptr ", " ptrtoint ptr ")]


def main():
    if sys.argv[1:] not in ([], ["--proved"]):
        sys.exit("usage: web/to_wasm.py [--proved] < IN.ll > OUT.ll")
    for number, line in enumerate(sys.stdin):
        line = line.rstrip("\n")
        if line.startswith("target datalayout"):
            lines = [f'target datalayout = "{LAYOUT}"']
        elif line.startswith("target triple"):
            lines = ['target triple = "wasm32-unknown-unknown"']
        elif line.startswith("attributes #"):
            lines = [MACHINE.sub("", line).replace("{", "{ nounwind", 1)]
        elif FILL.match(line) and not sys.argv[1:]:
            lines = []
        else:
            lines = turned(line, number)
        sys.stdout.writelines(f"{it}\n" for it in lines)


if __name__ == "__main__":
    main()
