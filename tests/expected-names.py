#!/usr/bin/env python3
"""Compares nothing itself: it makes the lists of names by other tools that tests/samples.sh compares with those of wasm_copy.

    tests/expected-names.py MODULE > tests/names/NAME.txt

It is what `wasm_copy --names` has to print. The namings are those of `wasm-objdump -x` (wabt), which prints each entry of a custom section `name` in
order; the values of producers, which it doesn't print, those of `obj2yaml` (LLVM). Both are found on the path, or by WASM_OBJDUMP and OBJ2YAML. Names
of tags are left out: wabt keeps them in the subsection 10, which is that of fields by now, and tags have 11. A list of more than 400 lines is cut
down to its count, a hash of it, and its first and last 50 lines.
"""
import hashlib
import os
import re
import subprocess
import sys

KINDS = {
    b"func": b"function",
    b"type": b"type",
    b"table": b"table",
    b"memory": b"memory",
    b"global": b"global",
    b"elemseg": b"element",
    b"dataseg": b"data",
}
FIELDS = {b"Languages": b"language", b"Tools": b"processed-by", b"SDKs": b"sdk"}


def output_of(variable, program, *words):
    command = [os.environ.get(variable, program), *words]
    return subprocess.run(command, stdout=subprocess.PIPE, stderr=subprocess.DEVNULL, check=False).stdout


def namings(text):
    """The lines of the sections `name`, from the text of `wasm-objdump -x`."""
    told, inside = [], False
    for line in text.split(b"\n"):
        if line.startswith(b' - name: "'):
            inside = line == b' - name: "name"'
        elif not line.startswith(b" - "):
            inside = False
        elif inside and not line.startswith(b" - tag["):
            told.append(naming(line))
    return told


def naming(line):
    found = re.fullmatch(rb" - module <(.*)>", line)
    if found:
        return b'module "%s"' % found[1]
    found = re.fullmatch(rb" - func\[(\d+)\] local\[(\d+)\] <(.*)>", line)
    if found:
        return b'local %s %s "%s"' % found.groups()
    found = re.fullmatch(rb" - (\w+)\[(\d+)\] <(.*)>", line)
    return b'%s %s "%s"' % (KINDS[found[1]], found[2], found[3])


def plain(scalar):
    """A scalar of YAML as `obj2yaml` writes names and versions."""
    return scalar[1:-1].replace(b"''", b"'") if scalar.startswith(b"'") else scalar


def producers(text):
    """The lines of the section `producers`, from the text of `obj2yaml`."""
    told, field, name, inside = [], None, None, False
    for line in text.split(b"\n"):
        word, _, rest = line.strip().partition(b":")
        rest = rest.strip()
        if line.startswith(b"  - Type:"):
            inside = False
        elif word == b"Name" and rest == b"producers":
            inside = True
        elif inside and word in FIELDS and not rest:
            field = FIELDS[word]
        elif inside and word == b"- Name":
            name = plain(rest)
        elif inside and word == b"Version":
            told.append(b'producers %s "%s" "%s"' % (field, name, plain(rest)))
    return told


def shortened(lines):
    """The list, or its count, hash and ends where it is long."""
    if len(lines) <= 400:
        return lines
    digest = hashlib.sha256(b"".join(line + b"\n" for line in lines)).hexdigest()
    head = [b"%d lines" % len(lines), b"sha256 %s" % digest.encode()]
    return head + lines[:50] + [b".."] + lines[-50:]


def main():
    if sys.argv[1] == "--shorten":
        lines = sys.stdin.buffer.read().split(b"\n")[:-1]
    else:
        lines = namings(output_of("WASM_OBJDUMP", "wasm-objdump", "-x", sys.argv[1]))
        lines += producers(output_of("OBJ2YAML", "obj2yaml", sys.argv[1]))
    sys.stdout.buffer.write(b"".join(line + b"\n" for line in shortened(lines)))


main()
