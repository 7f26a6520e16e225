#!/usr/bin/env python3
"""Makes a large valid module of another one: repeated.py FILE BYTES > OUT

The code of FILE, as often as it goes into BYTES, but once at least, and every function exported; each repetition calls functions of the first
one. Types, imports, tables, memories, tags and globals stay as they are. Segments, the start and custom sections are left out, so that OUT is
valid only where no body of FILE names a segment.
"""
import sys

sys.dont_write_bytecode = True
from make import function_exports, module, unsigned


class Reader:
    def __init__(self, data, at=0):
        self.data, self.at = data, at

    def byte(self):
        self.at += 1
        return self.data[self.at - 1]

    def number(self):
        value, shift = 0, 0
        while True:
            byte = self.byte()
            value |= (byte & 0x7F) << shift
            shift += 7
            if byte < 0x80:
                return value

    def sized(self):
        size = self.number()
        self.at += size
        return self.data[self.at - size : self.at]

    def rest(self):
        return self.data[self.at :]

    def pass_type(self):
        """A type of values: some name another type."""
        if self.byte() in (0x63, 0x64):
            self.number()

    def pass_limits(self):
        has_maximum = self.byte() & 1
        self.number()
        if has_maximum:
            self.number()

    def import_kind(self):
        """The kind of an import, which is read to its end: a function, a table, a memory, a global or a tag."""
        self.sized()
        self.sized()
        kind = self.byte()
        if kind in (1, 3):
            self.pass_type()
        if kind in (1, 2):
            self.pass_limits()
        if kind in (3, 4):
            self.byte()
        if kind in (0, 4):
            self.number()
        return kind


def contents_of(data):
    """What stands in each section but custom ones, by its number."""
    reader, contents = Reader(data, 8), {}
    while reader.at < len(data):
        number = reader.byte()
        contents[number] = reader.sized()
    contents.pop(0, None)
    return contents


def repeated_list(content, times):
    reader = Reader(content)
    count = reader.number() * times
    return count, unsigned(count) + reader.rest() * times


def main():
    file, size = sys.argv[1], int(sys.argv[2])
    with open(file, "rb") as source:
        contents = contents_of(source.read())
    times = max(1, size // len(contents[10]))
    imports = Reader(contents.get(2, b"\x00"))
    imported = sum(imports.import_kind() == 0 for _ in range(imports.number()))
    count, contents[3] = repeated_list(contents[3], times)
    contents[7] = function_exports(count, imported)
    _, contents[10] = repeated_list(contents[10], times)
    sys.stdout.buffer.write(module((number, contents[number]) for number in (1, 2, 3, 4, 5, 13, 6, 7, 10) if number in contents))


main()
