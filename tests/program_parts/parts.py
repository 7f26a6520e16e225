"""The lines and objects of sections, functions and data segments that mulkavesh has to write, for the parts of tests/program.py."""
import collections
import re

from .modules import imported_functions, named, read_name, read_number, sections


def bodies_of(data):
    """How many bytes the body of each function has, by its index."""
    return {it["index"]: it["size"] for _, it in parts(data) if it["kind"] == "function" and "id" not in it}


def shown_name(text):
    return "" if text is None else " " + re.sub(r"[\x00-\x1f\x7f-\x9f\u2028-\u202e\u2066-\u2069]", "?", text)


# the standard's words for sections, by their ids
WORDS = (None, "type", "import", "function", "table", "memory", "global", "export", "start", "element", "code", "data", "data count", "tag")


def is_fit(title, text):
    """Whether a text fits a NAME, in which a star stands for any bytes, and a backslash and a star for a star."""
    parts = re.findall(rb"\\\*|.", title, re.DOTALL)
    pattern = b"".join(b".*" if part == b"*" else b"\\*" if part == b"\\*" else re.escape(part) for part in parts)
    return re.fullmatch(pattern, text, re.DOTALL) is not None


def section_rows(data):
    """Each whole section: its id, its name, its place, its whole length, and the count of its entries; and the place where they end."""
    rows, at = [], 8
    while at < len(data):
        try:
            size, begin = read_number(data, at + 1)
        except IndexError:
            break
        if begin + size > len(data):
            break
        code, content = data[at], data[begin : begin + size]
        try:
            count = read_number(content, 0)[0] if 0 < code < 14 and code not in (8, 12) else None
        except IndexError:
            count = None
        rows.append((code, read_name(content, 0)[0].decode() if code == 0 else None, at, begin + size - at, count))
        at = begin + size
    return rows, at


def section_text(code, text, at, length, count):
    what = "custom" + shown_name(text) if code == 0 else WORDS[code] if code < len(WORDS) else f"unknown {code}"
    return f"{at} {length} {what}" + ("" if count is None else f" {count}") + "\n"


def section_object(code, text, at, length, count):
    kind = "custom" if code == 0 else WORDS[code] if code < len(WORDS) else "unknown"
    return {"id": code, "kind": kind, "name": text, "start": at, "size": length, "entries": count}


# how many numbers stand behind an operator of a constant expression
NUMBERS = {0x41: 1, 0x42: 1, 0x23: 1, 0xD0: 1, 0xD2: 1, 0x6A: 0, 0x6B: 0, 0x6C: 0, 0x7C: 0, 0x7D: 0, 0x7E: 0}


def behind_segment(content, at):
    """The place behind a data segment, whose offset is of numbers."""
    flags, at = read_number(content, at)
    at = read_number(content, at)[1] if flags == 2 else at
    while flags != 1 and content[at] != 0x0B:
        operator, at = content[at], at + 1
        for _ in range(NUMBERS[operator]):
            at = read_number(content, at)[1]
    size, begin = read_number(content, at + (flags != 1))
    return begin + size


def items(data, code, content, place, before):
    """The functions or the data segments of a section: what each is, its index, its place and its length; `before` says how many stand before."""
    count, at = read_number(content, 0) if code in (10, 11) else (0, 0)
    for _ in range(count):
        begin = at
        if code == 10:
            size, begin = read_number(content, at)
            at = begin + size
        else:
            at = behind_segment(content, at)
        yield WORDS[3] if code == 10 else WORDS[11], before[code], place + begin, at - begin
        before[code] += 1


def parts(data):
    """The line and the object of each part of a module."""
    before, rows = {10: imported_functions(data), 11: 0}, section_rows(data)[0]
    for row, (code, content, length) in zip(rows, sections(data)):
        yield section_text(*row), section_object(*row)
        for word, index, start, size in items(data, code, content, row[2] + length - len(content), before):
            yield f"  {start} {size} {word} {index}\n", {"kind": word, "index": index, "start": start, "size": size}


TRAP = b"\0\0\x0b"


def code_of(data):
    """The body of each function that has one, by the name that it has alone."""
    names = {index: text for text, index in named(data)}
    bodies = {it["index"]: data[it["start"] : it["start"] + it["size"]] for _, it in parts(data) if it["kind"] == "function" and "id" not in it}
    texts = collections.Counter(names.values())
    return {names[index]: code for index, code in bodies.items() if index in names and texts[names[index]] == 1}
