"""What `read` and `edit` of C answer, beside what stands in the modules and what other calls answer: for tests/c.py. Lists of edits are made here, byte by byte
(docs/FORMATS.md, "A list of edits"); tests/edit_mutants.py mutates them.
"""
import resource
import subprocess
import sys

sys.dont_write_bytecode = True
from answers import asked, call, choice, customs, exports, imports, placed, section
from answers import records as names_listed
from hostile import bodies, joined, leb, number, sections
from roots import TRAP, plain

DONE, BAD_EDIT, BAD_MODULE = 0, 7, 8
GC = 8
# The address space that a call may take beside what it is handed: what call.c has for its input and its output, and 64 MB.
SPACE = (512 + 64 + 16) << 20
TIMES = 20
# Of the functions, exports and custom sections of a module so many are tried, spread over all.
MOST_TRIED = 24


def record(kind, payload):
    return bytes([kind]) + leb(len(payload)) + payload


def name(text):
    return leb(len(text)) + text


def told(listed):
    """The records of a list: the byte and what each holds."""
    at = 0
    while at < len(listed):
        kind, (size, at) = listed[at], number(listed, at + 1)
        yield kind, listed[at : at + size]
        at += size


# ---- what is told of a module


def in_the_items(caller, data, flags):
    """Where other items are told than stand there."""
    status, listed = call(caller, "read", data, flags)
    if status:
        yield f"read {flags}: status {status}"
        return
    records = [*told(listed)]
    of = lambda kind: [payload for number_of, payload in records if number_of == kind]
    wanted = [body for code, content, place in placed(data) if code == 10 for body in places_of(content, place)]
    own = [payload for payload in of(10) if payload[0] == 0]
    if [numbers(payload, 1)[1:] for payload in own] != wanted:
        yield "read: other places of bodies"
    brought = [payload for kind in (10, 4, 5, 6, 13) for payload in of(kind) if payload[0] == 1]
    if len(brought) != len(of(2)) or [(one[0], one[1]) for one in map(texts, of(2))] != [(one[0], one[1]) for one in imports(data)]:
        yield "read: other imports"
    if [(texts(payload, 1)[0], *payload[-1 - len(leb(index)) :][:1], index) for payload, (_, _, index) in zip(of(7), exports(data))] != exports(data):
        yield "read: other exports"
    apart = [(its, content) for its, content in customs(data) if its not in (b"name", b"producers") and not its.startswith(b".debug")]
    if of(0) != [leb(at) + name(its) + content for at, (its, content) in enumerate(apart)]:
        yield "read: other custom sections"
    if of(8) != [content for number_of, content, _ in placed(data) if number_of == 8]:
        yield "read: another start function"
    order = [0, 1, 2, 3, 4, 5, 6, 7, 8, 9, 10, 11, 12, 13, 14]
    place = {1: 0, 2: 1, 10: 2, 4: 3, 5: 4, 13: 5, 6: 6, 7: 7, 8: 8, 9: 9, 11: 10, 0: 11, 21: 12, 20: 13, 24: 14}
    ranks = [1 if kind in (10, 4, 5, 6, 13) and payload[0] == 1 else place[kind] for kind, payload in records]
    if sorted(ranks) != ranks or not set(ranks) <= set(order):
        yield "read: another order"


def places_of(content, place):
    """The place and the size of each body of a code section."""
    count, at = number(content, 0)
    for _ in range(count):
        size, at = number(content, at)
        yield [place + at, size]
        at += size


def numbers(payload, at):
    found = []
    while at < len(payload):
        value, at = number(payload, at)
        found.append(value)
    return found


def texts(payload, most=2):
    """The names in front of a payload."""
    found, at = [], 0
    for _ in range(most):
        size, at = number(payload, at)
        found.append(payload[at : at + size])
        at += size
    return found


# ---- what edits leave


def as_gc(callers, data, flags):
    """Where no edit isn't what `gc` writes, with gc, or where that isn't taken again, without."""
    for caller in callers:
        if call(caller, "edit", data, flags | GC, b"") != call(caller, "gc", data, flags):
            yield f"edit {flags | GC} of nothing isn't gc"
        status, output = call(caller, "edit", data, flags, b"")
        if status or call(caller, "diagnose", output, 0)[1] != bytes(8):
            yield f"edit {flags} of nothing: status {status}"


def counts(listed):
    """How many items of each kind are told: types by their groups, and of the others the records."""
    records = [*told(listed)]
    types = sum(number(payload, 1)[0] if payload[0] == 0x4E else 1 for kind, payload in records if kind == 1)
    return {1: types, **{kind: sum(it == kind for it, _ in records) for kind in (0, 2, 4, 5, 6, 7, 9, 10, 11, 13)}, 8: [payload for kind, payload in records if kind == 8]}


def every_kind(data, listed):
    """Edits of every kind, of what the module has; each can be made, one behind the other. Types stand in front."""
    has, records = counts(listed), [*told(listed)]
    types, functions, globals_, memories = has[1], has[10], has[6], has[5]
    own = [at for at, payload in enumerate(payload for kind, payload in records if kind == 10) if payload[0] == 0]
    brought = [at for at, payload in enumerate(payload for kind, payload in records if kind == 10) if payload[0] == 1]
    yield record(1, b"\2\x60\0\0\x60\1\x7F\1\x7F")
    nothing, unary = leb(types), leb(types + 1)
    yield record(2, b"\2" + name(b"added") + name(b"f") + b"\0" + nothing + name(b"added") + name(b"g") + b"\3\x7E\1")
    yield record(16, unary + b"\1\1\x7E\x20\0\x0B")
    yield record(16, nothing + b"\0\x10" + leb(functions) + b"\x0B")
    last = leb(functions + 2)
    yield record(6, b"\1\x7F\1\x41\7\x0B")
    yield record(17, b"\6" + leb(globals_ + 1) + b"\x7C\0\x44" + bytes(8) + b"\x0B")
    if memories:
        payload = [payload for kind, payload in records if kind == 5][0]
        yield record(17, b"\5\0" + payload[1:])
    yield record(9, b"\1\1\0\1" + last)
    yield record(11, b"\2\1\3abc\1\0")
    yield record(17, b"\x0B" + leb(has[11]) + b"\1\2xy")
    yield record(18, b"\x09" + leb(has[9]))
    yield record(18, b"\x0B" + leb(has[11] + 1))
    yield record(7, b"\1" + name(b"added \xC3\xA9") + b"\0" + last)
    for at in range(min(has[7], 2)):
        yield record(17, b"\7" + leb(at) + name(b"renamed %d" % at) + b"\0" + last)
    yield record(18, b"\7" + leb(has[7]))
    for at in range(min(has[2], 2)):
        yield record(17, b"\2" + leb(at) + name(b"from") + name(b"%d" % at))
    for at in own[:2]:
        yield record(23, leb(at) + b"\x41\5\x1A")
    for at in own[2:4]:
        yield record(17, b"\x0A" + leb(at) + b"\0\0\x0B")
    for at in own[4:6]:
        yield record(19, b"\0" + leb(at) + name(b"brought") + name(b"%d" % at))
    for at in brought[:2]:
        yield record(17, b"\x0A" + leb(at) + b"\0\0\x0B")
    yield record(8, last)
    yield record(18, b"\x08")
    yield record(0, name(b"added") + b"bytes")
    yield record(17, b"\0" + leb(has[0]) + b"others")
    yield record(18, b"\0" + leb(has[0]))
    for what, count in ((1, types), (4, has[4]), (5, memories), (6, globals_), (9, has[9]), (10, functions), (11, has[11]), (13, has[13])):
        if count:
            yield record(20, bytes([what]) + leb(0) + name(b"named"))
            yield record(20, bytes([what]) + leb(0))
    yield record(20, b"\xFF\0" + name(b"module"))
    yield record(22, b"")
    yield record(21, name(b"sdk") + name(b"a") + name(b"1"))


def within(caller, name_of, data, *words):
    """What a call answers in the room that it may have."""
    space = SPACE + TIMES * (len(data) + sum(len(word) for word in words if isinstance(word, bytes)))
    limit = lambda: resource.setrlimit(resource.RLIMIT_AS, (space, space))
    ran = subprocess.run(asked(caller, name_of, words), input=data, capture_output=True, preexec_fn=limit, timeout=60, check=False)
    return ran.returncode, ran.stdout


def all_kinds(callers, data, flags):
    """Where edits of every kind can't be made, each of them alone or all."""
    _, listed = call(callers[0], "read", data, 0)
    records = [*every_kind(data, listed)]
    for which, caller in enumerate(callers):
        for count in range(0, len(records), 7) if which == 0 else (0,):
            front = b"".join(records[: len(records) - count])
            status, output = within(caller, "edit", data, flags, front)
            if status not in (DONE, BAD_MODULE) or (status == BAD_MODULE and not bodies(section(data, 10))):
                yield f"edit {flags} of {len(records) - count} edits: status {status}, {output[:20]!r}"
                return
            if status == DONE and call(caller, "diagnose", output, 0)[1] != bytes(8):
                yield f"edit {flags} of {len(records) - count} edits: what is written isn't taken"
    status, output = call(callers[0], "edit", data, flags, b"".join(records) + b"\x63\0")
    if (status, output) != (BAD_EDIT, b"%d" % len(records)):
        yield f"edit {flags}: an edit that is none behind {len(records)}: status {status}, {output!r}"


# ---- lists that come to what other calls make


def spread(items):
    """Some of many, from first to last."""
    items = [*items]
    return items if len(items) <= MOST_TRIED else [items[at * (len(items) - 1) // (MOST_TRIED - 1)] for at in range(MOST_TRIED)]


def own_bodies(caller, data):
    """The id and the body of each function that has one."""
    functions = (payload for kind, payload in told(call(caller, "read", data, 0)[1]) if kind == 10)
    for index, payload in enumerate(functions):
        if payload[0] == 0:
            _, place, size = numbers(payload, 1)
            yield index, data[place : place + size]


def trap(index):
    """A function has a body that traps."""
    return record(17, b"\x0A" + leb(index) + TRAP)


def beside(caller, data, flags, listed, wanted, what):
    """Where a list, with gc, comes to something else than another call."""
    found = call(caller, "edit", data, flags | GC, listed)
    if found != wanted:
        yield f"edit {flags | GC}, {what}: status {found[0]} and {len(found[1])} bytes, and not {wanted[0]} and {len(wanted[1])}"


def as_snip(callers, data, flags):
    """Where bodies that are set to trap aren't what `snip` writes: of functions alone, and of all at once."""
    indices = [index for index, _ in own_bodies(callers[0], data)]
    for which, some in enumerate([*([index] for index in spread(indices)), indices] if indices else []):
        wanted = call(callers[which % 2], "snip", data, flags, choice([b"%d" % index for index in some]))
        yield from beside(callers[which % 2], data, flags, b"".join(map(trap, some)), wanted, f"a trap in {some[:9]}")


def as_stub(callers, data, flags):
    """Where imported functions that are set to trap aren't what `stub` writes: of each module that is imported from, and of the names of one."""
    functions = [one[:2] for one in imports(data) if one[2] == 0]
    for which, module in enumerate(dict.fromkeys(module for module, _ in functions)):
        listed = b"".join(trap(index) for index, one in enumerate(functions) if one[0] == module)
        wanted = call(callers[which % 2], "stub", data, flags, choice([plain(module)]))
        yield from beside(callers[which % 2], data, flags, listed, wanted, f"traps for {module}")
    for which, (module, name_of) in enumerate(spread(dict.fromkeys(functions))):
        listed = b"".join(trap(index) for index, one in enumerate(functions) if one == (module, name_of))
        wanted = call(callers[which % 2], "stub", data, flags, choice([plain(module)]), choice([plain(name_of)]))
        yield from beside(callers[which % 2], data, flags, listed, wanted, f"traps for {module} {name_of}")


def as_strip(callers, data, flags):
    """Where custom sections that are deleted aren't what `strip` leaves, and gc of it."""
    apart = [its for its, _ in customs(data) if its not in (b"name", b"producers") and not its.startswith(b".debug")]
    for which, name_of in enumerate([*spread(dict.fromkeys(apart)), None] if apart else []):
        listed = b"".join(record(18, b"\0" + leb(at)) for at, its in enumerate(apart) if name_of in (None, its))
        names = [name_of] if name_of is not None else [*dict.fromkeys(apart)]
        left = call(callers[which % 2], "strip", data, 0, choice([plain(its) for its in names]))[1]
        yield from beside(callers[which % 2], data, flags, listed, call(callers[which % 2], "gc", left, flags), f"without {names}")


def as_chosen(callers, data, flags):
    """Where exports that are deleted aren't those that go by a choice: all but one, one alone, and all."""
    names = [name_of for name_of, *_ in exports(data)]
    for which, name_of in enumerate(spread(names)):
        for kind, goes in ((1, lambda it: it != name_of), (0, lambda it: it == name_of)):
            listed = b"".join(record(18, b"\x07" + leb(at)) for at, its in enumerate(names) if goes(its))
            wanted = call(callers[which % 2], "gc", data, flags, names_listed([(kind, plain(name_of))]))
            yield from beside(callers[which % 2], data, flags, listed, wanted, f"exports chosen by {kind} {name_of}")
    if names:
        listed = b"".join(record(18, b"\x07" + leb(at)) for at in range(len(names)))
        yield from beside(callers[0], data, flags, listed, call(callers[0], "gc", data, flags, names_listed([(0, b"*")])), "no exports")


def without_locals(module):
    """The module without the names of locals in its name section, which goes where nothing is left in it."""
    found = []
    for number_of, content in sections(module):
        if number_of == 0 and content.startswith(name(b"name")):
            listed = b"".join(record(kind, payload) for kind, payload in told(content[5:]) if kind != 2)
            content = name(b"name") + listed if listed else None
        found += [] if content is None else [(number_of, content)]
    return joined(found)


def bodies_again(callers, data, flags):
    """Where each function's own body, set again, comes to other bytes but for names of locals: of all functions at once, and of some alone under gc."""
    own = [*own_bodies(callers[0], data)]
    again = [record(17, b"\x0A" + leb(index) + body) for index, body in own]
    for which, caller in enumerate(callers):
        for gc in (0, GC):
            _, wanted = call(caller, "edit", data, flags | gc, b"")
            status, output = call(caller, "edit", data, flags | gc, b"".join(again))
            if status or output != (without_locals(wanted) if own else wanted):
                yield f"edit {flags | gc}, all bodies again: status {status} and {len(output)} bytes, and not {len(wanted)}"
    wanted = without_locals(call(callers[0], "edit", data, flags | GC, b"")[1])
    for (index, _), one in zip(spread(own), spread(again)):
        status, output = call(callers[0], "edit", data, flags | GC, one)
        if status or without_locals(output) != wanted:
            yield f"edit {flags | GC}, body {index} again: status {status} and {len(output)} bytes, and not {len(wanted)}"


def refused_lists(edits):
    """Lists that are refused, made of edits that can be made: an edit that is none behind all, one that is cut, and two exports of one name."""
    export = next(edit for edit in edits if edit[0] == 7)
    front = b"".join(edits)
    yield from (front + b"\x63\0", front[:-1], b"".join(edits[: edits.index(export) + 1]) + export)
