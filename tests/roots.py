"""Where the calls under a choice of exports, and those that edit functions and imports, answer otherwise than they have to: for tests/c.py.

What is made under a choice is held against what is made of a module whose exports were taken away by hand. Reasons are held against lists, against what
is imported and exported, and against what is left where a function traps.
"""
import struct
import sys

sys.dont_write_bytecode = True
from answers import (
    INVALID, NOT_FOUND, UNKNOWN_FLAG, by_program, call, choice, entries, exports, fits, framed, function_names, imported, imports, links, reason, records,
    section, with_exports,
)
from hostile import bodies, number, sections

# The numbers of kinds of items, and those of the kinds of exports that bring them out.
FUNCTION, ELEMENT, DATA = 1, 6, 7
EXPORTED_AS = {1: 0, 2: 1, 3: 2, 5: 3, 4: 4}
# What makes a link a root.
NOT_REACHED, EXPORTED, START, ACTIVE, DECLARED = range(5)
MOST_BYTES_OF_A_NAME = 1_000
# A body without locals that traps.
TRAP = b"\0\0\x0b"


def plain(name):
    """A NAME that fits this name alone."""
    return name.replace(b"*", b"\\*")


def choices_of(data):
    """Lists of NAMEs, each behind a byte that is 1 where exports are kept."""
    names = [plain(name) for name, *_ in exports(data) if len(name) < MOST_BYTES_OF_A_NAME]
    yield from ([], [(1, b"*")], [(0, b"*")], [(1, b"no export has this name")], [(1, b"*e*"), (0, b"*a*")])
    if names:
        yield from ([(1, names[0])], [(0, names[-1])], [(1, b"*"), (0, names[len(names) // 2]), (0, b"none")], [(1, name) for name in names[::3]])


def chosen(names, pairs):
    """Which of the names are chosen, or the number of the first NAME that fits none."""
    for number_of, (_, pattern) in enumerate(pairs):
        if not any(fits(pattern, name) for name in names):
            return number_of
    keeps, drops = ([pattern for kind, pattern in pairs if kind == which] for which in (1, 0))
    kept = [name for name in names if not keeps or any(fits(one, name) for one in keeps)]
    return {name for name in kept if not any(fits(one, name) for one in drops)}


def told(number_of):
    """A refusal as a caller tells it."""
    return NOT_FOUND, str(number_of).encode() if number_of else b""


def lines(program, data, less, output, gone):
    """What `report` has to say."""
    debug = sum(size for _, name, _, _, size in framed(data)[0] if name and name.startswith(b".debug"))
    lost = sum(size for _, size, _ in gone)
    rest = len(data) - lost - debug - len(output)
    text = f"bytes read {len(data)} written {len(output)}\nbytes of dropped functions {lost}\nbytes of debug information {debug}\n"
    text += f"bytes of the rest {abs(rest)} {'less' if rest >= 0 else 'more'}\n"
    text += "functions stand by falling size, so indices may take more bytes\n" if len(output) > len(data) else ""
    return by_program(program, ["--report"], less)[1] + text.encode()


def dropped(data, kept):
    """What goes of the functions with a body, where these stay: index, bytes and name."""
    first, names = sum(kind == 0 for *_, kind in imports(data)), function_names(data)
    for index, body in enumerate(bodies(section(data, 10)), first):
        if index not in kept:
            yield index, len(body), names.get(index)


def exported(data, names):
    return b"".join(struct.pack("<BII", kind, index, len(name)) + name for name, kind, index in exports(data) if name in names)


def not_imported(data, output, listed):
    """Where what is told of imports isn't what the output imports, or doesn't stand so in the input."""
    found, counts, at = [*imported(listed)], {}, {}
    for place, (module, name, kind) in enumerate(imports(data)):
        at[kind, counts.get(kind, 0)] = (place, module, name)
        counts[kind] = counts.get(kind, 0) + 1
    places = [at.get((kind, index), (None,)) for kind, index, *_ in found]
    if [one[1:] for one in places] != [one[2:] for one in found] or [one[0] for one in places] != sorted(one[0] for one in places):
        yield f"imports: {found} don't stand so"
    if [(module, name, kind) for kind, _, module, name in found] != [*imports(output)]:
        yield f"imports: {found}, and the output has others"


def under_a_choice(program, callers, data, pairs, flags=0):
    """Where a call under a choice answers otherwise than it has to."""
    given, names = records(pairs), chosen([name for name, *_ in exports(data)], pairs)
    calls = ("gc", "report", "list", "dropped", "exports", "imports")
    found = {name: call(callers[which % len(callers)], name, data, flags, given) for which, name in enumerate(calls)}
    if isinstance(names, int):
        for name in calls:
            if found[name] != told(names):
                yield f"{name} {pairs}: {found[name]}, and not {told(names)}"
        return
    less = with_exports(data, names)
    words = [word for word, flag in (("--no-names", 1), ("--no-producers", 2), ("--no-legacy", 4)) if flags & flag]
    output, listed = by_program(program, words, less), call(callers[0], "list", less, flags)
    gone = [*dropped(data, {index for index, *_ in entries(listed[1])})]
    wanted = {"gc": output, "report": (0, lines(program, data, less, output[1], gone)), "list": listed, "exports": (0, exported(data, names))}
    for name, one in wanted.items():
        if found[name] != one:
            yield f"{name} {pairs}: status {found[name][0]} and {len(found[name][1])} bytes, and not {one[0]} and {len(one[1])}"
    if [*entries(found["dropped"][1])] != gone or found["dropped"][0]:
        yield f"dropped {pairs}: other functions than {gone}"
    yield from not_imported(data, output[1], found["imports"][1])


def under_choices(program, callers, data):
    """The same under several choices, in turn under several flags."""
    for which, pairs in enumerate(choices_of(data)):
        yield from under_a_choice(program, callers, data, pairs, which % 4)


# ---- reasons


def start(data):
    """The index of the start function, or None."""
    return next((number(content, 0)[0] for number_of, content in sections(data) if number_of == 8), None)


class Known:
    """What is known of a module, by which reasons are looked at."""

    def __init__(self, caller, data, pairs):
        self.caller, self.data, self.pairs = caller, data, pairs
        self.given = records(pairs)
        self.chosen = chosen([name for name, *_ in exports(data)], pairs)
        self.listed = {index: (size, name) for index, size, name in entries(call(caller, "list", data, 0, self.given)[1])}
        self.first = sum(kind == 0 for *_, kind in imports(data))
        self.count = self.first + len(bodies(section(data, 10)))
        self.names = function_names(data)

    def of(self, name, text):
        return call(self.caller, name, self.data, 0, self.given, text)

    def exports_of(self, item):
        """The names under which an item is exported still."""
        return [name for name, kind, index in exports(self.data) if name in self.chosen and (kind, index) == (EXPORTED_AS.get(item[0]), item[1])]

    def in_a_link(self, link):
        """Where a link isn't as it has to be."""
        item, size, name, names = link
        if names != self.exports_of(item):
            yield f"link {link}: other exports"
        if item[0] == FUNCTION and (size, name) != self.listed.get(item[1], (None, self.names.get(item[1]))):
            yield f"link {link}: another size or name"
        if item[0] != FUNCTION and size is not None:
            yield f"link {link}: a size of what has no body"

    def is_root(self, root, link):
        item, _, _, names = link
        kinds = {EXPORTED: bool(names), START: item == (FUNCTION, start(self.data)), ACTIVE: item[0] in (ELEMENT, DATA), DECLARED: item[0] == ELEMENT}
        return kinds.get(root, False)

    def left_without(self, index):
        """How many functions are left where this one traps."""
        reduced = with_exports(self.data, self.chosen)
        output = call(self.caller, "snip", reduced, 0, choice([str(index).encode()]))[1]
        return sum(kind == 0 for *_, kind in imports(output)) + len(bodies(section(output, 10)))


def in_a_chain(known, text, wanted):
    """Where what is told of a text, which means this item, isn't as it has to be."""
    status, answer = known.of("why", text)
    if status:
        yield f"why {text}: status {status}"
        return
    item, root, alone, chain = reason(answer)
    if item != wanted or (root == NOT_REACHED) != (not chain) or chain and (chain[-1][0] != item or not known.is_root(root, chain[0])):
        yield f"why {text}: {item}, {root}, {chain}"
    for link in chain:
        yield from known.in_a_link(link)
    is_body = item[0] == FUNCTION and item[1] >= known.first
    if is_body and bool(chain) != (item[1] in known.listed) or bool(alone) != (is_body and bool(chain)):
        yield f"why {text}: {len(chain)} links, and {alone}"
    yield from in_the_callers(known, text, chain)
    if alone:
        count, size = alone
        all_functions = len(known.listed) + sum(kind == 0 for *_, kind in imports(call(known.caller, "gc", known.data, 0, known.given)[1]))
        if count != all_functions - known.left_without(item[1]) + 1 or size < known.listed[item[1]][0]:
            yield f"why {text}: {count} functions and {size} bytes would go"


def in_the_callers(known, text, chain):
    """Where the callers of what a text means, to which this chain leads, aren't as they have to be."""
    status, answer = known.of("callers", text)
    found = [*links(answer)] if status == 0 else []
    items = [item for item, *_ in found]
    if status or items != sorted(set(items)) or len(chain) > 1 and chain[-2][0] not in items:
        yield f"callers {text}: status {status}, {items}"
    for link in found:
        yield from known.in_a_link(link)
        if link[0][0] == FUNCTION and link[0][1] not in known.listed:
            yield f"callers {text}: {link} doesn't stay"


def in_the_chains(caller, data, pairs=()):
    """Where reasons aren't as they have to be: of each function, by its index, and of each export, by its name."""
    known = Known(caller, data, [*pairs])
    if isinstance(known.chosen, int):
        return
    for index in range(known.count):
        yield from in_a_chain(known, str(index).encode(), (FUNCTION, index))
    taken = set(known.names.values()) | {name for name, *_ in exports(data) if name.isdigit()}
    for name, kind, index in exports(data):
        if name in known.chosen and name not in taken and len(name) < MOST_BYTES_OF_A_NAME:
            of_export = {number_of: of_item for of_item, number_of in EXPORTED_AS.items()}
            yield from in_a_chain(known, name, (of_export[kind], index))
    for nothing in (str(known.count).encode(), b"nothing has this name", b"\xFF"):
        for name in ("why", "callers"):
            if known.of(name, nothing) != told(len(known.pairs)):
                yield f"{name} {nothing}: {known.of(name, nothing)}"


# ---- functions and imports that are replaced


def is_settled(program, output):
    return by_program(program, [], output) == (0, output)


def snipped(program, caller, data):
    """Where a function doesn't trap that was snipped, or what is written isn't settled, or exports otherwise."""
    first = sum(kind == 0 for *_, kind in imports(data))
    kept = {index for index, *_ in entries(call(caller, "list", data)[1])}
    for index in range(first + len(bodies(section(data, 10))) + 1):
        status, output = call(caller, "snip", data, 0, choice([str(index).encode()]))
        if (status == 0) != (first <= index < first + len(bodies(section(data, 10)))) or status not in (0, NOT_FOUND):
            yield f"snip {index}: status {status}"
        if status == 0 and (not is_settled(program, output) or [one[:2] for one in exports(output)] != [one[:2] for one in exports(data)]):
            yield f"snip {index}: not settled, or other exports"
        if status == 0 and index in kept and TRAP not in bodies(section(output, 10)):
            yield f"snip {index}: nothing traps"
    status, output = call(caller, "snip", data, 2, choice([b"*"]))
    named = {index for index in function_names(data)} | {index for _, kind, index in exports(data) if kind == 0}
    if (status == 0) != any(index >= first for index in named):
        yield f"snip *: status {status}"
    if named >= kept and status == 0 and set(bodies(section(output, 10))) - {TRAP}:
        yield "snip *: not each body traps"
    if call(caller, "snip", data, 0, choice([b"nothing has this name"])) != (NOT_FOUND, b"") or call(caller, "snip", data, 0, choice([b"\xFF"])) != (NOT_FOUND, b""):
        yield "snip: a function that isn't there"
    if call(caller, "snip", data, 0, b"") != call(caller, "gc", data):
        yield "snip: no function"


def stubbed(program, caller, data):
    """Where an import stays that was stubbed, or another one goes, or what is written isn't settled."""
    functions = [one[:2] for one in imports(data) if one[2] == 0]
    kept = [*imports(call(caller, "gc", data)[1])]
    for module in dict.fromkeys(module for module, *_ in imports(data)):
        status, output = call(caller, "stub", data, 0, choice([plain(module)]))
        if (status == 0) != any(one[0] == module for one in functions) or status not in (0, NOT_FOUND):
            yield f"stub {module}: status {status}"
        if status == 0 and (not is_settled(program, output) or any(one[::2] == (module, 0) for one in imports(output))):
            yield f"stub {module}: not settled, or still imported"
    for module, name in dict.fromkeys(functions):
        status, output = call(caller, "stub", data, 0, choice([plain(module)]), choice([plain(name)]))
        if status or [*imports(output)] != [one for one in kept if one != (module, name, 0)]:
            yield f"stub {module} {name}: status {status}, or other imports"
    if functions and call(caller, "stub", data, 0, choice([b"*"]), choice([b"*"], [b"*"])) != (NOT_FOUND, b""):
        yield "stub: names that stay after all"
    if {call(caller, "stub", data, 0, one) for one in (b"", choice([b"nothing has this name"]), choice([b"\xFF"]))} != {(NOT_FOUND, b"")}:
        yield "stub: an import that isn't there"


def no_list(callers, data):
    """Where bytes are taken for a list of NAMEs that are none, or for one of functions."""
    whole = records([(1, b"*"), (0, b"name")])
    bad = [*(whole[:size] for size in range(1, len(whole)) if size != 6), b"\2" + whole[1:], whole + b"\0", b"\xFF" * 5]
    calls = [(name, 0, one) for name in ("gc", "report", "list", "dropped", "exports", "imports", "why", "callers", "snip", "stub", "strip") for one in bad]
    calls += [("stub", 0, choice([b"*"]), one) for one in bad] + [("snip", 0, records([(0, b"0"), (1, b"0")])), ("snip", 0, records([(1, b"0")]))]
    for which, words in enumerate(calls):
        if call(callers[which % len(callers)], words[0], data, *words[1:]) != (UNKNOWN_FLAG, b""):
            yield f"{words[0]}: {words[1:]} is taken"


def refused_first(caller, data, flags):
    """Where bytes that are no module are told otherwise under a choice, or with a text that is none."""
    for name in ("gc", "why"):
        for given, text in ((records([(1, b"none")]), b"none"), (b"", b"\xFF")):
            found = call(caller, name, data, flags, given, text)
            if found != (INVALID, b""):
                yield f"{name}: {found}"
