#!/usr/bin/env python3
"""Prints the public calls of a crate; and makes docs/CALLS.md, those of the crate `walrus` in a line each, which `tools/form.py` compares.

    tools/calls.py CRATE    prints the public calls of a crate of crates.txt, with the text of their clauses, and the records that these name
    tools/calls.py          prints docs/CALLS.md
    tools/calls.py --write  writes it

Of a crate are printed, file by file and as they stand there: the public functions, those of public types and of public traits, and laws, each
with its comment, its signature and its clauses. Of a program these are the functions that its modules hand on (`pub(crate)` too) and that have a
clause. What a crate hands on of others stands with those. A name that isn't in crates.txt is refused in a line, with status 2.

Where a clause has no name and begins with a word of specs, the page says the word, and the fields of the records that it comes to (clauses.py): those
of what holds, and behind `refused:` those of what holds of a refusal. Of a crate, such a word and its records are printed below the call as they
stand, with the records that their fields are: each once.

A call of the page is a public function of what `crates/walrus/src/lib.rt` hands on, of its public modules and of the types there, followed down the
`pub use` lines to where it stands; and of types that have no name there but come from such a call. The sources are taken apart with
regular expressions, and Rust's grammar isn't known here: heads of items stand at the beginning of a line, those of methods four columns
behind it, as `rt fmt` lays them out.
"""
import functools
import pathlib
import re
import sys
import textwrap

sys.dont_write_bytecode = True
import clauses
from specs import uses_of_source
from specs import whole as whole_definitions

TOP = pathlib.Path(__file__).resolve().parent.parent
CRATES = TOP / "crates"
PAGE = TOP / "docs" / "CALLS.md"
HEAD = """# The calls of `walrus`

Made by `tools/calls.py --write` from the sources: each public call with its signature, the first sentence of what its source says of it, in words
what it asks of its caller, and the names of the clauses that it ensures, where they have names. Where a clause has none and is a word of `specs`, the
word stands for it, with the fields of its record, if it has one, and behind `refused:` what holds of a refusal. `tools/calls.py CRATE` prints clauses
and fields. docs/PROMISES.md has what the main ones say, docs/DEFINITIONS.md the words in them. A type stands once, where it is first handed on, or
behind what names it where it has no name there (unnamed). Public fields stand in front of a type's calls (`.name`), cases of an enum behind `|`. Names
of traits stand for the calls that they bring. What callers need first stands first; what lies below a module stands in front of the laws, which end
the page.
"""
# The parts of what `walrus` itself hands on, by the crates in which it stands.
GROUPS = {
    "Modules": ("walrus_module",),
    "Items, collection by collection": ("walrus_items",),  # but for the files of it that are named below
    "Errors, custom sections, what imports bring and exports export": (
        *(f"walrus_items/{it}" for it in (
            "custom", "equality", "error", "function_kind", "kinds", "marks", "raw_section", "roots", "segments", "transform")),
        "walrus_producers", "walrus"),
    "Building functions": ("walrus_ir",),
    "Functions with a body, and operators": ("walrus_bodies", "walrus_functions", "walrus_code"),
    "Types and constants": ("walrus_base",),
    "Ids": tuple(f"walrus_base/{it}" for it in ("arena", "id", "keys", "marks", "set")),
}
# The crates of which a type without a name stands behind what names it; those of all others stand under `walrus::below`.
OF_MODULES = ("walrus_module", "walrus_items", "walrus")
# What calls ask, by what their clauses say: the first pattern that fits.
ASKED = (
    (r"^IsReady ", "the module is ready"),
    (r"^IsLive \(parts_view parts\)", "the item is there"),
    (r"IsLive \((?:exports|held|locals|slots|type_slots)\b", "the id is live"),
    (r"\w+\.IsAlwaysCallable (\w+)", r"`\1` may always be called"),
    (r"F\.pre make id$", "`make` may be called with the id of the next place"),
    (r"^AreInPlace ids\.now$", "under each index stands the id of the same place"),
    (r"IfSome texts\.now .*AreInPlace", "below the limits of `texts`, where it is a code, each index is the place of its item"),
    (r"Contains \(places_(?:in|of) self\.old.*→ ⊥|(?:index_in|index_of|local_index) self\.old .*≡ None", "the id has no index yet"),
    (r"^length order\.now ≤ 2 \^ 32$", "`order` has at most 2^32 ids"),
    (r"^count ≤ 2 \^ 32$", "`count` is at most 2^32"),
    (r"^(?:given|given_in|locals_given|length) .*< 2 \^ 32$", "fewer than 2^32 have one"),
    (r"IsDistinct nat_eq \(map place order", "no id stands twice in `order`"),
    (r"is_function_at types\.old \(place ty\) ≡ true", "`ty` is a live type of functions"),
    (r"^HasDead .*→ ⊥$", "nothing is named that isn't there"),
    (r"^IsFunction ", "it is a type of functions"),
    (r"^IsImport ", "the function is imported"),
    (r"^IsLocal ", "the function has a body"),
    (r"^KeepsGroups ", "of each group all members are marked, or none"),
    (r"^as_text self\.now ≡ None$", "the body isn't kept as it stands in the input"),
    (r"^place id < mark_places ", "there is a mark for the id's place"),
)
# What stands for an argument of each kind of the table of operators.
ARGUMENTS = {
    "Catches": "`Arg::Count`, and for each clause `Arg::Byte`, an `Arg::Tag` where that is 0 or 1, `Arg::Label`",
    "Labels": "`Arg::Count`, and that many `Arg::Label`",
    "Values": "`Arg::Count`, and that many `Arg::Value`",
    "SixteenBytes": "sixteen `Arg::Byte`",
}
ITEM = r"^pub(?:\(crate\))? (?:const )?(struct|enum|trait|type|fn|mod) "
FUNCTION = re.compile(r"^( *)(pub )?(?:const )?fn (\w+)", re.M)
IMPL = re.compile(r"^impl(?:<[^{\n]*?>)? (?:(\S[^{\n]*?) for )?((\w+)(?:<[^{\n]*>)?) \{(?:\}|(.*?)^\})", re.M | re.S)
USE = re.compile(r"^(?:pub(?:\(crate\))? )?use ([\w:]+?)(?:::\{([^}]*)\}| as (\w+))?;", re.M)


@functools.cache
def source(path):
    return path.read_text(encoding="utf-8")


@functools.cache
def file_of(crate, module):
    return CRATES / crate / "src" / ("/".join(module) + ".rt" if module else "lib.rt")


@functools.cache
def uses(path):
    """The names that a file takes from elsewhere: for each the path that it stands for."""
    found = {}
    for way, names, renamed in USE.findall(source(path)):
        for name in names.split(",") if names else [f"{way.rpartition('::')[2]} as {renamed}" if renamed else ""]:
            inner, _, alias = name.strip().partition(" as ")
            full = way.split("::") if renamed or not inner else [*way.split("::"), inner]
            found[alias or full[-1]] = full
    return found


@functools.cache
def find(crate, module, name):
    """Where a name of a module is defined: crate, module, kind and name, or None where that is no crate of the repository."""
    path = file_of(crate, module)
    here = re.search(ITEM + name + r"\b", source(path), re.M)
    if here:
        return crate, module, here[1], name
    way = uses(path).get(name)
    if way is None:
        return None
    if way[0] in ("crate", "self"):
        return find(crate, tuple(way[1:-1]), way[-1])
    if (CRATES / way[0]).is_dir():
        return find(way[0], tuple(way[1:-1]), way[-1])
    inner = (*module, *way[:-1])
    return find(crate, inner, way[-1]) if file_of(crate, inner).exists() else None


def handed_on(module):
    """What a public module of `walrus` hands on, and then its public modules: the module, the name, and where that stands."""
    text = source(file_of("walrus", module))
    named = re.findall(ITEM.replace(r"(?:\(crate\))?", "") + r"(\w+)", text, re.M)
    for line in re.findall(r"^pub use [^;]*;", text, re.M):
        names = uses(file_of("walrus", module))
        named += [("", name) for name in re.findall(r"\w+", line.rpartition("::")[2]) if name in names]
    for kind, name in dict.fromkeys(named):
        if kind != "mod":
            yield module, name, find("walrus", module, name)
    for kind, name in named:
        if kind == "mod":
            yield from handed_on((*module, name))


def above(text, at):
    """The lines of comments and attributes in front of a place, the last one first."""
    for line in reversed(text[:at].split("\n")[:-1]):
        if not re.match(r"\s*(///|//|#\[|[^\n]*\)\]$)", line):
            return
        yield line.strip()


def sentence(text, at):
    """The first sentence of the comment in front of a place."""
    said = [line[3:].strip() for line in above(text, at) if line.startswith("///")][::-1]
    first = re.split(r"(?<=\.)\s", " ".join(said).split("  ")[0])[0]
    return re.sub(r"\[(`[^`]*`)\](?:\([^)]*\))?", r"\1", first)


def derived(text, at):
    lines = " ".join(line for line in above(text, at) if line.startswith("#["))
    return {name.strip() for names in re.findall(r"derive(?:_where)?\(([^)]*)\)", lines) for name in names.split(",")}


FIELD = re.compile(r"^    pub (\w+): (.*),$", re.M)
CASE = re.compile(r"^    ([A-Z]\w*)(\([^\n]*\)| \{.*?^    \}| = [^\n]*)?,$", re.M | re.S)
CONSTANT = re.compile(r"^    pub const (\w+): (.*?) =", re.M)


def parts_of(kind, mine, blocks):
    """The lines of a type's public fields, of its cases, and of the constants in its blocks."""
    lines = []
    if kind == "struct":
        lines += [f"- `.{it[1]}: {it[2]}` {sentence(mine, it.start())}" for it in FIELD.finditer(mine)]
    if kind == "enum":
        for it in CASE.finditer(mine):
            held = " ".join(re.sub(r"^\s*///.*$", "", it[2] or "", flags=re.M).split()).replace(", }", " }")
            lines.append(f"- `| {it[1]}{' ' if held.startswith('{') else ''}{held}` {sentence(mine, it.start())}")
    for block in blocks:
        if block[3] is None:
            lines += [f"- `{block[5]}::{it[1]}: {it[2]}` {sentence(block[6], it.start())}" for it in CONSTANT.finditer(block[6])]
    return lines


def in_words(clause):
    """What a clause asks of a caller."""
    for pattern, words in ASKED:
        found = re.search(pattern, clause)
        if found:
            return found.expand(words)
    raise SystemExit(f"tools/calls.py: ASKED has no words for the clause {clause}")


ENSURES = re.compile(r"^\s*ensures\*? (?:(\w+) )?\{(.*?)\}\s*(?=^\s*(?:ensures|requires)\b|\Z)", re.M | re.S)


def fields_of(case):
    """What a word comes to: the names of the fields of a record, or another word."""
    return ", ".join(case.found.members()) if clauses.is_record(case.found) else f"`{case.found.name}`"


def told_of_word(word, cases):
    """A word that stands for a clause, and the fields of its records, if it comes to some."""
    if not any(clauses.is_record(it.found) for it in cases):
        return f"`{word.name}`"
    held, refused = ("; ".join(fields_of(it) for it in cases if it.refused == which) for which in (False, True))
    return f"`{word.name}`: {'; '.join(filter(None, (held, refused and f'refused: {refused}')))}"


def ensured_in(text, path):
    """Each clause that a function of this file ensures: its name; and where it has none, its word and what that comes to, if it is one."""
    for name, clause in ENSURES.findall(text):
        yield name, None if name else clauses.cases_of_text(clause, uses_of_source(path))


class Call:
    """A function: its signature, the first sentence on it, and its clauses."""

    def __init__(self, text, head, path):
        end = end_of_head(text, head.end())
        rest = text[head.start():end]
        self.ensured = [told_of_word(*word) if word else name for name, word in ensured_in(rest, path)]
        self.asked = [" ".join(it.split()) for it in re.findall(r"^\s*requires\*? (?:\w+ )?\{(.*?)\}\s*(?=^\s*(?:ensures|requires)\b|\Z)", rest, re.M | re.S)]
        line = " ".join(re.split(r"^\s*(?:requires|ensures)\b", rest, maxsplit=1, flags=re.M)[0].split())
        self.signature = line.removeprefix("pub ").removeprefix("fn ").replace("( ", "(").replace(", )", ")").rstrip(" ,")
        self.is_law = text[end:end + 2] == "{}" and "->" not in self.signature
        self.said = sentence(text, head.start())

    def line(self):
        clauses = ["asks that " + ", and that ".join(map(in_words, self.asked))] if self.asked else []
        clauses += [" ".join(["ensures", ", ".join(filter(None, self.ensured))]).strip()] if self.ensured else []
        return f"- `{self.signature}` {self.said}" + (f" *{'; '.join(clauses)}*" if clauses else "")


def calls_in(text, path, is_trait=False):
    for head in FUNCTION.finditer(text):
        if head[2] or is_trait:
            yield Call(text, head, path)


@functools.cache
def impls():
    """All blocks `impl` of the libraries: crate, module, head, trait, type with its arguments, name of the type, and text."""
    found = []
    for path in sorted(CRATES.glob("*/src/**/*.rt")):
        crate, inner = path.relative_to(CRATES).parts[0], path.relative_to(CRATES).with_suffix("").parts[2:]
        if crate.startswith("walrus") and not crate.endswith("_tests"):
            module = () if inner == ("lib",) else inner
            for block in IMPL.finditer(source(path)):
                found.append((crate, module, block[0].partition(" {")[0], block[1], block[2], block[3], block[4] or ""))
    return found


def whole(place):
    """The text of an item: its head, and what stands in its braces, if it has some."""
    crate, module, kind, name = place
    text = source(file_of(crate, module))
    head = re.search(rf"^pub(?:\(crate\))? (?:const )?{kind} {name}\b", text, re.M)
    end = re.compile(r";$" if kind == "type" else r"^\}|^pub.*(\{\}|;)$", re.M).search(text, head.start())
    return text, head.start(), text[head.start():end.end()]


def traits_of(place, blocks, named):
    """The traits whose calls a type has: those of std and those that `walrus` hands on, derived or written."""
    text, at, _ = whole(place)
    written = {it[3] for it in blocks if it[3] and (find(it[0], it[1], it[3].partition("<")[0]) or place) in {*named, place}}
    names = {name.rpartition("::")[2] for name in written | derived(text, at)}
    return ", ".join(sorted(names - {"", "Drop", "Model"}))


def told_of(block):
    """The head of a block of calls, and for which types it is, where it asks for a trait of the repository's own."""
    crate, module, head, _, _, name, _ = block
    bounds = [it for it in re.findall(r": (\w+)", head.rpartition(name)[0]) if find(crate, module, it)]
    types = [it[4] for it in impls() if it[3] in bounds]
    return f"`{head}`" + (f", where `{bounds[0]}` are {', '.join(f'`{it}`' for it in types)}" if types else "") + ":"


class Page:
    """The page as it is put together: each place once, in the part where it is first met."""

    def __init__(self, named):
        self.named, self.seen, self.lines, self.plain, self.laws = named, set(), [], [], []
        self.others, self.waiting, self.lower = [], [], []

    def add_calls(self, calls, crate, module, of=""):
        for call in calls:
            if call.is_law:
                self.laws.append(call.line().replace("`", f"`{of}", 1))
            else:
                self.lines.append(call.line())
            self.reach(call.signature, crate, module)

    def reach(self, text, crate, module):
        """Notes the types that a text names: those without a name of their own are listed behind what names them."""
        places = (find(crate, module, word) for word in re.findall(r"\b[A-Z]\w+", text))
        self.waiting += [it for it in places if it and it not in self.named and it[2] in ("struct", "enum", "type")]

    def add_type(self, shown, place):
        crate, module, kind, name = place
        text, at, mine = whole(place)
        target = re.search(r"= (.*);", mine)[1] if kind == "type" else name
        blocks = [it for it in impls() if (it[4] == target if kind == "type" else find(it[0], it[1], it[5]) == place)]
        inherent = [it for it in blocks if it[3] is None and (kind == "type" or "<" not in it[4] or "impl<" in it[2])]
        own = [it for it in inherent if any(calls_in(it[6], file_of(it[0], it[1])))]
        self.reach("\n".join(re.findall(r"^pub type.*|^    pub \w+:.*|^    \w+\(.*", mine, re.M)), crate, module)
        unnamed = "" if place in self.named else " (unnamed)"
        traits = traits_of(place, blocks, self.named)
        parts = parts_of(kind, mine, blocks)
        if own or parts or kind == "trait":
            alias = f" = {target}" if kind == "type" else ""
            self.lines.append(f"\n**`{shown}{alias}`**{unnamed} {sentence(text, at)}" + (f" Traits: {traits}." if traits else ""))
        elif kind == "type":
            self.others.append(f"`{shown}` is `{target}`")
        elif traits:
            self.plain.append(f"- `{shown}`{unnamed}: {traits}")
        self.lines += parts
        if kind == "trait":
            self.add_calls(calls_in(mine, file_of(crate, module), True), crate, module)
        heads = [it[2] for it in own]
        for block, before in zip(own, [None, *heads]):
            if len({*heads}) > 1 and block[2] != before:
                self.lines.append(f"\n{told_of(block)}\n")
            self.add_calls(calls_in(block[6], file_of(block[0], block[1])), block[0], block[1], f"{shown}::")

    def add(self, shown, place):
        if place is None or place in self.seen:
            return
        self.seen.add(place)
        if place[2] != "fn":
            self.add_type(shown, place)
            return
        path = file_of(place[0], place[1])
        text = source(path)
        call = Call(text, next(it for it in FUNCTION.finditer(text) if it[2] and it[3] == place[3]), path)
        call.signature = call.signature.replace(place[3], shown, 1)
        self.add_calls([call], place[0], place[1])

    def add_reached(self):
        """The types that were reached: those of modules at once, the others for what lies below."""
        while self.waiting:
            reached = self.waiting.pop(0)
            if reached[0] in OF_MODULES:
                self.add(reached[3], reached)
            else:
                self.lower.append((reached[3], reached))

    def add_part(self, heading, items, said=""):
        """A part: its functions, its types with what they lead to, types that have the calls of traits alone, and other names."""
        begin = len(self.lines)
        for shown, place in sorted(items, key=lambda it: it[1] is not None and it[1][2] != "fn"):
            self.add(shown, place)
            self.add_reached()
        self.add_rest()
        if len(self.lines) > begin:
            self.lines[begin:begin] = [f"\n{heading}\n", *([said] if said else [])]

    def add_rest(self):
        if self.plain:
            self.lines += ["\nTypes with the calls of traits alone:\n", *self.plain]
        if self.others:
            self.lines += ["\nOther names: " + ", ".join(self.others) + "."]
        self.plain, self.others = [], []

    def add_own(self, items):
        """What `walrus` itself hands on, by the crates in which it stands."""
        self.lines.append("\n## walrus\n")
        files = {it for crates in GROUPS.values() for it in crates if "/" in it}
        for heading, crates in GROUPS.items():
            own = [(shown, place, f"{place[0]}/{'/'.join(place[1])}") for shown, place in items if place]
            self.add_part(f"### {heading}", [it[:2] for it in own if (it[2] if it[2] in files else it[1][0]) in crates])
        left = [name for name, place in items if place and place[2] != "mod" and place not in self.seen]
        if left:
            raise SystemExit(f"tools/calls.py: GROUPS has no place for {', '.join(left)}")

    def add_below(self, items, said):
        """`walrus::below`, and the types that were reached and have no name in `walrus`."""
        self.add_part("## walrus::below", items, said)
        self.lines.append("\n### Types without a name there\n")
        while self.lower:
            shown, place = self.lower.pop(0)
            self.add(shown, place)
            self.add_reached()
        self.add_rest()


def numbers_and_kinds():
    """For each operator of the table its number and the kinds of its arguments."""
    for line in source(CRATES / "wasm_operators" / "specs" / "Table.antt").splitlines():
        row = re.match(r"    (?:bytes|prefixed (0x\w+)) (0x\w+) (0x\w+) (?:\((.*) ∷ \[\]\)|\[\]) ∷", line)
        if row:
            lead, first, last = (int(it or "0", 16) for it in row.groups()[:3])
            for number in range(first, last + 1):
                yield lead * 0x10000 + number, tuple(it.strip(" «»") for it in (row[4] or "").split("∷") if it.strip())


def operators():
    """The lines on `walrus::opcodes`: the names of operators by the arguments that they have."""
    names = {}
    for path in (CRATES / "wasm_opcodes" / "src").glob("*.rt"):
        names |= {(path.stem, name): int(number, 16) for name, number in re.findall(r"^pub const (\w+): u32 = (0x\w+);", source(path), re.M)}
    handed = re.findall(r"^pub use crate::(\w+)::(\w+);", source(CRATES / "wasm_opcodes" / "src" / "opcodes.rt"), re.M)
    by_number, by_kinds = {names[it]: it[1] for it in handed}, {}
    for number, kinds in numbers_and_kinds():
        if number in by_number:
            by_kinds.setdefault(kinds, []).append(by_number[number])
    yield (f"\n## walrus::opcodes\n\nThe {len(by_number)} operators by the standard's names, each a constant of type `u32`, which `Operator::new`, `op`, `load` and "
           "`store` take: its byte, or its prefix byte times 65,536 and the number behind it. Here they stand by the arguments that they have, in their order.\n")
    for kinds, found in sorted(by_kinds.items(), key=lambda it: (len(it[0]), it[0])):
        arguments = ", ".join(ARGUMENTS.get(it, f"`Arg::{it}`") for it in kinds) or "none (`Args::None`)"
        yield textwrap.fill(f"- {arguments}: {', '.join(found)}", 160, subsequent_indent="  ", break_long_words=False)


def told_of_module(module):
    """What a module of `walrus` says of itself."""
    return " ".join(re.findall(r"^//! ?(.*)$", source(file_of("walrus", module)), re.M)) + "\n"


def page():
    items = [*handed_on(())]
    made = Page({place for _, _, place in items})
    parts = {module: [it[1:] for it in items if it[0] == module] for module in dict.fromkeys(it[0] for it in items)}
    made.add_own(parts.pop(()))
    made.lines += operators()
    below = parts.pop(("below",))
    for module, part in parts.items():
        made.add_part(f"## {'::'.join(('walrus', *module))}", part, told_of_module(module))
    made.add_below(below, told_of_module(("below",)))
    laws = ["\n## Laws\n\nThey do nothing, and their clauses are statements.\n", *made.laws]
    return HEAD + re.sub(r"\n{3,}", "\n\n", "\n".join([*made.lines, *(laws if made.laws else [])])) + "\n"


# A function that a crate may hand on: its margin, for whom it is, and its name.
HANDED = re.compile(r'^((?:    )?)(pub(?:\(crate\))? )?(?:const |unsafe )*(?:extern "C" )?fn (\w+)', re.M)
# A block of methods: its head, for whom it is where it is a trait, and the name of its type or of the trait.
BLOCK = re.compile(r"^((pub(?:\(crate\))? )?(?:impl(?:<[^{]*?>)? (?:[^{]*? for )?|trait )(\w+)[^{]*?) \{", re.M)
# What stands in front of the brace that opens a clause.
BEFORE_CLAUSE = re.compile(r"\b(?:requires|ensures)\*?(?: \w+)?\s*\Z")


def crate_names():
    """The crates of crates.txt, lowest first."""
    lines = source(TOP / "crates.txt").split("\n")
    return [line.partition(":")[0].split()[0] for line in lines if line.strip() and not line.startswith("#")]


def files_of(crate):
    """The source files of a crate, but for those of its tests: `lib.rt` or `main.rt` first."""
    paths = sorted((CRATES / crate / "src").rglob("*.rt"), key=lambda it: (it.name not in ("lib.rt", "main.rt"), it))
    tests = {name for path in paths for name in re.findall(r"^#\[cfg\(test\)\]\n(?:pub )?mod (\w+);", source(path), re.M)}
    return [path for path in paths if path.stem not in tests]


def hidden_types(paths):
    """The names of the types that these files define and don't hand on."""
    found = [it for path in paths for it in re.findall(r"^(pub )?(?:pub\(crate\) )?(?:struct|enum|type) (\w+)", source(path), re.M)]
    return {name for _, name in found} - {name for is_public, name in found if is_public}


def end_of_head(text, at):
    """Where the head of a function ends, with its clauses: in front of its body, or of the `;` of a trait's."""
    depth = 0
    for it in re.compile(r"[(\[{}\]);]").finditer(text, at):
        if depth == 0 and (it[0] == ";" or it[0] == "{" and not BEFORE_CLAUSE.search(text, at, it.start())):
            return it.start()
        depth += {"(": 1, "[": 1, "{": 1, ";": 0}.get(it[0], -1)
    raise SystemExit(f"tools/calls.py: no end is found of the function {text[at:at + 80]}")


def as_it_stands(text, head):
    """A function's comment, its signature and its clauses, and the braces of a law, word for word."""
    end = end_of_head(text, head.end())
    said = [head[1] + line for line in above(text, head.start()) if line.startswith("///")][::-1]
    return "\n".join([*said, text[head.start():end].rstrip(), *([head[1] + "{}"] if text.startswith("{}", end) else [])])


def needed(records):
    """What a reader needs of the records that a word comes to: these, the word and those between, and the records that fields are."""
    for case in records:
        yield from (*case.through, case.found, *clauses.records_of_fields(case.found))


def fields_below(text, path, told):
    """The words of a function's clauses as they stand in specs, file by file, with their records, but for those that were told."""
    for _, opened in ensured_in(text, path):
        records = [it for it in opened[1] if clauses.is_record(it.found)] if opened else []
        yield from (f"the fields of {it.found.name}: see above" for it in records if it.found in told)
        fresh = [it for it in dict.fromkeys(needed(records)) if it not in told]
        told.update(fresh)
        for file in dict.fromkeys(it.file for it in fresh):
            those = sorted((it for it in fresh if it.file is file), key=lambda it: it.number)
            yield f"{', '.join(it.name for it in those)} ({file.title()}):"
            yield from ("    " + line if line else "" for line in whole_definitions(those))


def head_of_block(text, block):
    """What begins a block of methods; of a trait with its ghost members, since its clauses name them."""
    inner = text[block.end():text.index("\n}", block.end())]
    return "\n\n".join([block[1], *re.findall(r"^    ghost \w+:[^;]*;", inner, re.M)])


def handed_by(path, hidden, is_program, told):
    """The functions that a file hands on, as they stand, with the fields below; and the heads of blocks of methods in front of theirs."""
    text, last = source(path), None
    blocks = list(BLOCK.finditer(text))
    for head in HANDED.finditer(text):
        block = next((it for it in reversed(blocks) if it.start() < head.start()), None) if head[1] else None
        seen = block[2] if block and "trait " in block[1] else head[2]
        if not seen or not is_program and (seen != "pub " or block and block[3] in hidden):
            continue
        shown = as_it_stands(text, head)
        if is_program and not re.search(r"^\s*(?:requires|ensures)\b", shown, re.M):
            continue
        if block and block is not last:
            yield head_of_block(text, block)
        last = block
        fields = fields_below(text[head.start():end_of_head(text, head.end())], path, told)
        yield "\n".join([shown, *(head[1] + " " * 8 + line if line else "" for line in fields)])


def calls_of(crate):
    """What is printed of a crate."""
    paths = files_of(crate)
    is_program = paths[0].name == "main.rt"
    which = f"functions of the program `{crate}` that its modules hand on and that have a clause" if is_program else f"public calls of `{crate}`"
    lines = [f"# The {which}, as they stand in its sources\n",
             "What stands behind `requires` is the caller's to show, and what stands behind `ensures` is proved. docs/DEFINITIONS.md leads through the words.",
             "A call that ends with `{}` is a law: it does nothing, and its clauses are statements. What is handed on of other crates stands with those.",
             "Below a call stand the words of its clauses that come to records, with these: as they stand in specs, once."]
    hidden, told = hidden_types(paths), set()
    parts = [(path, list(handed_by(path, hidden, is_program, told))) for path in paths]
    lines += [it for path, found in parts if found for it in (f"\n## {path.relative_to(TOP)}", *(f"\n{it}" for it in found))]
    return "\n".join(lines if any(found for _, found in parts) else [*lines, "\nThere are none."]) + "\n"


def main():
    asked = sys.argv[1:]
    if asked == ["--write"]:
        PAGE.write_text(page(), encoding="utf-8")
    elif not asked:
        print(page(), end="")
    elif len(asked) == 1 and asked[0] in crate_names():
        print(calls_of(asked[0]), end="")
    else:
        print(f"tools/calls.py: crates.txt has no crate {' '.join(asked)}", file=sys.stderr)
        sys.exit(2)


main()
