#!/usr/bin/env python3
"""Makes docs/THEOREM.md: the main theorem, and all definitions that it stands on, level by level. `tools/form.py` compares it.

    tools/theorem.py           prints docs/THEOREM.md
    tools/theorem.py --write   writes it

The main theorem is `Runs` of `crates/walrus/specs/Headline.antt`, which the contract of `walrus::tool::run` cites. It is level 0; level n + 1 has
what definitions of level n use and no lower level has. A constructor counts as its `data`, a field as its record. What stands in a block
`module _ (parameters) where` uses what the head of the block names. Levels up to `LAST_WHOLE` are printed as they stand, of all others a line each.
What definitions take from sources in Rust and from the kit's std is listed at the end, by name.

Definitions are taken apart by specs.py. Each word of a definition has to be bound there, or defined or imported in its file, or one of `WORDS`: all
else ends the script, so that nothing is left out. `form.py` asks `without_comment` too.
"""
import collections
import functools
import re
import sys

sys.dont_write_bytecode = True
from specs import CRATES, TOP, WORD, Outside, binder, find, named_before_colon, parts_of, pattern, tokens, whole

PAGE = TOP / "docs" / "THEOREM.md"
ROOT = ("walrus", "Headline", "Runs")
CALL = CRATES / "walrus" / "src" / "tool.rt"
LAST_WHOLE = 3
# What stands where, for a reader who looks for one part: the question, and the definitions that answer it.
WHERE = (
    ("which bytes are accepted", ("Accepts", "ReadsModule", "Holds")),
    ("what sections are, and bodies", ("Frames", "BodyReads")),
    ("what a module is", ("Abstract",)),
    ("which items are roots", ("IsRoot",)),
    ("which items an item refers to", ("Refers", "written_in", "KeepsToo")),
    ("which part is the least one: what is reached, and kept", ("Reached", "Kept")),
    ("how items are renumbered, and what follows", ("Renaming", "Carried", "Rises")),
    ("what comes out, in one definition", ("Out", "OutOf")),
    ("by which steps it comes out", ("BringsTo", "ParsedAs", "Collected", "Leaves", "IsWrittenAs")),
    ("what may be added", ("MayBeAdded",)),
    ("the segment that declares functions", ("Declares",)),
    ("the types of legacy handlers", ("IsHandlerType", "IsTypeOf")),
    ("this program among the producers", ("produced", "walrus")),
    ("which names are written", ("WritesNames", "name_of")),
    ("which custom sections are written", ("written_customs",)),
    ("which bytes are the one spelling", ("IsSpelledAs", "IsSpelling")),
    ("what a second run does", ("IsSettled",)),
    ("what an engine can tell", ("LooksSame", "Engine")),
    ("when the call is refused", ("RefusesRead", "ComesOutTooLarge", "PassesLimits")),
)
HEAD = """# The main theorem

Made by `tools/theorem.py --write` from the sources. This page is for a reader who knows WebAssembly and never saw the tree. It has the contract of one
call, and lists all that this contract stands on: {count} definitions of {files} files. Nothing else is in the theorem, but types of Rust and names of the
kit's std, which the end lists.

## The call

`walrus::tool::run`, of `{call}`:

```
{signature}
```

The clause `headline` is the main theorem. `R.left source.old` and `R.left source.new` are the bytes that the source has left before and behind the call,
`W.held sink.old` and `W.held sink.new` those that the sink holds. They are known of memory. Of a file they aren't (`None`): there the theorem speaks of some
bytes that were read, and doesn't say which. `config_of (flags config.now)` is the configuration, and `result` the answer. The other clauses say that the
sink was flushed, and that a device's refusal comes exactly with a failure that it counted.

## In plain words

This holds for all bytes that a source in memory may have, and for each configuration. If the call answers Ok, all of the source was read. Its bytes are a
module M, the sink gained the bytes of a module N behind what it held, and:

- **What is accepted.** The bytes are sections in the standard's order. Each body reads as operators, with blocks that nest. M keeps the rules of `Holds`:
  these are the rules of validation on modules and types, but not on operand types, subtyping
  and the like (docs/FORMATS.md, "Not checked").
- **The least part.** N has the items of M that are kept, and no others of M. An item is kept if a chain of references leads to it from a root. The roots
  are the exports, the start function, active segments, and element segments that declare functions. If data is reached and no memory is, the first memory
  is kept too. That memory and declared segments aside, nothing less would do: each kept item is a root, or a kept one names it.
- **The renaming.** The kept items get new numbers, under one renaming. All that names an item names it by its new number. Functions with a body go by
  the count of their operators, the largest first. All else keeps its order, but for a body's locals, which go by their
  types, and are left out where no operator uses them.
- **What else is kept.** Names go with their items, and producers stay, where the configuration asks for them. Debug information goes. All other custom
  sections keep their bytes, so an index or a place in them may fit no more; those of dynamic linking stand first, the others last.
- **What may be added.** One element segment, for functions that `ref.func` names and nothing declares. Types that handlers of legacy exceptions need. This
  program among the producers. Where the configuration asks for them, names for functions with a body and for locals that have none. Nothing else.
- **The one spelling.** What is written is the one spelling of N: each number in its shortest form, and one choice where there are several. It reads as N,
  and N keeps the rules.
- **A second run.** If a run under the same configuration wrote the input, the output is the same bytes.
- **Engines.** An engine that comes to items by references alone can't tell N from M.

If the call is refused, nothing is written, but where the sink failed: then a beginning of such an output may be there. "Invalid" comes only
where the bytes aren't accepted. "Too large" comes only where they are, and a count, a size or a limit of what they come to doesn't fit in 32 bits.
All else is a lack of memory, or a device that failed. That memory suffices the theorem doesn't say: a program that always answers that it ran out would
meet it. Tests rule that out, and docs/PROMISES.md says what else is only tested.

## How to read on

How definitions are read, docs/DEFINITIONS.md says, under "How to read them" and "The house's words". It also leads through the main ones, with one
example. A comment stands above each definition: lines that begin with `--`.

Level 0 is the theorem. Level 1 has what the theorem uses, level 2 what level 1 uses and isn't there yet, and so on. Levels 0 to {last} stand here as they
stand in their files. Of all others there is a line each, by files: the name, the level, and the first sentence of the comment.
Two files may have one name for two things; which one a definition means, the `use` lines of its file say.

## Where stands what

| A definition says | Name | Level | File |
|---|---|---|---|
"""
OUTSIDE = """
## From outside

Definitions also name types, cases and constants of sources in Rust, and what the kit's std defines. Of a type, its cases and fields are not listed here.
"""
# The words of the language, which nothing has to define.
WORDS = ("Type", "Unit", "record", "elim", "let", "in", "where", "_")


def walk(part, bound, file):
    """The words that a part names and doesn't bind, and all that is bound behind it. A binder `(x : A)` binds up to the end of what is around its
    brackets, and one of `λ` up to the end of its own."""
    free, levels, binders, in_lambda, due = [], [set(bound)], [], None, []
    at = 0
    while at < len(part):
        it, then = part[at], part[at + 1] if at + 1 < len(part) else ""
        if it in ("(", "{", "["):
            names = binder(part, at)
            levels.append(set(levels[-1]))
            binders.append(names)
            at += len(names)
        elif it in (")", "}", "]"):
            levels.pop()
            levels[-1] |= set(binders.pop())
        elif it == ";":
            levels[-1] = set(levels[-2])
        elif it == "λ":
            in_lambda = len(levels)
        elif it == "." and in_lambda:
            in_lambda = None
        elif in_lambda == len(levels) and WORD.fullmatch(it) and not file.is_constructor(it):
            levels[-1].add(it)
        elif it == "let":
            levels[-1].add(then)
        elif due and it == due[-1]:
            due.pop()
        elif not (then == "=" and part[at - 1] in ("{", ";")) and it.partition(".")[0] not in levels[-1]:
            free.append(it)
            due += parts_of(file.mixed.get(it, it))[:0:-1]
        at += 1
    return free, levels[-1]


def uses_of_function(it, bound):
    """The words of a function: of its type, and of its clauses but for what their patterns bind."""
    head, *clauses = it.parts()
    yield from walk(head[head.index(":"):], bound, it.file)[0]
    for clause in clauses:
        left = pattern(clause)
        variables = {word for word in left if WORD.fullmatch(word) and not it.file.is_constructor(word) and word != it.name}
        yield from walk(clause, bound | variables, it.file)[0]


def uses_of_type(it, bound):
    """The words of a record or a `data`: a field is bound in those behind it."""
    head, *members = it.parts()
    free, bound = walk(head[head.index(it.name) + 1:], bound, it.file)
    yield from free
    for member in members:
        yield from walk(member[member.index(":"):], bound, it.file)[0]
        if it.kind == "record":
            bound |= set(named_before_colon(member))


def uses(it):
    """The definitions, and the names from outside, that a definition uses, in order."""
    words, bound = [], set()
    for block in it.blocks:
        if block.startswith("module"):
            free, bound = walk(tokens(block)[2:-1], bound, it.file)
            words += free
    words += (uses_of_function if it.is_function() else uses_of_type)(it, bound)
    found = {}
    for word in words:
        what = it.file.find(word)
        if what is None and WORD.fullmatch(word) and not word[0].isdigit() and word not in WORDS:
            raise SystemExit(f"tools/theorem.py: {it.file.title()}:{it.number}: nothing says what {word} of {it.name} is")
        if what is not None and what is not it:
            found[what] = True
    return list(found)


@functools.cache
def closure():
    """All that the theorem stands on: each definition with its level, and what comes from outside."""
    crate, file, name = ROOT
    levels, outside = {find((crate, "specs", file), name): 0}, {}
    waiting = collections.deque(levels)
    while waiting:
        it = waiting.popleft()
        for used in uses(it):
            if isinstance(used, Outside):
                outside[used] = True
            elif used not in levels:
                levels[used] = levels[it] + 1
                waiting.append(used)
    return levels, list(outside)


def in_order(levels, fits=lambda level: True):
    """The definitions whose level fits, by file and then as they stand there."""
    return sorted((it for it in levels if fits(levels[it])), key=lambda it: (it.file.title(), it.number))


def by_file(found):
    """Definitions in order, file by file."""
    files = {}
    for it in found:
        files.setdefault(it.file.title(), []).append(it)
    return files.items()


def said(it):
    """The text of a definition's comment: a heading is none, and nothing behind it."""
    lines = [line.lstrip("-").strip() for line in it.comment]
    heading = next((at for at, line in enumerate(it.comment) if line.startswith("-- ----")), len(lines))
    return " ".join(lines[:heading])


def first_sentence(it):
    return re.split(r"(?<=\.)\s", said(it))[0]


def says_nothing(it):
    """Whether the comment is missing, or names a section of a standard alone, or just says the name again."""
    text = said(it)
    words = re.findall(r"\w+", re.sub(r'"[^"]*"|\([^)]*\)', "", text).lower())
    name = re.sub(r"(?<=[a-z])(?=[A-Z])", "_", it.name).lower().split("_")
    return {*words} - {"a", "an", "the"} <= {*name}


def without_comment():
    """For each definition of the page that has no comment, where it stands."""
    for it in in_order(closure()[0]):
        if says_nothing(it):
            yield f"{it.file.title()}:{it.number}: {it.name} has no comment"


def whole_levels(levels):
    for level in range(LAST_WHOLE + 1):
        found = in_order(levels, lambda it: it == level)
        what = "the theorem" if level == 0 else f"what level {level - 1} uses"
        yield f"\n## Level {level}: {what} ({counted(len(found), 'definition')})"
        for title, those in by_file(found):
            yield from (f"\n### {title}\n", *told_of_aliases(those), "```", *whole(those), "```")


def told_of_aliases(found):
    """A line on the short names of other files in definitions of one file, if they have such."""
    text = "\n".join(line for it in found for line in it.lines)
    used = [(alias, way) for alias, way in found[0].file.aliases.items() if re.search(rf"(?<![\w.]){alias}\.\w", text)]
    if used:
        yield "Here " + ", ".join(f"`{alias}.` begins names of {place_of(way)}" for alias, way in used) + ".\n"


def place_of(way):
    """The file at the end of a way: one of definitions, or the source in Rust that a name comes from."""
    crate, _, *inner = way
    return of_rust(Outside(way, inner[-1]))[0] if inner[0] in ("declared", "contracts") else f"crates/{crate}/specs/{'/'.join(inner)}.antt"


def counted(count, what):
    return f"{count} {what}{'' if count == 1 else 's'}"


def lower_levels(levels):
    found = in_order(levels, lambda it: it > LAST_WHOLE)
    yield f"\n## Levels {LAST_WHOLE + 1} to {max(levels.values())}: all else ({counted(len(found), 'definition')})"
    for title, those in by_file(found):
        yield f"\n### {title}\n"
        yield from (f"- `{it.name}` ({levels[it]}) {first_sentence(it)}".rstrip() for it in those)


def table(levels):
    """The rows of what stands where; a name that nothing has, or that two definitions have, ends the script."""
    for question, names in WHERE:
        for name in names:
            found = [it for it in levels if it.name == name]
            if len(found) != 1:
                where = " and ".join(it.file.title() for it in found) or "nowhere"
                raise SystemExit(f"tools/theorem.py: WHERE names {name}, which stands {where}, of all that {ROOT[-1]} stands on")
            yield f"| {question if name == names[0] else ''} | `{name}` | {levels[found[0]]} | `{found[0].file.title()}` |"


def of_rust(it):
    """The file in Rust that a name comes from, and what is listed of it: a type, or a constant."""
    crate, _, _, *way = it.way
    inner = [word for word in way if word.islower()]
    path = (CRATES / crate / "src" / "/".join(inner)).with_suffix(".rt")
    if not path.is_file():
        raise SystemExit(f"tools/theorem.py: there is no {path.relative_to(TOP)}, from which {it.name} would come")
    owner = next((word for word in way if not word.islower() and not word.startswith("The")), it.name)
    return path.relative_to(TOP).as_posix(), owner


def outer_names(outside):
    """What comes from Rust, by its file, and what comes of std, by its module."""
    rust, std = {}, {}
    for it in outside:
        if it.way[0] == "std":
            std.setdefault(".".join(it.way[2:]), set()).add(it.name)
        else:
            file, name = of_rust(it)
            rust.setdefault(file, set()).add(name)
    yield OUTSIDE
    for heading, found in (("From sources in Rust", rust), ("From the kit's std", std)):
        yield f"### {heading}\n"
        yield from (f"- {place}: {', '.join(f'`{name}`' for name in sorted(names))}" for place, names in sorted(found.items()))
        yield ""


def signature():
    """The call as it stands, from its comment to its last clause."""
    text = CALL.read_text(encoding="utf-8")
    found = re.search(r"((?:^///.*\n)+)^pub fn run\b(?:.*\n)+?(?=^\{$)", text, re.M)
    if not found or f"ensures headline {{ {ROOT[-1]} " not in found[0]:
        raise SystemExit(f"tools/theorem.py: {CALL.relative_to(TOP)} has no `run` whose clause `headline` is {ROOT[-1]}")
    return found[0].rstrip()


def page():
    """The text of docs/THEOREM.md."""
    levels, outside = closure()
    files = {it.file for it in levels}
    head = HEAD.format(count=len(levels), files=len(files), call=CALL.relative_to(TOP).as_posix(), signature=signature(), last=LAST_WHOLE)
    lines = [*table(levels), *whole_levels(levels), *lower_levels(levels), *outer_names(outside)]
    return head + "\n".join(lines).rstrip() + "\n"


def main():
    if sys.argv[1:] == ["--write"]:
        PAGE.write_text(page(), encoding="utf-8")
    elif len(sys.argv) == 1:
        print(page(), end="")
    else:
        raise SystemExit(__doc__)


if __name__ == "__main__":
    main()
