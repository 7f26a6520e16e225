"""Opens the words of clauses, for `tools/calls.py`: from a definition that a clause begins with to the records that it comes to, and their fields.

A word comes to a record if it is one, or if what it abbreviates does: by cases, as a part of `A × B`, or through a variable for which the clause
says a record. What holds under a condition, as in `A → B`, isn't opened. A case is a refusal if it is one of `Err`, or of what answers Err.
"""
import dataclasses
import re

import specs

# What stands between parts of which all hold, what between those of which one may not, and brackets.
ALL = "×"
SOME = ("→", "⊎", "↔")
OPENS, CLOSES = ("(", "{", "["), (")", "}", "]")
# The words of std that say of a result what holds of it: which arguments do of an Ok, and which of an Err.
OF_RESULTS = {"MatchResult": {1: False, 2: True}, "IfOk": {1: False}, "OnOk": {1: False}, "IfErr": {1: True}, "OnErr": {1: True}}


@dataclasses.dataclass
class Said:
    """What is said somewhere, as tokens: what the words there are found by, the definition that says it, and what its variables stand for."""
    words: list
    uses: specs.Uses
    within: specs.Definition | None = None
    given: dict = dataclasses.field(default_factory=dict)

    def part(self, words):
        return dataclasses.replace(self, words=words)


@dataclasses.dataclass(frozen=True)
class Case:
    """A definition that a word comes to: whether of a refusal, and through which others."""
    found: specs.Definition
    refused: bool
    through: tuple


def groups(words):
    """What stands side by side: words, and brackets with all that is in them."""
    found, depth = [], 0
    for it in words:
        if depth or found and it.startswith(".") and len(it) > 1:
            found[-1].append(it)
        else:
            found.append([it])
        depth += (it in OPENS) - (it in CLOSES)
    return found


def inner(words):
    """What is said inside brackets, and behind `λ x.`."""
    while words:
        if words[0] == "(" and len(groups(words)) == 1 and words[-1] == ")":
            words = words[1:-1]
        elif words[0] == "λ":
            words = sum(groups(words)[[*groups(words), ["."]].index(["."]) + 1:], [])
        else:
            break
    return words


def parts(words):
    """The parts of which all hold, each as its groups, but for binders: none where one may not hold."""
    found, sides = [[]], groups(words)
    for it in sides:
        if it == [ALL]:
            found.append([])
        elif not specs.binder(it, 0):
            found[-1].append(it)
    return [] if any(it[0] in SOME for it in sides) else found


def is_application(found):
    """Whether a word stands in front of its arguments, and nothing between them."""
    return bool(found) and specs.WORD.fullmatch(found[0][0]) and all(it[0] in OPENS or specs.WORD.fullmatch(it[0]) or it[0][0] in '"[' for it in found)


def given_outside(it, said):
    """How many arguments the blocks around a definition take, where it is named outside them."""
    blocks = it.blocks
    if said.within and said.within.file is it.file:
        shared = 0
        while blocks[shared:shared + 1] and blocks[shared:shared + 1] == said.within.blocks[shared:shared + 1]:
            shared += 1
        blocks = blocks[shared:]
    heads = [groups(specs.tokens(block)[2:-1]) for block in blocks if block.startswith("module")]
    return sum(len(specs.binder(group, 0)) for head in heads for group in head if group[0] == "(")


def cases_of(said, behind=(), refused=False, through=()):
    """The definitions that what is said comes to, with no more arguments than stand behind it: records, and words that come to none."""
    for part in parts(inner(said.words)):
        if len(part) == 1 and part[0][0] == "(":
            yield from cases_of(said.part(part[0]), behind, refused, through)
        elif is_application(part):
            arguments = [*(said.part(it) for it in part[1:] if it[0] != "{"), *behind]
            yield from cases_of_word(said, part[0][0], arguments, refused, through)


def cases_of_word(said, word, arguments, refused, through):
    if word in said.given:
        yield from cases_of(said.given[word], arguments, refused, through)
        return
    found = said.uses.find(word)
    if isinstance(found, specs.Outside) and found.way[0] == "std":
        for at, errs in OF_RESULTS.get(found.name, {}).items():
            if at < len(arguments):
                yield from cases_of(arguments[at], (), refused or errs, through)
    elif isinstance(found, specs.Definition) and found.name == word.rpartition(".")[2]:
        opened = [] if found in through or not found.is_function() else [
            case for clause in found.parts()[1:]
            for case in cases_of_clause(found, clause, arguments[given_outside(found, said):], refused, (*through, found))]
        yield from opened if any(is_record(it.found) for it in opened) else [Case(found, refused, through)]


def cases_of_clause(it, clause, arguments, refused, through):
    """What a clause of a definition comes to, for these arguments."""
    left = specs.pattern(clause)
    patterns = [group for group in groups(left)[1:] if group[0] != "{"]
    given = {group[0]: argument for group, argument in zip(patterns, arguments) if len(group) == 1 and not it.file.is_constructor(group[0])}
    said = Said(clause[len(left) + 1:], it.file, it, given)
    yield from cases_of(said, arguments[len(patterns):], refused or any(group[:2] == ["(", "Err"] for group in patterns), through)


def is_record(it):
    return it.kind == "record" and len(list(it.members())) > 1


def cases_of_text(text, uses):
    """The word that a clause of a source begins with, and what it comes to; or None where it begins with none of specs, or says more around it."""
    words = specs.tokens(re.sub(r"⟦.*?⟧", "_", text))
    said = Said(words, uses)
    found = uses.find(words[0]) if is_application(groups(words)) else None
    if isinstance(found, specs.Definition):
        cases = {(it.found, it.refused): it for it in cases_of(said)}
        return found, sorted(cases.values(), key=lambda it: it.refused)
    return None


def is_of_values(it):
    """Whether a record takes nothing, and so is a type of values rather than a statement."""
    head = it.parts()[0]
    return not it.blocks and head[head.index(it.name) + 1] == ":"


def records_of_fields(it):
    """The records that fields of a record are: statements with several fields."""
    for part in it.parts()[1:]:
        for case in cases_of(Said(part[part.index(":") + 1:], it.file, it)):
            if is_record(case.found) and not case.through and not is_of_values(case.found):
                yield case.found
