#!/usr/bin/env python3
"""Has the library edit modules by lists of edits that were mutated, within so much memory:

    tests/edit_mutants.py [--each] [--seed N] [--jobs N] COUNT LISTS CALL FOLDER..

It is what tests/c.sh runs with the callers that it compiled: LISTS is tests/c/lists.c, which says what is asked of each call, and CALL is call.c. COUNT lists are made, of all
kinds of edits in turn (KINDS), or with --each so many of each kind. A list is one of edits that can be made, of a module of FOLDER.. of less than 12 KB, in which one edit of the
kind, and maybe others, are bent, moved, doubled, left out or taken from another module's list. List I is made of the seed and of I alone. Prints a line for each find, with
the module, the flags and the list in hexadecimal, as CALL takes them, and the counts; with --each those of each kind. It is a find too where no module has edits of a kind, or no list of it can be made, or each.
"""
import argparse
import collections
import multiprocessing
import pathlib
import random
import struct
import subprocess
import sys

sys.dont_write_bytecode = True
from answers import call
from edit_lists import every_kind, record, told
from hostile import bent

MOST_BYTES = 12_000
# What the first byte of an edit says, and behind 17, 18 and 20 the second one, what is set, deleted or named.
KINDS = [
    *((kind,) for kind in (0, 1, 2, 6, 7, 8, 9, 11, 16, 19, 21, 22, 23)), *((17, what) for what in (0, 2, 5, 6, 7, 10, 11)), *((18, what) for what in (0, 7, 8, 9, 11)),
    *((20, what) for what in (1, 4, 5, 6, 9, 10, 11, 13, 255)),
]
OF_WHAT = (17, 18, 20)
NO_LEGACY, FLAGS = 4, (0, 1, 2, 8, 8, 10, 10, 11)
DONE, REFUSED = 0, (7, 8)
SECONDS = 120
# Of so many lists of a kind some can be made, and some can't.
ENOUGH = 100


class Base:
    """A module, with edits that can be made of it, one behind the other."""

    def __init__(self, caller, path):
        self.path, self.data = path, path.read_bytes()
        status, listed = call(caller, "read", self.data, 0)
        self.is_taken, self.has_legacy = status == 0, call(caller, "diagnose", self.data, NO_LEGACY)[1] != bytes(8)
        self.edits = [*every_kind(self.data, listed)] if self.is_taken else []
        self.places = collections.defaultdict(list)
        for at, edit in enumerate(self.edits):
            self.places[kind_of(edit)].append(at)


def kind_of(edit):
    kind, payload = next(told(edit))
    return (kind, payload[0]) if kind in OF_WHAT else (kind,)


def mutated(rng, edits, at, others):
    """Changes a list in which an edit stands at this place; `others` are edits of its kind."""
    kind, payload = next(told(edits[at]))
    how = rng.randrange(9)
    if how < 4:
        edits[at] = record(kind, bent(rng, payload))
    elif how == 4:
        edits[at] = bent(rng, edits[at])
    elif how == 5:
        edits.insert(rng.randrange(len(edits) + 1), edits[at])
    elif how == 6:
        edits[at] = rng.choice(others)
    elif how == 7:
        to = rng.randrange(len(edits))
        edits[at], edits[to] = edits[to], edits[at]
    else:
        del edits[rng.randrange(len(edits))]


def list_of(rng, base, kind, others):
    """A list of a module's edits, of which one of this kind is mutated. What stands behind it, or in front too, may be left out."""
    at = rng.choice(base.places[kind])
    edits, part = list(base.edits), rng.randrange(4)
    if part == 0:
        edits, at = edits[at:], 0
    if part < 3:
        edits = edits[: at + 1]
    mutated(rng, edits, at, others)
    while edits and rng.random() < 0.3:
        place = rng.randrange(len(edits))
        if edits[place] in base.edits:
            mutated(rng, edits, place, base.edits)
    return b"".join(edits)


def flags_of(rng, base):
    return rng.choice(FLAGS) | (NO_LEGACY if not base.has_legacy and rng.random() < 0.1 else 0)


def cases_of(words):
    """The flags and the list of each case."""
    seed, kind, base, others, numbers = words
    for number in numbers:
        rng = random.Random(f"{seed}:{number}")
        yield flags_of(rng, base), list_of(rng, base, kind, others)


def ran(lists, path, cases):
    """The status, and what is told of cases; status None where it takes too long."""
    given = b"".join(struct.pack("<II", flags, len(listed)) + listed for flags, listed in cases)
    try:
        done = subprocess.run([lists, path], input=given, capture_output=True, timeout=SECONDS, check=False)
        return done.returncode, done.stdout.decode().splitlines()
    except subprocess.TimeoutExpired:
        return None, []


def batch(words):
    """What comes of the lists of one kind, of one module: how many ended by each status, the most bytes that one asked for, and the finds."""
    lists, *more = words
    kind, base = more[1:3]
    cases, finds = [*cases_of(more)], []
    status, lines = ran(lists, base.path, cases)
    if status not in (0, 1):
        ended = [(one, ran(lists, base.path, [one])) for one in cases]
        finds += [(*one, f"status {its}") for one, (its, _) in ended if its not in (0, 1)] or [(0, b"", f"status {status} of all lists together")]
        return kind, collections.Counter(), 0, [shown(base, it) for it in finds]
    *found, counts = lines
    finds += [(*cases[int(line.split()[1].rstrip(":"))], line.partition(": ")[2]) for line in found]
    *counts, highest = map(int, counts.split())
    return kind, collections.Counter(dict(enumerate(counts))), highest, [shown(base, it) for it in finds]


def shown(base, found):
    flags, listed, why = found
    return f"FIND {base.path.name}, edit {flags} {listed.hex()}: {why}"


def batches(given, bases):
    """The words for each batch."""
    count = given.count * (len(KINDS) if given.each else 1)
    numbers = collections.defaultdict(list)
    for number in range(count):
        turn, which = divmod(number, len(KINDS))
        able = [base for base in bases if KINDS[which] in base.places]
        if able:
            numbers[which, turn % len(able)].append(number)
    for (which, place), its in numbers.items():
        kind, able = KINDS[which], [base for base in bases if KINDS[which] in base.places]
        others = [base.edits[at] for base in able for at in base.places[kind]]
        yield given.lists, given.seed, kind, able[place], others, its


def main():
    words = argparse.ArgumentParser(formatter_class=argparse.RawDescriptionHelpFormatter, description=__doc__)
    words.add_argument("--each", action="store_true")
    words.add_argument("--seed", type=int, default=73)
    words.add_argument("--jobs", type=int, default=4)
    words.add_argument("count", type=int)
    words.add_argument("lists")
    words.add_argument("call")
    words.add_argument("folder", nargs="+")
    given = words.parse_args()
    paths = [path for folder in given.folder for path in sorted(pathlib.Path(folder).glob("*.wasm")) if not path.with_suffix(".expect").exists()]
    bases = [Base(given.call, path) for path in {path.name: path for path in paths}.values() if path.stat().st_size < MOST_BYTES]
    bases = [base for base in bases if base.is_taken]
    ended, finds, most = collections.defaultdict(collections.Counter), [], 0
    with multiprocessing.Pool(given.jobs) as pool:
        for kind, counts, highest, found in pool.imap(batch, batches(given, bases)):
            ended[kind] += counts
            finds += found
            most = max(most, highest)
    for kind, counts in ((kind, ended[kind]) for kind in KINDS):
        made, refused = counts[DONE], sum(counts[it] for it in REFUSED)
        if given.each:
            print(f"{' '.join(map(str, kind)):6} {made:6} are made, {counts[7]:6} edits and {counts[8]:6} modules are refused")
        if not counts or counts.total() >= ENOUGH and not (made and refused):
            finds.append(f"FIND of the kind {kind} {made} lists are made and {refused} refused")
    print(*finds, sep="\n", end="\n" if finds else "")
    all_ended = sum(ended.values(), collections.Counter())
    made = f"{all_ended[DONE]} are made, {all_ended[7]} edits and {all_ended[8]} modules are refused"
    print(f"tests/edit_mutants.py: {all_ended.total()} lists of {len(ended)} kinds, of {len(bases)} modules, at most {most / 2**20:.1f} MB: {made}, {len(finds)} finds")
    sys.exit(bool(finds) or not ended)


if __name__ == "__main__":
    main()
