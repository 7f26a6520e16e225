#!/usr/bin/env python3
"""Checks the form of the repository, with no prover, in a few seconds. `.ci/run` begins with it.

    tools/form.py           prints what is wrong, a line each, and ends with status 1 where there is any

Refused are: a file of src that doesn't begin with `//!`, or has more than 800 lines; a line of a clause of more than 110 columns; a
function with more than 12 lines of clauses in the crates that users meet, or 16 elsewhere; a body of a function of more than 40 lines; a
bare hexadecimal number in src or specs outside the files that name such numbers; a README.md of more than 112 lines, or with one of more
than 100 columns; documents of too many words or with too many long sentences, and a link or a path in one that isn't there (prose.py); a
crate that crates.txt lists for another one whose files don't name it; more ways down the crates than rt can sum up in a few minutes; more
lines of lemmas above the crate that has their words; more wrong edits in the gate than its time allows; a wrong edit, of the gate or of
tests/edits, whose old text doesn't stand exactly once in its file; a page docs/CALLS.md or docs/THEOREM.md that isn't what tools/calls.py
or tools/theorem.py makes of the sources; a definition of the latter without a comment; a name that docs/DIFFERENCES.md calls absent and
that is there; and a file that isn't in the layout of `rt fmt`.
"""
import collections
import concurrent.futures
import functools
import pathlib
import re
import shutil
import subprocess
import sys

sys.dont_write_bytecode = True
import theorem
from prose import wrong_in_documents

TOP = pathlib.Path(__file__).resolve().parent.parent
CRATES = TOP / "crates"

MOST_LINES_OF_A_FILE = 800
MOST_LINES_OF_A_BODY = 40
WIDEST_CLAUSE = 110
MOST_LINES_OF_CLAUSES = 16
# The crates whose contracts users read, and which have to be shorter.
CRATES_OF_USERS = ("walrus", "walrus_module", "walrus_plan", "walrus_sections", "walrus_tools", "mulkavesh")
MOST_LINES_OF_CLAUSES_OF_USERS = 12
MOST_LINES_OF_THE_README = 112
MOST_COLUMNS_OF_THE_README = 100
# Ways down the crates, from each crate to each that it lists, and on from there.
MOST_WAYS = 170_000
MOST_ARROWS = 265
# Lines of files of lemmas above the highest crate that they speak of.
MOST_LINES_ABOVE_THEIR_WORDS = 1_500
MOST_EDITS = 90
MOST_CRATES_WITH_EDITS = 14
# The dearest crates, since an edit costs by the size of its crate.
UPPER_CRATES = ("walrus_module", "walrus")
MOST_EDITS_OF_THE_UPPER_CRATES = 24
# Where hexadecimal numbers stand bare; elsewhere code and definitions cite their names. A name that ends in / is a folder.
FILES_OF_NUMBERS = (
    # the modules of names
    "wasm_opcodes/src/",
    # the rows of the standard's table of operators, from one number to another
    "wasm_operators/specs/Table.antt",
    # the eight bytes that begin a module, where they are said, read and written
    "wasm_frames/specs/Frames.antt",
    "wasm_frames/src/read.rt",
    "wasm_writer/src/writer.rt",
    # the bytes by which files of other kinds are known
    "walrus_sections/specs/Beginnings.antt",
    # counts of pages, no bytes
    "wasm_wire/src/rules/limits.rt",
    # operators that no code names
    "walrus_theorem/specs/WorkedEngine.antt",
    # whole modules, byte by byte, as examples
    "walrus_model/specs/Examples.antt",
    "walrus_theorem/specs/Examples.antt",
    "walrus_theorem/specs/WorkedDeclared.antt",
    "walrus_theorem/specs/WorkedHandler.antt",
    "walrus_theorem/specs/WorkedSections.antt",
    # bytes and patterns of bits that tests write and read back
    "wasm_tests/src/",
    "walrus_item_tests/src/",
)


def lines_of(path):
    return path.read_text(encoding="utf-8").split("\n")


def name_of(path):
    return path.relative_to(TOP)


def sources():
    return sorted(CRATES.glob("*/src/**/*.rt"))


def wrong_in_sources():
    for path in sources():
        lines = lines_of(path)
        if not lines[0].startswith("//! "):
            yield f"{name_of(path)}: the first line is no //! line"
        if len(lines) - 1 > MOST_LINES_OF_A_FILE:
            yield f"{name_of(path)}: more than {MOST_LINES_OF_A_FILE} lines"


def lines_of_clauses(lines):
    """The number and the text of each line of a clause: from its first word on, until its braces are closed."""
    depth = 0
    for number, line in enumerate(lines, 1):
        if depth > 0 or re.match(r"\s*(ensures|requires|invariant|decreases)\b", line):
            depth += line.count("{") - line.count("}")
            yield number, line


def wrong_in_clauses():
    for path in sources():
        for number, line in lines_of_clauses(lines_of(path)):
            if len(line) > WIDEST_CLAUSE:
                yield f"{name_of(path)}:{number}: {len(line)} columns of a clause, more than {WIDEST_CLAUSE}"


def clauses_of_functions(lines):
    """The number of the line, the name, and the count of lines of clauses, of each function: up to the head of the next one."""
    heads = [(number, head[1]) for number, line in enumerate(lines, 1)
             if (head := re.match(r'\s*(?:pub(?:\([a-z]+\))? )?(?:const |unsafe )*(?:extern "C" )?fn (\w+)', line))]
    numbers = [number for number, _ in lines_of_clauses(lines)]
    for (number, name), (end, _) in zip(heads, [*heads[1:], (len(lines) + 1, "")]):
        yield number, name, sum(number <= it < end for it in numbers)


def wrong_in_counts_of_clauses():
    for path in sources():
        most = MOST_LINES_OF_CLAUSES_OF_USERS if path.relative_to(CRATES).parts[0] in CRATES_OF_USERS else MOST_LINES_OF_CLAUSES
        for number, name, count in clauses_of_functions(lines_of(path)):
            if count > most:
                yield f"{name_of(path)}:{number}: {name} has {count} lines of clauses, more than {most}"


def bodies(lines):
    """The number of the first line, the name, and the count of lines between the braces, of each function with a body of its own lines."""
    for at, line in enumerate(lines):
        head = re.match(r"( *)(pub(\([a-z]+\))? )?(const )?fn (\w+)", line)
        if head:
            opens = (head[1] + "{", head[1] + "}", "")
            start = next(
                i for i in range(at, len(lines))
                if lines[i] in opens or lines[i].endswith("{") and (i == at or lines[i].startswith(head[1] + ")")))
            if lines[start].endswith("{"):
                yield at + 1, head[5], lines.index(head[1] + "}", start) - start - 1


def wrong_in_bodies():
    for path in sources():
        for number, name, count in bodies(lines_of(path)):
            if count > MOST_LINES_OF_A_BODY:
                yield f"{name_of(path)}:{number}: the body of {name} has {count} lines, more than {MOST_LINES_OF_A_BODY}"


def bare_numbers(path):
    """The lines of a file with a hexadecimal number outside comments."""
    for number, line in enumerate(lines_of(path), 1):
        if re.search(r"\b0x[0-9A-Fa-f_]+", re.sub(r"(//|--).*", "", line)):
            yield number


def wrong_in_numbers():
    for path in sorted([*sources(), *CRATES.glob("*/specs/**/*.antt")]):
        if not path.relative_to(CRATES).as_posix().startswith(FILES_OF_NUMBERS):
            for number in bare_numbers(path):
                yield f"{name_of(path)}:{number}: a hexadecimal number without a name"


def wrong_in_readme():
    lines = lines_of(TOP / "README.md")
    if len(lines) - 1 > MOST_LINES_OF_THE_README:
        yield f"README.md: {len(lines) - 1} lines, more than {MOST_LINES_OF_THE_README}"
    for number, line in enumerate(lines, 1):
        if len(line) > MOST_COLUMNS_OF_THE_README:
            yield f"README.md:{number}: {len(line)} columns, more than {MOST_COLUMNS_OF_THE_README}"


def words_of(crate):
    """All words of a crate's sources, definitions and proofs outside comments."""
    files = [path for part in ("src", "specs", "proofs") for path in (CRATES / crate / part).rglob("*") if path.is_file()]
    return {word for path in files for word in re.findall(r"\w+", re.sub(r"(//|--).*", "", path.read_text(encoding="utf-8")))}


def listed_crates():
    """The crates of crates.txt, each with those that it lists."""
    rows = [line.partition("#")[0].partition(":") for line in lines_of(TOP / "crates.txt")]
    return {name.split()[0]: below.split() for name, _, below in rows if name.strip()}


def wrong_in_crates():
    for crate, below in listed_crates().items():
        words = words_of(crate)
        for other in below:
            if other not in words:
                yield f"crates.txt: {crate} lists {other}, which its files don't name (rt sums up all below once for each way down)"


def wrong_in_ways():
    listed = listed_crates()

    @functools.cache
    def ways(crate):
        return 1 + sum(ways(other) for other in listed[crate] if other in listed)

    count = sum(map(ways, listed))
    arrows = sum(other in listed for below in listed.values() for other in below)
    if arrows > MOST_ARROWS:
        yield f"crates.txt: {arrows} arrows from a crate to one that it lists, more than {MOST_ARROWS}"
    if count > MOST_WAYS:
        yield f"crates.txt: {count} ways lead down the crates, more than {MOST_WAYS} (rt sums up all below once for each of them)"


def handed_on():
    """What a file of specs or proofs hands on: crate, part and name, behind the file's own where it isn't Lib, each with where it comes from."""
    handed = {}
    for file in [*CRATES.glob("*/specs/*.antt"), *CRATES.glob("*/proofs/*.antt")]:
        for crate, part, way, name in re.findall(r"(?m)^pub use Rattle\.(\w+)\.(specs|proofs)\.([\w.]+)(?: as (\w+))?$", file.read_text(encoding="utf-8")):
            inner = name or way.split(".")[-1]
            handed[file.parts[-3], file.parts[-2], inner if file.stem == "Lib" else f"{file.stem}.{inner}"] = crate, part, way.split(".")[0]
    return handed


def wrong_in_lemmas():
    """Files of lemmas that speak of one crate and what it stands on, and stand above it."""
    listed, handed = listed_crates(), handed_on()
    files = {(path.parts[-3], path.stem): path.read_text(encoding="utf-8") for path in CRATES.glob("*/proofs/*.antt") if path.stem != "Lib"}
    files = {key: text for key, text in files.items() if re.search(r"(?m)^(?!pub use|--|$)", text)}

    @functools.cache
    def below(crate):
        return {crate}.union(*(below(other) for other in listed[crate] if other in listed))

    @functools.cache
    def spoken_of(key):
        found = set()
        for crate, part, way in re.findall(r"Rattle\.(\w+)\.(specs|proofs)\.(\w+(?:\.\w+)?)", files[key]):
            place = crate, part, way if (crate, part, way) in handed else way.split(".")[0]
            while place in handed:
                place = handed[place]
            crate, part, file = place
            found |= spoken_of((crate, file)) if part == "proofs" and (crate, file) in files else {crate} & listed.keys()
        return {crate for crate in found if not any(crate != other and crate in below(other) for other in found)}

    above = sorted(((text.count("\n"), *key) for key, text in files.items() if len(spoken_of(key)) == 1 and key[0] not in spoken_of(key)), reverse=True)
    count = sum(lines for lines, _, _ in above)
    if count > MOST_LINES_ABOVE_THEIR_WORDS:
        yield f"{count} lines of lemmas stand above the crate that has their words, more than {MOST_LINES_ABOVE_THEIR_WORDS}: {above[:5]}"


def wrong_in_gate():
    edits = collections.Counter(path.parts[-3] for path in CRATES.glob("*/must-fail/*.edit"))
    upper = sum(edits[crate] for crate in UPPER_CRATES)
    for what, count, most in (
        ("wrong edits in crates/*/must-fail", edits.total(), MOST_EDITS),
        ("crates with a folder must-fail", len(edits), MOST_CRATES_WITH_EDITS),
        (f"wrong edits in {' and '.join(UPPER_CRATES)}", upper, MOST_EDITS_OF_THE_UPPER_CRATES),
    ):
        if count > most:
            yield f"the gate: {count} {what}, more than {most}"


def crate_of(edit):
    """The crate that an edit speaks of: crates/CRATE/must-fail/NAME.edit or tests/edits/CRATE/NAME.edit."""
    return edit.parts[-3] if edit.parent.name == "must-fail" else edit.parts[-2]


def wrong_in_edit(edit):
    """Why the prover wouldn't get to judge an edit, or None: it is applied as `rt must-fail` does, pair by pair."""
    texts, at, old, pairs = {}, None, None, 0
    for line in lines_of(edit):
        word, _, text = line.partition(": ")
        if word == "file":
            at = CRATES / crate_of(edit) / text.strip()
            if not at.is_file():
                return f"there is no file {text}"
            texts.setdefault(at, at.read_text(encoding="utf-8"))
        elif word == "old":
            old = text
        elif word == "new" or line == "new:":
            if at is None or old is None:
                return "a line `new:` without `file:` and `old:` before it"
            if texts[at].count(old) != 1:
                return f"its old text stands {texts[at].count(old)} times in {at.relative_to(CRATES)}: {old}"
            texts[at] = texts[at].replace(old, text)
            old, pairs = None, pairs + 1
    return None if pairs else "it has no pair of `old:` and `new:`"


def wrong_in_edits():
    for edit in sorted([*CRATES.glob("*/must-fail/*.edit"), *TOP.glob("tests/edits/*/*.edit")]):
        why = wrong_in_edit(edit)
        if why:
            yield f"{name_of(edit)}: {why}"


def wrong_in_pages():
    """Pages that the sources have left behind."""
    told = subprocess.run([TOP / "tools" / "calls.py"], capture_output=True, check=False).stdout
    if told != (TOP / "docs" / "CALLS.md").read_bytes():
        yield "docs/CALLS.md isn't what tools/calls.py prints: tools/calls.py --write writes it anew"


def wrong_in_theorem():
    """A page of the main theorem that the sources have left behind, and definitions of it without a comment."""
    try:
        if not theorem.PAGE.is_file() or theorem.page() != theorem.PAGE.read_text(encoding="utf-8"):
            yield "docs/THEOREM.md isn't what tools/theorem.py prints: tools/theorem.py --write writes it anew"
        yield from theorem.without_comment()
    except SystemExit as why:
        yield str(why)


def absent_names():
    """The names of the first column of the table "Absent by name": `name`, `Type::call`, `Type.field`, and `Type: Debug`."""
    table = (TOP / "docs" / "DIFFERENCES.md").read_text(encoding="utf-8").partition("\n## Absent by name\n")[2]
    for row in re.findall(r"^\| ([^|]*`[^|]*) \|", table, re.M):
        for name in re.findall(r"`([^`]*)`", row.removeprefix("`Debug` of ")):
            yield name + (": Debug" if row.startswith("`Debug` of ") else "")


def public_items(name):
    """Where something of this name is public in the crates whose names begin with `walrus`, or is a call of a trait or an `impl` there."""
    owner, field, call = re.fullmatch(r"(?:(\w+)(?=[.:]))?(?:\.(\w+)|(?:::)?(\w+)|: Debug)?", name).groups()
    if name.endswith(": Debug"):
        wanted = rf"^#\[derive(_where)?\([^]]*\bDebug\b[^]]*\]\n(^[#/].*\n)*^pub (struct|enum) {owner}\b|^impl.* (fmt::)?Debug for {owner}\b"
    elif field:
        wanted = rf"^pub struct {owner}\b[^}}]*^    pub {field}:"
    else:
        wanted = rf"^ *(pub )?(const )?fn {call}\b|^pub (const |struct |enum |trait |type ){call}\b"
    for path in sources():
        if path.parts[-3].startswith("walrus") and re.search(wanted, path.read_text(encoding="utf-8"), re.M):
            yield path


def wrong_in_differences():
    names = [*absent_names()]
    if not names:
        yield "docs/DIFFERENCES.md has no table `Absent by name`"
    for name in names:
        for path in public_items(name):
            yield f"docs/DIFFERENCES.md says that `{name}` isn't there: {name_of(path)} has it"


def wrong_in_layout_of(rattle, crate):
    files = sorted(path for part in ("src", "specs", "proofs") for path in (crate / part).rglob("*") if path.suffix in (".rt", ".antt"))
    told = subprocess.run([rattle, "fmt", "--check", *files], capture_output=True, text=True, check=False)
    return re.findall(r"(?m)^(.*) is not in the layout$", told.stdout + told.stderr)


def wrong_in_layout():
    """Files that `rt fmt` would write otherwise: `rt ci` refuses a crate with one, after all below it is proved."""
    rt = shutil.which("rt")
    if not rt:
        yield "there is no command rt, so nothing tells whether the files are in its layout"
        return
    rattle = pathlib.Path(rt).resolve().parent / "rattle"
    with concurrent.futures.ThreadPoolExecutor(4) as pool:
        for files in pool.map(functools.partial(wrong_in_layout_of, rattle), sorted(CRATES.iterdir())):
            for file in files:
                yield f"{name_of(pathlib.Path(file))} isn't in the layout of `rt fmt`"


def main():
    checks = (
        wrong_in_sources, wrong_in_clauses, wrong_in_counts_of_clauses, wrong_in_bodies, wrong_in_numbers, wrong_in_readme, wrong_in_crates,
        wrong_in_ways, wrong_in_lemmas, wrong_in_gate, wrong_in_edits, wrong_in_pages, wrong_in_theorem, wrong_in_documents,
        wrong_in_differences, wrong_in_layout)
    wrong = [line for check in checks for line in check()]
    for line in wrong:
        print(line)
    print(f"tools/form.py: {len(wrong)} things are wrong" if wrong else "tools/form.py: the form is right")
    sys.exit(1 if wrong else 0)


main()
