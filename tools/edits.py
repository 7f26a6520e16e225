#!/usr/bin/env python3
"""Tries wrong edits several at a time: tools/edits.py ROOM CRATE, for edits.sh.

ROOM is a copy of the repository in which the crates below CRATE are built, and crates/CRATE/must-fail has the edits. Those that change different
functions stand in one copy of the crate, of which these functions alone are checked, with what they call. An edit is refused where the prover
refuses the function that it changes, and not for a name alone: then a line says so, and it is taken out of must-fail. What is left there
is for `rt must-fail`, which tries each by itself over the whole crate: what changes no function, what doesn't compile, and what a
caller alone refuses.
"""
import importlib.machinery
import importlib.util
import pathlib
import re
import shutil
import subprocess
import sys
import tempfile
import typing

KIT = pathlib.Path(shutil.which("rt")).resolve().parent
# More at a time gain nothing: what takes the time then is the functions themselves.
MOST = 24
FUNCTION = re.compile(r'^( *)(?:pub(?:\([^)]*\))? )?(?:const )?(?:unsafe )?(?:extern "C" )?fn (\w+)')
AROUND = re.compile(r"(?:pub )?(?:unsafe )?(impl|trait|mod)\b\s*(.*)$")
PLACE = re.compile(r"^(?:note: )?(?:\./)?((?:src|proofs|specs)/\S+?):(\d+):\d+:")
# What a proof file says of a name that an edit took away, and what cites that proof: this tells nothing of a contract.
NAME_ALONE = re.compile(r"(note: )?(\./)?proofs/.*(has no field|is not in scope|has no `|was not admitted|does not read)")


class Place(typing.NamedTuple):
    """A function that an edit changes: its file, its first line, with attributes, and its last, from 0, and its path as the prover has it."""

    file: str
    first: int
    last: int
    path: str


class Edit(typing.NamedTuple):
    """A wrong edit: its file, the lines that it changes, by file and number from 0, and the functions around them."""

    file: pathlib.Path
    lines: dict
    places: tuple


def loaded(name):
    """A script of the kit as a module."""
    sys.path.insert(0, str(KIT))
    loader = importlib.machinery.SourceFileLoader(name, str(KIT / name))
    module = importlib.util.module_from_spec(importlib.util.spec_from_loader(name, loader))
    loader.exec_module(module)
    return module


def capital(name):
    return name[:1].upper() + name[1:]


def base(kind):
    """A type's own name, without its path and arguments."""
    found = re.match(r"&?(?:'\w+ )?(?:mut )?(?:\w+::)*(\w+)", kind.strip())
    return found[1] if found else ""


def behind_parameters(text):
    """What stands behind the type parameters of an impl."""
    depth = 0
    for at, sign in enumerate(text):
        depth += (sign == "<") - (sign == ">" and text[at - 1] != "-")
        if depth == 0:
            return text[at + 1 :].strip() if sign == ">" else text
    return text


def name_around(head):
    """What the prover calls the impl, trait or module of this first line: `Type`, `Type+Argument` of one type alone, `TypeTraitArguments` of a trait's."""
    found = AROUND.match(head)
    if not found:
        return ""
    rest = behind_parameters(found[2]) if found[1] == "impl" else found[2]
    rest = re.sub(r"\s*(where .*)?\{?\s*$", "", rest)
    named, _, kind = rest.partition(" for ")
    args = named[named.index("<") + 1 : named.rindex(">")].split(",") if "<" in named else []
    args = [base(it) for it in args if not it.strip().startswith("'")]
    if kind:
        return capital(base(kind)) + base(named) + "".join(capital(it) for it in args)
    return "+".join([base(named), *([] if found[2].startswith("<") else args)])


def place_of(file, lines, at):
    """The function around line `at` of a file, or None."""
    for first in range(at, -1, -1):
        head = FUNCTION.match(lines[first])
        if not head:
            continue
        last = next((it for it in range(first, len(lines)) if lines[it].startswith(head[1] + "}")), len(lines))
        front_line = next(it for it in range(first, -1, -1) if it == 0 or not lines[it - 1].lstrip().startswith("#["))
        around = next((lines[it] for it in range(first, -1, -1) if AROUND.match(lines[it])), "") if head[1] else ""
        # That of a method begins with its type, since an impl may stand in another module than that has.
        module = re.sub(r"(/mod)?\.rt$", "", file.removeprefix("src/")).replace("/", "::")
        front = name_around(around) or ("" if module in ("lib", "main") else module)
        return Place(file, front_line, last, "::".join(it for it in (front, head[2]) if it)) if at <= last else None
    return None


def edit_of(file, folder, rt):
    """The edit of a file, or None where it can't be tried with others."""
    texts, _why = rt.read_edit(str(file), str(folder))
    changed, places = {}, set()
    for path, text in (texts or {}).items():
        old, new = (folder / path).read_text().split("\n"), text.split("\n")
        if len(old) != len(new):
            return None
        for at, (one, other) in enumerate(zip(old, new)):
            if one != other:
                changed[path, at] = other
                places.add(place_of(path, old, at))
    return Edit(file, changed, tuple(places)) if changed and None not in places else None


def batches(edits):
    """The edits in as few rows as can be, no two of one function in a row."""
    rows = []
    for edit in edits:
        own = {(it.file, it.first) for it in edit.places}
        row = next((it for it in rows if not own & it[0] and len(it[1]) < MOST), None)
        if row is None:
            rows.append((own, [edit]))
        else:
            row[0].update(own)
            row[1].append(edit)
    return [it[1] for it in rows]


def check(crate, edits, kept):
    """What the prover says of the functions that these edits change, in a copy of the crate with all of them."""
    folder = pathlib.Path(crate.folder)
    with tempfile.TemporaryDirectory() as room:
        for part in ("src", "specs", "proofs"):
            if (folder / part).is_dir():
                shutil.copytree(folder / part, f"{room}/{part}")
        for path in {it[0] for edit in edits for it in edit.lines}:
            lines = (folder / path).read_text().split("\n")
            for edit in edits:
                for (file, at), text in edit.lines.items():
                    if file == path:
                        lines[at] = text
            pathlib.Path(room, path).write_text("\n".join(lines))
        only = [word for path in sorted({it.path for edit in edits for it in edit.places}) for word in ("--only", path)]
        words = [KIT / "rattle", "check", *crate.words(["--jobs", "1", *only], keeps=False), "--incremental", kept]
        how = {"stdin": subprocess.DEVNULL, "stdout": subprocess.PIPE, "stderr": subprocess.STDOUT}
        return subprocess.run(words, cwd=room, text=True, errors="replace", check=False, **how).stdout


def is_of(place, line):
    """Whether what the prover says stands in the function, in the attributes in front of it, or in its proof."""
    at = PLACE.match(line)
    if not at:
        return False
    if at[1] == place.file:
        return place.first < int(at[2]) <= place.last + 1
    return f"/{place.path.replace('::', '/')}/" in at[1].removeprefix("proofs")


def try_all(crate, edits, kept):
    """Tries these edits at once, or in two halves where one of them keeps the others from the prover."""
    told = check(crate, edits, kept).split("\n")
    if not any(it.startswith("only=") for it in told):
        for half in [edits[: len(edits) // 2], edits[len(edits) // 2 :]] if len(edits) > 1 else []:
            try_all(crate, half, kept)
        return
    said = [it for it in told if (": error" in it or "it is not proved that" in it) and not NAME_ALONE.match(it)]
    for edit in edits:
        own = next((line for line in said if any(is_of(it, line) for it in edit.places)), None)
        if own:
            print(f"must-fail {crate.name}/{edit.file.name}: refused, as it must be: {own[:160]}", flush=True)
            edit.file.unlink()


def main():
    room, name = sys.argv[1:]
    rt = loaded("rt")
    crate = next(it for it in rt.rtlib.crates_below(str(pathlib.Path(room).resolve())) if it.name == name)
    folder = pathlib.Path(crate.folder)
    found = [edit_of(it, folder, rt) for it in sorted((folder / "must-fail").glob("*.edit"))]
    with tempfile.TemporaryDirectory() as kept:
        for row in batches([it for it in found if it]):
            try_all(crate, row, kept)


if __name__ == "__main__":
    main()
