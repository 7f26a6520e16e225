"""What check writes of the bytes of tests/faults.txt, and the line of each other subcommand that refuses them."""
import json
import re

from .comparisons import run, same, TOP
from .modules import BROKEN, LEGACY, TWO

FAULTS = TOP / "tests" / "faults.txt"
KINDS = (None, "header", "section", "rule", "body")


def faults():
    """The faults that were worked out by hand: whether legacy exceptions are taken, the kind, the number, the bytes and the words, without hexadecimal numbers."""
    for line in FAULTS.read_text().splitlines():
        if line and not line.startswith("#"):
            numbers, data, words = (part.strip() for part in line.split("|"))
            flags, kind, number = map(int, numbers.split())
            yield not flags & 4, KINDS[kind], number, bytes.fromhex(data), re.sub(r" \(0x[0-9A-F]+\)", "", words)


def numbered(kind):
    """The names of docs/FORMATS.md for the second numbers behind this first one, by these."""
    text = (TOP / "docs" / "FORMATS.md").read_text()
    return {int(number): name for name, number in re.findall(rf"^\| {kind} `(\w+)` \| (\d+) \|", text, re.M)}


# The names of the rules, by their numbers.
RULES = numbered(3)
# The names of what bytes begin as, by their numbers there, in lower case.
BEGINNINGS = {number: re.sub(r"\B([A-Z])", r" \1", name).lower() for number, name in numbered(1).items()}


def try_check(work):
    same("check", run("check", data=TWO), (0, b"accepted\n", ""))
    same("check of legacy exceptions", run("check", data=LEGACY)[:2], (0, b"accepted\n"))
    refused = "mulkavesh: standard input: the input WebAssembly is invalid\n"
    same("check --no-legacy", run("check", "--no-legacy", data=LEGACY)[::2], (1, refused))
    for legacy, kind, number, data, words in faults():
        flags = [] if legacy else ["--no-legacy"]
        told = (1, f"{words}\n".encode(), refused) if kind else (0, b"accepted\n", "")
        cause = f"{refused[:-1]}: {words}\n" if kind else ""
        same(f"check of {data.hex()}", run("check", *flags, data=data), told)
        status, text, said = run("check", "--json", *flags, data=data)
        begins = {"begins": BEGINNINGS[number]} if kind == "header" and number else {}
        where = {"header": begins, "section": {"place": number}, "body": {"index": number}, "rule": {"rule": RULES.get(number)}}.get(kind, {})
        wanted = {"accepted": False, "reason": words, "kind": kind, **where} if kind else {"accepted": True}
        same(f"check --json of {data.hex()}", (status, json.loads(text), said), (told[0], wanted, cause))
    out = work / "verdict"
    out.write_bytes(b"as it was")
    same("check -o of what is refused", run("check", "-o", out, data=BROKEN)[0], 1)
    same("OUT of a check that was refused", out.read_bytes(), run("check", data=BROKEN)[1])
    source = work / "in.wasm"
    source.write_bytes(BROKEN)
    said = f"mulkavesh: {source}: the input WebAssembly is invalid: {run('check', data=BROKEN)[1].decode()}"
    same("what check --json of a file says", run("check", "--json", source)[2], said)
    same("what gc of it says", run("gc", source)[2], said)


def try_faults(work):
    """Each subcommand that refuses bytes as invalid says in its line what `check` writes, under the same choice of legacy exceptions."""
    choosing = (
        ["gc"], ["report"], ["report", "--json"], ["list"], ["list", "--dropped"], ["list", "--exports"], ["list", "--imports"], ["gc", "--keep", "a"],
        ["snip", "--function", "a"], ["stub", "--module", "env"], ["why", "0"], ["why", "a"], ["why", "--json", "0"], ["why", "--callers", "0"])
    framed = (["strip", "--section", "a"], ["sections"], ["sections", "--json"])
    for legacy, kind, _, data, words in faults():
        flags = [] if legacy else ["--no-legacy"]
        if kind:
            said = run("check", *flags, data=data)[1].decode()
            same(f"check of {data.hex()}", said, f"{words}\n")
            unread = [["sections", "--all"]] if kind in ("header", "section") else []
            for order in (*([*it, *flags] for it in choosing), *(() if data[:8] == TWO[:8] else framed), *unread):
                line = f"mulkavesh: standard input: the input WebAssembly is invalid: {said}"
                same(f"{order} of {data.hex()}", run(*order, data=data), (1, b"", line))
