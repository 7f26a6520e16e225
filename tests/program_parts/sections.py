"""What strip and sections write, beside what stands in the modules."""
import json

from .comparisons import run, same
from .modules import custom, customs, module_of, name, read_name, row, samples, section, sections, TWO
from .parts import is_fit, parts, section_object, section_rows, section_text

STAYING = (b"dylink", b"dylink.0", b"target_features")
SHORT = {"--names": b"name", "--producers": b"producers", "--debug": b".debug*", "--all": b"*"}


def said_gone(words):
    """The NAMEs that the words of `strip` say, and whether all goes."""
    names = [SHORT[word] for word in words if word in SHORT]
    names += [word.encode() for before, word in zip(words, words[1:]) if before == "--section"]
    return names + [word[len("--section="):].encode() for word in words if word.startswith("--section=")]


def stripped(data, *words):
    """What is left of a module without the custom sections that the words name, where each fits one."""
    titles = [read_name(content, 0)[0] for code, content, _ in sections(data) if code == 0]
    names, parts, at = said_gone(words), [data[:8]], 8
    for code, content, length in sections(data):
        title = read_name(content, 0)[0] if code == 0 else b""
        goes = code == 0 and any(is_fit(name, title) for name in names) and not ("--all" in words and title in STAYING)
        parts += [] if goes else [data[at : at + length]]
        at += length
    return (0, b"".join(parts)) if all(any(is_fit(name, title) for title in titles) for name in names) else (1, b"")


def try_strip(work):
    for title, data in samples():
        whole = title not in ("broken", "empty")
        names = [text.decode() for text, _ in customs(data)] if whole else []
        orders = [["--section", text] for text in [*dict.fromkeys(names), ".debug*", "*", "*o*e*", "\\*", "no such section", ""]]
        orders += [[f"--section={text}"] for text in (*names[:2], "", "--names")]
        orders += [["--names"], ["--producers"], ["--debug"], ["--all"], ["--names", "--producers"], ["--debug", "--all", "--names"]]
        orders += [["--section", "name", "--section=producers"], ["--section", "dylink*", "--all"], ["--producers", "--section", ".debug_l*"]]
        for order in orders:
            wanted = stripped(data, *order) if whole else (1, b"")
            same(f"strip {order} of {title}", run("strip", *order, data=data)[:2], wanted)
    kept = module_of(*(custom(text, b"a") for text in STAYING))
    same("strip --all of what stays", run("strip", "--all", data=kept), (0, kept, ""))
    line = "mulkavesh: standard input: one of the options fits no custom section\n"
    same("strip --all of no custom section", run("strip", "--all", data=TWO[:8]), (1, b"", line))
    same("strip of many sections", run("strip", *["--section=notes"] * 5000, data=TWO)[:2], stripped(TWO, "--section=notes"))


def try_sections(work):
    odd = module_of(section(1, b""), section(77, b"abc"), custom("a\nb", b""), section(8, b"\0"), section(10, b"\x80"))
    for title, data in [*samples(), ("odd", odd), ("cut", TWO + b"\0\x05\1a"), ("header", TWO[:8])]:
        found = run("sections", data=data)
        if data[:8] != TWO[:8]:
            same(f"sections of {title}", found[:2], (1, b""))
            continue
        rows, end = section_rows(data)
        status = 0 if end == len(data) else 1
        said = "" if status == 0 else f"mulkavesh: no section stands at byte {end}\n"
        same(f"sections of {title}", found, (status, "".join(section_text(*it) for it in rows).encode(), said))
        listed = run("sections", "--json", data=data)
        same(f"sections --json of {title}", (listed[0], listed[2], json.loads(listed[1])), (status, said, [section_object(*it) for it in rows]))


def try_parts(work):
    twice = module_of(section(10, row([b"\0", b"\1a"])), section(11, row([b"\1\0", b"\0\x41\x80\0\x0b\2ab"])), section(10, row([b"\0"])))
    late = module_of(section(10, row([b"\0"])), section(2, row([name("a") + name("b") + b"\0\0"])))
    for title, data in [*samples(), ("twice", twice), ("late", late), ("header", TWO[:8]), ("cut", TWO[:-1]), ("odd", module_of(section(77, b"")))]:
        found, listed = run("sections", "--all", data=data), run("sections", "--all", "--json", data=data)
        if title in ("broken", "empty", "cut", "odd"):
            same(f"sections --all of {title}", (found[:2], listed), ((1, b""), found))
            continue
        lines, objects = zip(*parts(data)) if len(data) > 8 else ((), ())
        same(f"sections --all of {title}", found, (0, "".join(lines).encode(), ""))
        same(f"sections --all --json of {title}", (listed[0], listed[2], json.loads(listed[1])), (0, "", list(objects)))
