"""What snip, stub and why write, beside what stands in the modules."""
import json

from .comparisons import run, same
from .modules import body_sizes, custom, exports_of, functions, imported_functions, imports_of, module_of, name, named, number, row, samples, section
from .parts import bodies_of, code_of, is_fit, TRAP


def try_snip(work):
    """Each function that is meant traps, under its name, whoever calls it."""
    for title, data in samples():
        if title in ("broken", "empty"):
            same(f"snip of {title}", run("snip", "--function", "0", data=data)[:2], (1, b""))
            continue
        own, before = code_of(data), imported_functions(data)
        first = [text.decode() for text in list(own)[:6] if text.isascii() and b"*" not in text and not text.isdigit()]
        for words in (*([text] for text in first), first[:3], *([f"{text[:2]}*"] for text in first[:2])):
            if not words:
                continue
            order = [word for text in words for word in ("--function", text)]
            status, made, said = run("snip", "--quiet", *order, data=data)
            same(f"snip {order} of {title}", (status, said), (0, ""))
            hit = [text for text in own if any(is_fit(it.encode(), text) for it in words)]
            found = code_of(made)
            same(f"what traps behind snip {order} of {title}", [found[text] for text in hit if text in found], [TRAP for text in hit if text in found])
            same(f"whether others trap behind snip {order} of {title}", [text for text in found if found[text] == TRAP and text not in hit and own[text] != TRAP], [])
        for words, line in ((["--function", "no such function"], "there is no such function"), (["--function", "no*such"], "there is no such function")):
            same(f"snip {words} of {title}", run("snip", *words, data=data), (1, b"", f"mulkavesh: standard input: {line}\n"))
        if before:
            said = "mulkavesh: standard input: one of the functions is imported\n"
            same(f"snip of an imported function of {title}", run("snip", "--function", "0", data=data), (1, b"", said))
    data = functions(3, [("run", 0), ("b", 2)], [(0, "x"), (1, "gone"), (2, "xy")])
    for words, wanted in (("--function=x*", [TRAP, TRAP]), ("--function=b", [b"\0\x0b", TRAP]), ("--function=0 --function=1", [b"\0\x0b", TRAP])):
        status, made, _ = run("snip", "-q", "--no-producers", *words.split(), data=data)
        same(f"snip {words}", (status, sorted(it[-2:] if it != TRAP else it for it in code_of(made).values())), (0, sorted(it[-2:] if it != TRAP else it for it in wanted)))


def try_stub(work):
    """Functions that are imported from a module trap: such imports are gone, and the others stay where they are reached."""
    for title, data in samples():
        rows = [] if title in ("broken", "empty") else list(imports_of(data))
        modules = list(dict.fromkeys(module for module, _, kind, _ in rows if kind == "function"))
        for module in modules:
            names = [text for it, text, kind, _ in rows if it == module and kind == "function"]
            for words, gone in ((["--module", module], names), (["--module", module, "--import", names[0]], names[:1]), ([f"--module={module[:2]}*"], names)):
                status, made, said = run("stub", "--quiet", *words, data=data)
                left = [(it, text) for it, text, kind, _ in imports_of(made) if kind == "function"] if status == 0 else None
                kept = [(it, text) for it, text, kind, _ in imports_of(run("gc", "-q", data=data)[1]) if kind == "function"]
                fits = [(it, text) for it, text in kept if is_fit(words[-1].split("=")[-1].encode(), it.encode())] if "=" in words[-1] else None
                wanted = [it for it in kept if it not in (fits if fits is not None else [(module, text) for text in gone])]
                same(f"the imports behind stub {words} of {title}", (status, said, left), (0, "", wanted))
        for words in (["--module", "no such module"], ["--module", "*", "--import", "no such import"]):
            line = "mulkavesh: standard input: no function is imported so\n"
            wanted = (1, b"", line) if title not in ("broken", "empty") else (1, b"")
            same(f"stub {words} of {title}", run("stub", *words, data=data)[: len(wanted)], wanted)


# A module whose functions call others: the callers, by their indices.
CALLS = {0: [1, 2], 1: [3], 2: [3, 4], 3: [], 4: [5], 5: [], 6: [5]}


def calling(exports, names=()):
    """A module with functions that call as CALLS says, with these exports and names of functions."""
    bodies = [b"\0" + b"".join(b"\x10" + number(it) for it in called) + b"\x0b" for called in CALLS.values()]
    parts_ = [section(1, row([b"\x60\0\0"])), section(3, row([b"\0"] * len(CALLS)))]
    parts_.append(section(7, row([name(text) + b"\0" + number(at) for text, at in exports])))
    parts_.append(section(10, row([number(len(it)) + it for it in bodies])))
    listed = row([number(at) + name(text) for at, text in names])
    return module_of(*parts_, custom("name", b"\1" + number(len(listed)) + listed))


# What is asked of that module, with its exports `run` (0) and `b` (4), and what is answered.
ASKED = (
    ("0", 'function 0 main, 6 bytes, exported as "run"\nit and what it alone keeps: functions 4, bytes 18\n'),
    ("main", 'function 0 main, 6 bytes, exported as "run"\nit and what it alone keeps: functions 4, bytes 18\n'),
    ("run", 'function 0 main, 6 bytes, exported as "run"\nit and what it alone keeps: functions 4, bytes 18\n'),
    ("1", 'function 0 main, 6 bytes, exported as "run"\nfunction 1, 4 bytes\nit and what it alone keeps: functions 1, bytes 4\n'),
    ("b", 'function 4 four, 4 bytes, exported as "b"\nit and what it alone keeps: functions 2, bytes 6\n'),
    ("6", "function 6 isn't reached\n"),
    ("2 --drop b", 'function 0 main, 6 bytes, exported as "run"\nfunction 2, 6 bytes\nit and what it alone keeps: functions 3, bytes 12\n'),
    ("3 --callers", "function 1, 4 bytes\nfunction 2, 6 bytes\n"),
    ("5 --callers", 'function 4 four, 4 bytes, exported as "b"\n'),
    ("0 --callers", ""),
    ("1 --keep b", "function 1 isn't reached\n"),
)


def try_why(work):
    data = calling([("run", 0), ("b", 4)], [(0, "main"), (4, "four"), (6, "six")])
    for words, wanted in ASKED:
        same(f"why {words}", run("why", *words.split(), data=data), (0, wanted.encode(), ""))
    found = json.loads(run("why", "--json", "1", data=data)[1])
    links = [{"kind": "function", "index": 0, "name": "main", "exports": ["run"], "size": 6}, {"kind": "function", "index": 1, "name": None, "exports": [], "size": 4}]
    same("why --json 1", found, {"reached": True, "root": "exported", "chain": links, "alone": {"functions": 1, "bytes": 4}})
    same("why --json 6", json.loads(run("why", "--json", "6", data=data)[1]), {"reached": False, "root": None, "chain": [], "alone": None})
    same("why --callers --json 1", json.loads(run("why", "--callers", "--json", "1", data=data)[1]), links[:1])
    for title, data in samples():
        if title in ("broken", "empty"):
            same(f"why 0 of {title}", run("why", "0", data=data)[:2], (1, b""))
            continue
        absent = "mulkavesh: standard input: there is no such function or export\n"
        for text in ("4294967295", "4294967296", "no such name"):
            same(f"why {text} of {title}", run("why", text, data=data), (1, b"", absent))
        names, made = {index: text.decode() for text, index in reversed(list(named(data)))}, run("gc", "-q", data=data)[1]
        exports = {}
        for text, kind, index in exports_of(data):
            exports.setdefault((kind, index), []).append(text)
        for text, kind, index in list(exports_of(data))[:20]:
            if text.isdigit() or text in names.values():
                continue
            found = json.loads(run("why", "--json", "--", text, data=data)[1])
            last = found["chain"][-1]
            same(f"why --json {text} of {title}", (last["kind"], last["index"], last["exports"], found["reached"]), (kind, index, exports[kind, index], True))
            if kind == "function":
                same(f"the name of {text} of {title}", last["name"], names.get(index))
        sizes = sorted(body_sizes(made))
        for index in sorted(bodies_of(data))[:12]:
            found = json.loads(run("why", "--json", str(index), data=data)[1])
            for it in found["chain"]:
                if it["kind"] == "function":
                    same(f"a name in why {index} of {title}", it["name"], names.get(it["index"]))
                    same(f"whether a size in why {index} of {title} is one", it["size"] in sizes or it["index"] not in bodies_of(data), True)
            if found["alone"]:
                snipped = run("snip", "-q", "--function", str(index), data=data)[1]
                gone = len(sizes) + imported_functions(made) - len(list(body_sizes(snipped))) - imported_functions(snipped)
                same(f"how many go with {index} of {title}", found["alone"]["functions"], gone + 1)
