"""What gc, report and list write, beside walrus-gc and the library; exports that are chosen; and what is said on standard error."""
import itertools
import json

from .comparisons import mulkavesh, run, same, WALRUS_GC
from .modules import body_sizes, custom, customs, exports_of, functions, imports_of, named, samples
from .parts import bodies_of, is_fit, shown_name

FLAGS = ("--no-names", "--no-producers", "--no-legacy")


def try_gc_and_report(work):
    for title, data in samples():
        for flags in itertools.chain.from_iterable(itertools.combinations(FLAGS, count) for count in (0, 1, 3)):
            wanted = run(*flags, data=data, program=WALRUS_GC)
            same(f"gc {flags} of {title}", run("gc", "--quiet", *flags, data=data)[:2], wanted[:2])
        wanted, found = run("--report", data=data, program=WALRUS_GC), run("report", data=data)
        same(f"the counts of report of {title}", (found[0], b"".join(found[1].splitlines(True)[:7])), wanted[:2])
        if wanted[0] == 0:
            counts_, debug, bodies = json.loads(run("report", "--json", data=data)[1]), debug_bytes(data), dropped_bytes(data)
            told, made = counts_.pop("bytes"), run("gc", "--quiet", data=data)[1]
            lines = [f"{kind} kept {it['kept']} dropped {it['dropped']}\n" for kind, it in counts_.items()]
            same(f"report --json of {title}", "".join(lines).encode(), wanted[1])
            bodies = told["dropped"] if bodies is None else bodies
            same(f"the bytes of report --json of {title}", told, {"read": len(data), "written": len(made), "dropped": bodies, "debug": debug})
            rest = len(data) - bodies - debug - len(made)
            lines = [f"bytes read {len(data)} written {len(made)}", f"bytes of dropped functions {bodies}", f"bytes of debug information {debug}"]
            lines += [f"bytes of the rest {abs(rest)} {'less' if rest >= 0 else 'more'}", *([f"{LONGER}"] if len(made) > len(data) else [])]
            same(f"the bytes of report of {title}", found[1].decode().splitlines()[7:], lines)


LONGER = "functions stand by falling size, so indices may take more bytes"


def debug_bytes(data):
    return sum(length for text, length in customs(data) if text.startswith(b".debug"))


def dropped_functions(data):
    """The functions with a body that gc drops, by the names that the module has behind it; None where names don't tell functions apart."""
    names, left = {index: text for text, index in named(data)}, [text for text, _ in named(run("gc", "--quiet", data=data)[1])]
    if len(set(names.values())) < len(names) or len(set(left)) < len(left) or set(bodies_of(data)) - set(names):
        return None
    return [index for index in bodies_of(data) if names[index] not in left]


def dropped_bytes(data):
    dropped = dropped_functions(data)
    return None if dropped is None else sum(bodies_of(data)[index] for index in dropped)


def try_list(work):
    for title, data in samples():
        try:
            listed = mulkavesh.list_functions(data)
        except mulkavesh.MulkaveshError:
            for words in ("list", "list --dropped", "list --exports", "list --imports"):
                same(f"{words} of {title}", run(*words.split(), data=data)[:2], (1, b""))
            continue
        lines = "".join(f"{it.size} {it.index}{shown_name(it.name)}\n" for it in listed)
        same(f"list of {title}", run("list", data=data), (0, lines.encode(), ""))
        found = [(it["index"], it["size"], it["name"]) for it in json.loads(run("list", "--json", data=data)[1])]
        same(f"list --json of {title}", found, [(it.index, it.size, it.name) for it in listed])
        total = sum(it.size for it in listed)
        by_size = sorted(listed, key=lambda it: (-it.size, it.index))
        shares = [f"{it.size} {it.size * 1000 // total / 10:.1f}% {it.index}{shown_name(it.name)}\n" for it in by_size]
        shares.append(f"{total} 100.0% of {len(listed)} functions\n")
        if total:
            same(f"list --by size of {title}", run("list", "--by", "size", data=data), (0, "".join(shares).encode(), ""))
            same(f"list -n 3 --by=size of {title}", run("list", "-n", "3", "--by=size", data=data)[1], "".join([*shares[:-1][:3], shares[-1]]).encode())
        same(f"list -n2 of {title}", run("list", "-n2", data=data)[1], "".join(lines.splitlines(True)[:2]).encode())
        found = [it["index"] for it in json.loads(run("list", "--json", "--by", "size", "-n", "4", data=data)[1])]
        same(f"list --json --by size -n 4 of {title}", found, [it.index for it in by_size[:4]])
        others_of_list(title, data)
    same("list --by size of nothing", run("list", "--by", "size", data=functions(1))[:2], (0, b"0 100.0% of 0 functions\n"))


def others_of_list(title, data):
    """Exports, imports that stay, and functions that go."""
    made = run("gc", "--quiet", data=data)[1]
    rows = list(exports_of(data))
    lines = "".join(f"{kind} {index}{shown_name(text)}\n" for text, kind, index in rows)
    same(f"list --exports of {title}", run("list", "--exports", data=data), (0, lines.encode(), ""))
    found = json.loads(run("list", "--exports", "--json", data=data)[1])
    same(f"list --exports --json of {title}", found, [{"kind": kind, "index": index, "name": text} for text, kind, index in rows])
    left = [it[:3] for it in imports_of(made)]
    rows = [it for it in imports_of(data) if it[:3] in left]
    lines = "".join(f"{kind} {index}{shown_name(module)}{shown_name(text)}\n" for module, text, kind, index in rows)
    same(f"list --imports of {title}", run("list", "--imports", data=data), (0, lines.encode(), ""))
    found = json.loads(run("list", "--imports", "--json", data=data)[1])
    wanted = [{"kind": kind, "index": index, "module": module, "name": text} for module, text, kind, index in rows]
    same(f"list --imports --json of {title}", found, wanted)
    dropped = dropped_functions(data)
    if dropped is not None:
        names, sizes = {index: text.decode() for text, index in named(data)}, bodies_of(data)
        lines = "".join(f"{sizes[index]} {index}{shown_name(names[index])}\n" for index in sorted(dropped))
        same(f"list --dropped of {title}", run("list", "--dropped", data=data), (0, lines.encode(), ""))


def try_roots(work):
    """Exports are chosen by name: those that stay are those that are left, and nothing that they don't reach."""
    for title, data in samples():
        exports = [] if title in ("broken", "empty") else [text for text, _, _ in exports_of(data)]
        if len(exports) < 2:
            continue
        chosen = [(exports[:1], []), (exports[:2], []), ([exports[0], "*"], []), (["*"], exports[1:2]), ([], exports[:1]), ([exports[0][:1] + "*"], []),
                  ([], ["*"]), (["*"], [exports[-1][:2] + "*"])]
        for keep, drop in chosen:
            words = [word for text in keep for word in ("--keep", text)] + [f"--drop={text}" for text in drop]
            wanted = [text for text in exports if any(is_fit(it.encode(), text.encode()) for it in keep or ["*"])
                      and not any(is_fit(it.encode(), text.encode()) for it in drop)]
            status, made, said = run("gc", "--quiet", *words, data=data)
            same(f"gc {words} of {title}", (status, said, [text for text, _, _ in exports_of(made)] if status == 0 else None), (0, "", wanted))
            same(f"gc of gc {words} of {title}", run("gc", "--quiet", data=made)[1], made)
            found = [line.split(" ", 2)[2] for line in run("list", "--exports", *words, data=data)[1].decode().splitlines()]
            same(f"list --exports {words} of {title}", found, [shown_name(text)[1:] for text in wanted])
            left = run("list", *words, data=data)[1].splitlines()
            same(f"how many functions list {words} of {title} has", len(left), sum(1 for _ in body_sizes(made)))
            told = run("report", *words, data=data)[1].decode().splitlines()
            same(f"what report {words} of {title} says is written", told[7], f"bytes read {len(data)} written {len(made)}")
        for words in (["--keep", "no such export"], ["--keep", exports[0], "--drop", "no such export"], ["--drop=no such export", "--keep=nor this"]):
            for order in (["gc"], ["report"], ["list"], ["list", "--exports"], ["why", "0"], ["gc", "--quiet"]):
                said = run(*order, *words, data=data)
                same(f"{order} {words} of {title}", said, (1, b"", "mulkavesh: standard input: no export fits no such export\n"))
    data = functions(3, [("a*b", 0), ("axb", 1), ("c", 2)])
    for words, wanted in ((("--keep", "a\\*b"), ["a*b"]), (("--keep", "a*b"), ["a*b", "axb"]), (("--drop", "a*"), ["c"]), (("--keep=c", "--keep=c"), ["c"])):
        same(f"gc {words}", [text for text, _, _ in exports_of(run("gc", "-q", *words, data=data)[1])], wanted)


def note_of(data, made, report):
    """What is said of a module that became this one, where `report` is the report on it."""
    rows, parts_ = report.splitlines(), []
    bodies = int(rows[8].rpartition(" ")[2])
    for line in rows[:7]:
        kind, _, kept, _, dropped = line.split()
        if dropped != "0":
            behind = f" ({bodies:,} bytes)" if kind == "functions" else ""
            parts_.append(f"{int(dropped):,} of {int(kept) + int(dropped):,} {kind}{behind}")
    debug = debug_bytes(data)
    parts_ += [f"{debug:,} bytes of debug information"] if debug else []
    rest = len(data) - len(made) - bodies - debug
    longer = f"; {LONGER}" if len(made) > len(data) else ""
    what = f"dropped: {', '.join(parts_) or 'nothing'}; rest: {abs(rest):,} bytes {'less' if rest >= 0 else 'more'}{longer}"
    return f"mulkavesh: {len(data):,} bytes become {len(made):,}; {what}\n"


def try_note(work):
    """What gc, snip and stub say: the bytes of dropped bodies are those of the report, which is compared elsewhere."""
    for title, data in samples():
        status, made, said = run("gc", data=data)
        if status:
            continue
        same(f"what gc says of {title}", said, note_of(data, made, run("report", data=data)[1].decode()))
        same(f"what gc --quiet says of {title}", run("gc", "--quiet", data=data)[2], "")
        for words in (["snip", "--function", "*"], ["stub", "--module", "*"]):
            status, made, said = run(*words, data=data)
            if status == 0:
                same(f"how {words} of {title} begins", said.startswith(f"mulkavesh: {len(data):,} bytes become {len(made):,}; dropped: "), True)
                same(f"what {words} --quiet of {title} says", run(*words, "--quiet", data=data), (0, made, ""))


def try_silence(work):
    """What is said on standard error where all was done: nothing, but for what gc, snip and stub say without --quiet."""
    data = functions(2, [("run", 1)], [(0, "gone"), (1, "main")], [custom("notes", b"abc")])
    for words in (
        "check", "report", "list", "why 0", "why main", "sections", "sections --all", "strip --section notes", "gc --quiet", "check --json", "report --json", "list --json", "sections --json",
        "why --json run", "list --dropped", "list --exports", "list --imports", "list --by size", "why --callers main", "snip -q --function main", "gc -q --keep run",
    ):
        status, _, said = run(*words.split(), data=data)
        same(f"what {words} says", (status, said), (0, ""))
    for title, data in samples():
        for words in ("check", "report", "list", "sections", "why 0", "strip --producers", "gc --quiet"):
            status, _, said = run(*words.split(), data=data)
            same(f"how many lines {words} says of {title}", len(said.splitlines()), status)
