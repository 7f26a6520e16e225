"""Names of all kinds: which function one means, and how they are shown."""
import json

from .comparisons import run, same
from .modules import functions


def try_names(work):
    """Of a name that several have the first is meant; a name that is a number is an index; names of all kinds come through."""
    data = functions(4, [("b", 3), ("a", 2), ("3", 2)], [(1, "same"), (2, "same"), (3, "a\"\\\n\x1b[1mé")])
    same("why of two names", run("why", "same", data=data)[1], b"function 1 isn't reached\n")
    same("why of an export", run("why", "a", data=data)[1].splitlines()[0], b'function 2 same, 2 bytes, exported as "a", "3"')
    same("why of a number", run("why", "3", data=data)[1].splitlines()[0], 'function 3 a"\\??[1mé, 2 bytes, exported as "b"'.encode())
    data = functions(2, [("a\"\\\n\x1b[1mé", 1)], [(1, "a\"\\\n\x1b[1mé")])
    same("list of a name", run("list", data=data)[1], "2 1 a\"\\??[1mé\n".encode())
    same("list --json of a name", json.loads(run("list", "--json", data=data)[1]), [{"index": 1, "size": 2, "name": "a\"\\\n\x1b[1mé"}])
    same("why of a name", run("why", "a\"\\\n\x1b[1mé", data=data)[1].splitlines()[0], 'function 1 a"\\??[1mé, 2 bytes, exported as "a"\\??[1mé"'.encode())
    data = functions(1, [("a", 0)])
    same("list without names", json.loads(run("list", "--json", data=data)[1]), [{"index": 0, "size": 2, "name": None}])
    same("list of nothing", run("list", data=functions(1))[:2], (0, b""))
    same("list --json of nothing", json.loads(run("list", "--json", data=functions(1))[1]), [])


# Names, what people see of them, and what stands for them in JSON.
NAMES = (
    ("a\x00b\x1f \x7e\x7f", "a?b? ~?", r"a\u0000b\u001f ~\u007f"),
    ("\x1b[1m", "?[1m", r"\u001b[1m"),
    ("a\x85b", "a?b", r"a\u0085b"),
    ("\x9b1m", "?1m", r"\u009b1m"),
    ("\x80\x9f\xa0", "??\xa0", "\\u0080\\u009f\xa0"),
    ("\u2027\u2028\u202f", "\u2027?\u202f", "\u2027\\u2028\u202f"),
    ("gpj.\u202eexe", "gpj.?exe", r"gpj.\u202eexe"),
    ("\u2029\u202a\u202b\u202c\u202d", "?????", r"\u2029\u202a\u202b\u202c\u202d"),
    ("\u2065\u2066\u2067\u2068\u2069\u206a", "\u2065????\u206a", "\u2065\\u2066\\u2067\\u2068\\u2069\u206a"),
    ("\x9b\x07\u202e\x85", "????", r"\u009b\u0007\u202e\u0085"),
    ("é", "é", "é"),
    ("日本", "日本", "日本"),
    # of their bytes some are those of a character above, at other places
    ("\u1028\u3028\u20a8\u0428\xe2\xc2\U0001f600\U000a0029", "\u1028\u3028\u20a8\u0428\xe2\xc2\U0001f600\U000a0029", "\u1028\u3028\u20a8\u0428\xe2\xc2\U0001f600\U000a0029"),
)


def try_hidden_characters(work):
    """A character that moves a terminal's cursor or turns the order is one question mark in a list and in a message, and escaped in JSON."""
    for text, seen, escaped in NAMES:
        data = functions(1, [("run", 0)], [(0, text)])
        same(f"list of {text!r}", run("list", data=data), (0, f"2 0 {seen}\n".encode(), ""))
        found = run("list", "--json", data=data)
        same(f"list --json of {text!r}", found, (0, f'[{{"index":0,"size":2,"name":"{escaped}"}}]\n'.encode(), ""))
        same(f"list --json of {text!r}, read", json.loads(found[1])[0]["name"], text)
        if "\x00" not in text:
            same(f"why {text!r}", run("why", "--", text, data=data)[1].decode().splitlines()[:1], [f'function 0 {seen}, 2 bytes, exported as "run"'])
            folder = work / text
            folder.mkdir()
            line = f"mulkavesh: {work}/{seen}: is a directory\n"
            same(f"IN as the folder {text!r}", run("gc", folder), (1, b"", line))
            same(f"OUT as the folder {text!r}", run("gc", "-o", folder, data=data), (1, b"", line))
    data = functions(1, [("run", 0)], [(0, "\x9b\u202e" * 100_000)])
    same("list of a long name", run("list", data=data)[1], b"2 0 " + b"?" * 200_000 + b"\n")
