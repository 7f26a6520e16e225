#!/usr/bin/env python3
"""Compares what the page of web/index.html shows in a headless Chromium with what walrus-gc writes and the library answers:

    tests/web/browser.py CHROMIUM FOLDER PROGRAM MODULES..

CHROMIUM is a command, FOLDER what web/build.sh left, PROGRAM walrus-gc, and MODULES are folders of modules. tests/web.sh calls it. The page is driven as a user
does. Each test drops or picks a file, and holds what the page then shows against what the program writes, or what the library's calls in FOLDER answer: sizes,
counts, lists, chains, what would go with a function and what refers to it, and all of these again where the ticks of some exports are taken. Prints the
count of comparisons, the times, and a line for each find. Where the environment variable MULKAVESH_SCREENS names a folder, screenshots are left there.
docs/pictures/page.png is page.png of these, made smaller by `optipng -o7 -strip all`, where ../shared/samples is among MODULES.
"""
import base64
import functools
import http.server
import json
import os
import pathlib
import subprocess
import sys
import tempfile
import threading
import time

sys.dont_write_bytecode = True
sys.path.insert(0, str(pathlib.Path(__file__).resolve().parent))
from chromium import Chromium, Page, Refused

SECONDS_IN_ALL = 400
# A page that answers: so long at most from one tick to the next, while a module of 20 MB is at work.
LONGEST_GAP = 1.0
FIRST_ANSWER = 2.0
# Times are the best of so many tries, since other processes may be at work.
TRIES = 3
FUNCTIONS_OF_A_LARGE_MODULE = 100_000
HEADER = b"\0asm\1\0\0\0"

AT_REST = """document.getElementById('work').hidden && (!document.getElementById('refused').hidden || document.getElementById('both').hidden
    || document.querySelectorAll('#rows tr').length > 0)"""
ANSWERED = "!document.getElementById('sizes').hidden && !document.getElementById('sizes').inert"


class Elsewhere(http.server.BaseHTTPRequestHandler):
    """A server to which nothing is to come."""

    def do_GET(self):
        self.server.asked.append(self.path)
        self.send_response(200)
        self.send_header("Access-Control-Allow-Origin", "*")
        self.end_headers()

    do_POST = do_GET

    def log_message(self, *_):
        pass


class Site(http.server.SimpleHTTPRequestHandler):
    """Any static host: the folder as it is, below a name of its own."""

    def translate_path(self, path):
        return super().translate_path(path.removeprefix("/some/where"))

    def log_message(self, *_):
        pass


class Server(http.server.ThreadingHTTPServer):
    """A server that says nothing of a browser that goes away while it is answered."""

    def __init__(self, handler):
        super().__init__(("127.0.0.1", 0), handler)
        self.asked = []

    def handle_error(self, *_):
        pass


def served(handler):
    server = Server(handler)
    threading.Thread(target=server.serve_forever, daemon=True).start()
    return server


# ---- modules


def number(value):
    """LEB128 in as few bytes as it has."""
    out = bytearray()
    while value > 127:
        out.append(value & 127 | 128)
        value >>= 7
    return bytes(out) + bytes([value])


def section(kind, content):
    return bytes([kind]) + number(len(content)) + content


def large_module(functions):
    """A module of some 20 MB: functions with names, each of which a segment of the table keeps, and one more, which nothing reaches."""
    body = lambda at: b"\0" + b"\x41" + number(at % 64) + b"\x1a" + b"\x41\x00\x1a" * (55 + at % 5) + b"\x0b"
    bodies = b"".join(number(len(it)) + it for it in map(body, range(functions + 1)))
    named = b"".join(number(at) + number(len(name)) + name for at, name in ((at, b"Work_Number_%06d" % at) for at in range(functions)))
    names = number(functions) + named
    return b"".join((
        b"\0asm\1\0\0\0", section(1, b"\1\x60\0\0"), section(3, number(functions + 1) + bytes(functions + 1)), section(4, b"\1\x70\0" + number(functions)),
        section(9, b"\1\0\x41\0\x0b" + number(functions) + b"".join(map(number, range(functions)))), section(10, number(functions + 1) + bodies),
        section(0, b"\4name" + section(1, names))))


class Test:
    """The page at work, the program beside it, and the finds."""

    def __init__(self, chromium, folder, program, modules):
        self.chromium, self.program, self.made = chromium, program, pathlib.Path(tempfile.mkdtemp(dir=chromium.folder.name))
        self.modules = {path.name: path for place in modules for path in sorted(pathlib.Path(place).resolve().glob("*.wasm"))}
        self.site, self.elsewhere = served(functools.partial(Site, directory=folder)), served(Elsewhere)
        self.own = f"http://127.0.0.1:{self.site.server_port}/"
        self.page = Page(chromium)
        self.compared, self.finds, self.told = 0, 0, []
        self.screens = os.environ.get("MULKAVESH_SCREENS")

    def same(self, what, found, wanted):
        self.compared += 1
        if found != wanted:
            self.finds += 1
            print(f"FIND page: {what}: {str(found)[:400]!r}, and not {str(wanted)[:400]!r}")

    def holds(self, what, found):
        self.same(what, bool(found), True)

    def text(self, selector):
        return self.page.value(f"document.querySelector({json.dumps(selector)}).textContent.trim()")

    def open(self):
        self.page.open(f"{self.own}some/where/index.html")

    def file(self, name, content):
        path = self.made / name
        path.write_bytes(content)
        return path

    def drop(self, path):
        """Drops a file, and answers how long the first answer took."""
        begun = time.monotonic()
        self.page.drop(path)
        self.page.wait(f"{AT_REST} || {ANSWERED}")
        first = time.monotonic() - begun
        self.page.wait(AT_REST)
        return first

    def run(self, path, *words):
        return subprocess.run([self.program, *words], input=pathlib.Path(path).read_bytes(), capture_output=True, check=False).stdout

    def library(self, call, path, *words):
        """What a call of the library answers on a file, asked for in the page but by none of its own code."""
        given = base64.b64encode(path.read_bytes()).decode()
        return self.page.value(f"""(async () => {{ const {{ load }} = await import('./mulkavesh.js'); globalThis.library ??= await load();
            return library.{call}(Uint8Array.from(atob('{given}'), (it) => it.charCodeAt(0)), ...{json.dumps(words)}); }})()""")

    def library_bytes(self, path, options):
        """What `gc` answers, asked for likewise."""
        given = base64.b64encode(path.read_bytes()).decode()
        return base64.b64decode(self.page.value(f"""(async () => {{ const {{ load }} = await import('./mulkavesh.js'); globalThis.library ??= await load();
            const options = {{ ...{json.dumps(options)}, names: document.getElementById('names').checked }};
            const made = library.gc(Uint8Array.from(atob('{given}'), (it) => it.charCodeAt(0)), options);
            return btoa(Array.from(made, (it) => String.fromCharCode(it)).join('')); }})()"""))

    def screen(self, name):
        if self.screens:
            self.page.screen(pathlib.Path(self.screens) / f"{name}.png")


def links_shown(test, place):
    """What stands in a list of links, each as it is read: its kind and index, name, bytes, and what it is exported as or begins as."""
    return test.page.value(f"[...document.querySelectorAll('{place} li')].map((it) => it.innerText.replace(/\\s+/g, ' ').trim())")


def chain_shown(test):
    test.page.wait("document.querySelector('#why .chain') && document.querySelector('#callers p')")
    return links_shown(test, "#why .chain")


WHERE = {"start": "the start function", "declared": "a segment that declares functions"}


def as_link(it, root=None):
    """A link as the page tells it."""
    words = f"{it['kind']} {it['index']}{' ' + it['name'] if it['name'] else ''}"
    if it["size"] is not None:
        words += f" {it['size']:,} byte{'' if it['size'] == 1 else 's'}"
    begins = "" if root is None else " where it begins:"
    if it["exports"]:
        more = len(it["exports"]) - 3
        shown = ", ".join(f"“{one}”" for one in it["exports"][:3])
        return f"{words}{begins} exported as {shown}" + (f" and {more} more name{'' if more == 1 else 's'}" if more > 0 else "")
    if root is None:
        return words
    return f"{words}{begins} " + WHERE.get(root, f"a segment that fills a {'memory' if it['kind'] == 'data' else 'table'}")


def as_chain(reason):
    return [as_link(it, reason["root"] if at == 0 else None) for at, it in enumerate(reason["chain"])]


def gone_with(reason):
    """What the page tells of what would go with a function."""
    functions, size = reason["alone"]["functions"] - 1, f"{reason['alone']['bytes']:,} byte{'' if reason['alone']['bytes'] == 1 else 's'}"
    if functions == 0:
        return f"No other function would go with it; its own body has {size}."
    return f"With it would go {functions:,} other function{'' if functions == 1 else 's'}: {size} of code, its own among them."


def why_is_right(test, what, path, index, roots=None):
    """The chain, what would go with the function, and what refers to it, beside the library."""
    roots = roots or {}
    reason = test.library("why", path, index, roots)
    if reason["root"] is None:
        test.page.wait("document.querySelector('#why .chain') === null && document.querySelector('#callers p') === null")
        test.same(f"{what}: why it goes", test.text("#why-told"), f"It doesn’t: nothing that stays leads to function {index}.")
        return
    shown = chain_shown(test)
    test.same(f"{what}: the chain", shown, as_chain(reason))
    test.same(f"{what}: what would go with it", test.text("#why-told > p:last-child"), gone_with(reason))
    callers = test.library("callers", path, index, roots)
    left = [f"and {len(callers) - 100:,} more item{'' if len(callers) == 101 else 's'}"] if len(callers) > 100 else []
    test.same(f"{what}: what refers to it", links_shown(test, "#callers"), [*map(as_link, callers[:100]), *left])


def kinds_shown(test):
    """The table in the words of a report."""
    words = ["functions", "tables", "memories", "tags", "globals", "elements", "data"]
    rows = test.page.value("[...document.querySelectorAll('#kinds tr')].map((it) => [...it.querySelectorAll('.number')].map((one) => one.textContent))")
    return "".join(f"{word} kept {kept} dropped {dropped}\n" for word, (kept, dropped) in zip(words, rows)).replace(",", "")


def results_shown(test):
    return test.page.value("['sizes', 'items', 'functions'].filter((it) => !document.getElementById(it).hidden)")


def rows_shown(test):
    return test.page.value("""[...document.querySelectorAll('#rows tr')].map((it) => [...it.cells].map((one) => one.textContent.replaceAll(',', '')))""")


def as_rows(listed):
    return [[str(it["index"]), it["name"] or f"function {it['index']}", str(it["size"])] for it in listed]


def picked(test, path):
    """Gives the page a file by its picker, which a key opens."""
    test.page.call("Page.setInterceptFileChooserDialog", enabled=True)
    test.page.value("document.body.focus()")
    for _ in range(3):
        test.page.key("Tab", number=9)
        if test.page.value("document.activeElement.id") == "pick":
            break
    test.page.key("Enter", number=13, text="\r")
    chosen = test.chromium.event("Page.fileChooserOpened")["params"]["backendNodeId"]
    test.page.call("DOM.setFileInputFiles", files=[str(path)], backendNodeId=chosen)
    test.page.call("Page.setInterceptFileChooserDialog", enabled=False)
    test.page.wait(AT_REST)


def downloaded(test):
    """The bytes behind the link, as the browser leaves them in a folder."""
    place = test.made / "downloads"
    test.chromium.call("Browser.setDownloadBehavior", behavior="allow", downloadPath=str(place), eventsEnabled=True)
    test.page.click("#save")
    name = test.chromium.event("Browser.downloadWillBegin")["params"]["suggestedFilename"]
    while test.chromium.event("Browser.downloadProgress")["params"]["state"] != "completed":
        pass
    content = (place / name).read_bytes()
    (place / name).unlink()
    return name, content


# ---- the exports


def exporting_module(functions):
    """A module with this many functions, each exported under its number, by fives under two names with a star, and longer by ten bytes than the one before it."""
    body = lambda at: b"\0" + b"\x41\0\x1a" * 3 + b"\x01" * 10 * at + b"\x0b"
    bodies = b"".join(number(len(it)) + it for it in map(body, range(functions)))
    names = [(b"export_%03d" % at, at) for at in range(functions)] + [(b"five*%d" % at, at) for at in range(0, functions, 5)]
    exports = number(len(names)) + b"".join(number(len(name)) + name + b"\0" + number(at) for name, at in names)
    return b"".join((
        b"\0asm\1\0\0\0", section(1, b"\1\x60\0\0"), section(3, number(functions) + bytes(functions)), section(7, exports),
        section(10, number(functions) + bodies)))


def escaped(names):
    return [it.replace("*", "\\*") for it in names]


def ticks_shown(test):
    return test.page.value("[...document.querySelectorAll('#ticks li')].map((it) => [it.innerText.replace(/\\s+/g, ' ').trim(), it.querySelector('input').checked])")


def left_is_right(test, what, path, names, all_names, *, told=True, focus=None):
    """The sizes, the counts and the download are those of the exports of these names; where it is told, how many bytes fewer; and the focus is on this tick."""
    roots = {"keep": escaped(names)} if names else {"drop": "*"}
    wanted, whole = (test.library_bytes(path, it) for it in (roots, {}))
    test.page.wait(f"document.querySelector('#left strong')?.textContent === '{len(wanted):,} bytes' && {AT_REST}")
    ticked = f"{len(names):,} of {len(all_names):,} exports {'is' if len(names) == 1 else 'are'} ticked: {len(wanted):,} bytes are left"
    fewer = "" if len(names) == len(all_names) or not told else f", {len(whole) - len(wanted):,} bytes fewer than with all"
    test.same(f"{what}: what is left", test.text("#left"), f"{ticked}{fewer}.")
    stays = "" if len(names) == len(all_names) else f" {len(names):,} of {len(all_names):,} exports stay{'s' if len(names) == 1 else ''}."
    test.holds(f"{what}: the sizes: {test.text('#status')}", f"come out as {len(wanted):,}." in test.text("#status") and test.text("#status").endswith(stays))
    if focus is None:
        test.same(f"{what}: the download", downloaded(test)[1], wanted)
    else:
        test.same(f"{what}: the focus", test.page.value("document.activeElement.dataset.at"), str(focus))
    report = test.library("report", path, roots)
    test.same(f"{what}: the counts", kinds_shown(test), "".join(f"{it} kept {report[it]['kept']} dropped {report[it]['dropped']}\n" for it in report if it != "bytes"))


def ticks_of_exports(test, name):
    """Ticks are taken and set, one by one and all, by the mouse; the functions and the chain follow."""
    path, page = test.modules[name], test.page
    test.drop(path)
    listed = test.library("exports", path)
    names = [it["name"] for it in listed]
    test.same(f"{name}: the exports", ticks_shown(test), [[f"{it['name']} {it['kind']} {it['index']}", True] for it in listed])
    left_is_right(test, f"{name}, all exports", path, names, names)
    largest = max(test.library("list", path), key=lambda it: (it["size"], -it["index"]))
    page.click("#map button")
    why_is_right(test, f"{name}, all exports", path, largest["index"])
    page.click("#ticks li:nth-child(2) input")
    left_is_right(test, f"{name}, all exports but one", path, [names[0], *names[2:]], names, focus=1)
    why_is_right(test, f"{name}, all exports but one", path, largest["index"], {"drop": escaped([names[1]])})
    page.click("#tick-none")
    left_is_right(test, f"{name}, no exports", path, [], names)
    page.click("#ticks li:nth-child(1) label span")
    left_is_right(test, f"{name}, one export", path, names[:1], names)
    by_size = sorted(test.library("list", path, {"keep": escaped(names[:1])}), key=lambda it: (-it["size"], it["index"]))
    test.same(f"{name}: the list of one export", rows_shown(test), as_rows(by_size)[:200])
    page.click("#tick-all")
    left_is_right(test, f"{name}, all exports again", path, names, names)
    test.drop(path)
    test.same(f"{name}: the ticks of a module that is dropped again", [it[1] for it in ticks_shown(test)], [True] * len(names))


def many_exports(test):
    """More exports than are shown, a search among them, stars, ticks one behind another, of which the last counts, and a function that goes."""
    path, page = test.file("exports.wasm", exporting_module(300)), test.page
    test.drop(path)
    names = [it["name"] for it in test.library("exports", path)]
    test.same("exports.wasm: what is shown", len(ticks_shown(test)), 200)
    page.click("#more-exports")
    page.wait("document.querySelectorAll('#ticks li').length === 360")
    page.click("#map button")
    why_is_right(test, "exports.wasm", path, 299)
    for at in (300, 299, 298):
        page.click(f"#ticks li:nth-child({at}) input")
    left = [it for at, it in enumerate(names) if at not in (297, 298, 299)]
    left_is_right(test, "exports.wasm, three ticks taken one behind another", path, left, names)
    test.same("exports.wasm: why one goes", test.text("#why-told"), "It doesn’t: nothing that stays leads to function 299.")
    page.click("#exports-search")
    page.call("Input.insertText", text="FIVE*")
    page.wait("document.querySelector('#exports-found').textContent === '60 exports found.'")
    test.same("exports.wasm: what is found", [it[0].split()[0] for it in ticks_shown(test)], names[300:])
    page.click("#tick-none")
    left = [it for at, it in enumerate(names[:300]) if at not in (297, 298, 299)]
    left_is_right(test, "exports.wasm, without what is found", path, left, names)
    page.value("document.getElementById('exports-search').value = ''")
    page.click("#tick-none")
    left_is_right(test, "exports.wasm, none", path, [], names)
    page.value("document.getElementById('exports-search').value = '_00'; document.getElementById('exports-search').dispatchEvent(new Event('input'))")
    page.wait("document.querySelector('#tick-all').textContent === 'Tick the 10 found'")
    page.click("#tick-all")
    left_is_right(test, "exports.wasm, what is found alone", path, names[:10], names)
    page.click("#names")
    left_is_right(test, "exports.wasm, the choice of exports outlives another choice", path, names[:10], names, told=False)


def ticks_by_keys(test, name):
    """Tab leads to one of the ticks, arrows to others, and Space takes them."""
    path, page = test.modules[name], test.page
    picked(test, path)
    names = [it["name"] for it in test.library("exports", path)]
    for _ in range(10):
        page.key("Tab", number=9)
        if page.value("document.activeElement.matches('#ticks input')"):
            break
    test.same(f"{name}: the first tick", page.value("document.activeElement.dataset.at"), "0")
    page.key("End", number=35)
    test.same(f"{name}: the last tick", page.value("document.activeElement.dataset.at"), str(len(names) - 1))
    page.key(" ", "Space", number=32, text=" ")
    left_is_right(test, f"{name}, by keys", path, names[:-1], names, focus=len(names) - 1)
    page.key("Home", number=36)
    page.key("ArrowRight", number=39)
    test.same(f"{name}: an arrow among ticks", page.value("document.activeElement.dataset.at"), "1")
    page.key(" ", "Space", number=32, text=" ")
    left_is_right(test, f"{name}, two by keys", path, [names[0], *names[2:-1]], names, focus=1)
    page.key("Tab", number=9)
    test.holds(f"{name}: from the ticks to the boxes", page.value("document.activeElement.matches('#map button')"))


# ---- the tests


def counts_and_download(test, name):
    """What is shown and what is downloaded of a module, beside the program."""
    path = test.modules[name]
    test.drop(path)
    before, after = path.stat().st_size, len(test.run(path))
    test.holds(f"{name}: both sizes", f"{before:,} bytes come out as {after:,}." in test.text("#status"))
    test.same(f"{name}: counts", kinds_shown(test), test.run(path, "--report").decode())
    test.same(f"{name}: download", downloaded(test), (name.replace(".wasm", ".gc.wasm"), test.run(path)))


def functions_and_chains(test, name):
    """The list, the search and the order of it, a click on a box and on a row, beside what the library answers."""
    path, page = test.modules[name], test.page
    test.drop(path)
    listed = test.library("list", path)
    by_size = sorted(listed, key=lambda it: (-it["size"], it["index"]))
    test.same(f"{name}: the list", rows_shown(test), as_rows(by_size)[:200])
    page.click("#map button")
    why_is_right(test, f"{name}, a box", path, by_size[0]["index"])
    test.same(f"{name}: the focus after a click", page.value("document.activeElement.id"), "why")
    page.click("#rows tr:nth-child(3) td:last-child")
    page.wait(f"document.querySelector('#why-heading').textContent.includes({json.dumps(as_rows(by_size)[2][1])})")
    why_is_right(test, f"{name}, a row", path, by_size[2]["index"])
    follows(test, name, path)
    page.click("#list [data-by=index] button")
    page.wait("document.querySelector('#rows td').textContent === " + json.dumps(str(listed[0]["index"])))
    test.same(f"{name}: by index", rows_shown(test), as_rows(listed)[:200])
    told = page.value("[...document.querySelectorAll('#list th')].map((it) => it.ariaSort).join()")
    test.same(f"{name}: what is told of the order", told, "ascending,none,none")
    word = (by_size[0]["name"] or str(by_size[0]["index"]))[2:7].upper()
    wanted = [it for it in listed if word.lower() in (it["name"] or "").lower() or word == str(it["index"])]
    page.click("#search")
    page.call("Input.insertText", text=word)
    begins = f"{len(wanted):,} of " if len(wanted) < len(listed) else f"{len(listed):,} function"
    rows = min(200, len(wanted))
    page.wait(f"document.querySelector('#found').textContent.startsWith('{begins}') && document.querySelectorAll('#rows tr').length === {rows}")
    test.same(f"{name}: search", rows_shown(test), as_rows(wanted)[:200])


def follows(test, name, path):
    """A function of the chain, and then one of those that refer to it, is asked about by a click on it."""
    for which in ("#why .chain button", "#callers button"):
        index = test.page.value(f"document.querySelector('{which}')?.dataset.index")
        if index is None:
            continue
        test.page.click(which)
        test.page.wait(f"document.querySelector('.chain li:last-child .item')?.textContent === 'function {index}'")
        why_is_right(test, f"{name}, function {index} by a click on it in a list of links", path, int(index))
        test.same(f"{name}: the focus after a click on a link", test.page.value("document.activeElement.id"), "why")


def more_rows(test, name):
    test.drop(test.modules[name])
    count = test.page.value("document.querySelectorAll('#rows tr').length")
    test.page.click("#more")
    test.page.wait(f"document.querySelectorAll('#rows tr').length > {count}")
    test.same(f"{name}: more rows", test.page.value("document.querySelectorAll('#rows tr').length"), 400)


def keys_alone(test, name):
    """The same without a mouse: picked, a box reached by Tab and arrows, asked about, and back."""
    path, page = test.modules[name], test.page
    test.open()
    picked(test, path)
    test.same(f"{name}: counts, picked by keys", kinds_shown(test), test.run(path, "--report").decode())
    for _ in range(12):
        page.key("Tab", number=9)
        if page.value("document.activeElement.matches('#map button')"):
            break
    first = page.value("document.activeElement.dataset.index")
    page.key("ArrowDown", number=40)
    second = page.value("document.activeElement.dataset.index")
    test.holds(f"{name}: an arrow goes to another box", first is not None and second not in (None, first))
    page.key("Enter", number=13, text="\r")
    why_is_right(test, f"{name}, by keys", path, int(second or 0))
    test.same(f"{name}: the focus by keys", page.value("document.activeElement.id"), "why")
    page.key("Tab", number=9)
    there, at = "[...document.querySelectorAll('#why-more button')]", "[...document.querySelectorAll('#why-more button')].indexOf(document.activeElement)"
    test.same(f"{name}: Tab to a chain", page.value(at), 0)
    page.key("End", number=35)
    test.same(f"{name}: a key to the end of the links", page.value(at), page.value(f"{there}.length - 1"))
    page.key("Escape", number=27)
    test.same(f"{name}: back by Escape", page.value("document.activeElement.dataset.index"), second)
    for _ in range(3):
        page.key("Tab", number=9)
    test.same(f"{name}: from the boxes to the search", page.value("document.activeElement.id"), "search")
    for _ in range(4):
        page.key("Tab", number=9)
    index = page.value("document.activeElement.closest('tr').dataset.index")
    page.key("Enter", number=13, text="\r")
    page.wait("document.activeElement.id === 'why'")
    page.wait(f"document.querySelector('.chain li:last-child .item')?.textContent === 'function {index}'")
    why_is_right(test, f"{name}, a row by keys", path, int(index))


def choices(test, name):
    path = test.modules[name]
    test.drop(path)
    for words, boxes in ((("--no-names",), ["names"]), (("--no-names", "--no-producers"), ["producers"]), (("--no-producers",), ["names"])):
        for box in boxes:
            test.page.click(f"#{box}")
        test.page.wait(f"document.querySelector('#status strong')?.textContent === '{len(test.run(path, *words)):,}' && {AT_REST}")
        test.same(f"{name}: {words}", downloaded(test)[1], test.run(path, *words))
    test.page.click("#producers")
    test.page.wait(AT_REST)


def legacy(test, name):
    test.drop(test.modules[name])
    test.holds(f"{name}: taken", test.page.value(ANSWERED))
    test.page.click("#legacy")
    test.page.wait("!document.getElementById('refused').hidden")
    fault = test.library("diagnose", test.modules[name], {"legacy": False})["text"].replace("'", "’")
    test.holds(f"{name}: refused as chosen", f"What is wrong: {fault}. As you chose" in test.text("#reason"))
    test.same(f"{name}: what is shown of a refused module", results_shown(test), [])
    test.page.click("#legacy")
    test.page.wait(f"document.getElementById('refused').hidden && {AT_REST}")
    test.holds(f"{name}: taken again", test.page.value(ANSWERED))


def refusals(test, name):
    whole = test.modules[name].read_bytes()
    for file, content, words in (
        ("cut.wasm", whole[:-100], "keeps the rules"),
        ("empty.wasm", b"", "there are none."),
        ("text.wat", b"\n(module (func))\n", "they are WebAssembly text"),
        ("words.wasm", b"any words at all", "The bytes don’t begin as a WebAssembly module."),
        ("packed.wasm", b"\x1f\x8b\x08\0\0\0\0\0\0\3", "compressed by gzip"),
        ("short.wasm", whole[:6], "within the header"),
        ("component.wasm", b"\0asm\x0d\0\1\0", "a component"),
        ("version.wasm", b"\0asm\2\0\0\0", "another version"),
        ("section.wasm", HEADER + b"\x0e\0", "no well-formed section stands at byte 8"),
        ("rule.wasm", HEADER + b"\5\3\1\0\0\5\3\1\0\0", "stand out of order, or one stands twice"),
        ("body.wasm", HEADER + b"\1\4\1\x60\0\0\3\2\1\0\x0a\5\1\3\0\xff\x0b", "the body of function 0 isn’t made"),
    ):
        test.drop(test.file(file, content))
        test.holds(f"{file}: {test.text('#reason')!r}", words in test.text("#reason") and test.text("#status") == f"{file} is refused.")
        test.same(f"{file}: what is shown of another module", results_shown(test), [])
        if file == "cut.wasm":
            test.screen("refused")
    test.drop(test.modules[name])
    test.holds(f"{name}: taken after refusals", test.page.value(ANSWERED))


def ticks(test, begin):
    """Counts ticks of the page, and the longest time between two, from the call of `begin` until the page is at rest again."""
    test.page.value("""globalThis.ticks = { count: 0, longest: 0, frames: 0, last: performance.now() };
        globalThis.ticking = setInterval(() => { const now = performance.now(), it = globalThis.ticks;
            it.count++; it.longest = Math.max(it.longest, now - it.last); it.last = now; }, 5);
        (function frame() { globalThis.ticks.frames++; requestAnimationFrame(frame); })()""")
    begin()
    told = test.page.value("clearInterval(globalThis.ticking), globalThis.ticks")
    return told["count"], told["frames"], told["longest"] / 1000


def large(test, name):
    """A module of 20 MB with 100,000 functions: the page ticks meanwhile, and is right at the end; and a small one in its place."""
    path, page = test.file("large.wasm", large_module(FUNCTIONS_OF_A_LARGE_MODULE)), test.page
    size = path.stat().st_size
    for _ in range(TRIES):
        begun = time.monotonic()
        count, frames, longest = ticks(test, lambda: test.drop(path))
        took = time.monotonic() - begun
        if longest < LONGEST_GAP:
            break
    test.told.append(f"a module of {size:,} bytes in {took:.1f} s, {count} ticks and {frames} frames meanwhile, {longest:.2f} s at most between two")
    test.holds(f"large.wasm: {size} bytes", size > 20_000_000)
    test.holds(f"large.wasm: the page answers: {longest:.2f} s", longest < LONGEST_GAP and count > 20)
    test.same("large.wasm: counts", kinds_shown(test), test.run(path, "--report").decode())
    page.click("#search")
    page.call("Input.insertText", text="NUMBER_099999")
    found = "document.querySelector('#found').textContent === '1 of 100,000 functions.'"
    count, frames, longest = ticks(test, lambda: page.wait(found))
    test.same("large.wasm: search", rows_shown(test)[0][:2], ["99999", "Work_Number_099999"])
    test.told.append(f"its search {longest:.2f} s at most between two ticks")
    page.click("#rows tr")
    test.same("large.wasm: a chain", [it.split(" Work")[0] for it in chain_shown(test)], ["element 0 where it begins: a segment that fills a table", "function 99999"])
    superseded(test, path, name, took)


def superseded(test, path, name, whole):
    """A second drop while one is at work takes its place, and doesn't wait for it."""
    test.page.drop(path)
    small = test.modules[name]
    test.page.wait("!document.getElementById('work').hidden")
    took = test.drop(small)
    test.holds(f"a second drop: {took:.2f} s of {whole:.2f} s", took < whole / 2)
    test.same("a second drop: counts", kinds_shown(test), test.run(small, "--report").decode())
    test.holds("a second drop: its name", test.text("#status").startswith(name))
    test.told.append(f"a second drop is answered in {took:.2f} s")


def policy(test, name):
    """Nothing is asked of another host, and nothing can be, in the page or in the worker."""
    test.drop(test.modules[name])
    asked = [it["params"]["request"]["url"] for it in test.chromium.events if it["method"] == "Network.requestWillBeSent"]
    test.holds("requests of the page are seen", any(it.endswith("/page.js") for it in asked) and any(it.endswith("/mulkavesh.wasm") for it in asked))
    test.same("requests elsewhere", [it for it in asked if not it.startswith((test.own, f"blob:{test.own}", "data:image/svg+xml"))], [])
    wrong = [it["params"] for it in test.chromium.events if it["method"] in ("Runtime.exceptionThrown", "Log.entryAdded", "Runtime.consoleAPICalled")]
    test.same("what the console says", [it for it in wrong if "favicon" not in str(it)], [])
    away = f"http://127.0.0.1:{test.elsewhere.server_port}/"
    ways = (
        f"fetch('{away}')", f"fetch('{away}', {{ method: 'POST', body: 'x', mode: 'no-cors' }})", f"import('{away}x.js')",
        f"new Promise((done, no) => {{ const it = new WebSocket('{away.replace('http', 'ws')}'); it.onopen = done; it.onerror = no; }})",
        "Promise.resolve().then(() => eval('1'))")
    for way in ways:
        tried = f"{way}.then(() => 'done', () => 'refused')"
        test.same(f"in the page, {way}", test.page.value(tried), "refused")
        test.same(f"in the worker, {way}", test.page.value(tried, test.page.worker), "refused")
    test.page.value(f"new Promise((done) => {{ const it = new Image(); it.onload = it.onerror = done; it.src = '{away}image.png'; }}).then(() => 1)")
    test.page.value(f"navigator.sendBeacon('{away}beacon', 'x')")
    time.sleep(0.2)
    test.same("what came to another host", test.elsewhere.asked, [])


WIDER = """[document.scrollingElement, ...document.querySelectorAll('main > section, #why, #listed')]
    .filter((it) => it.scrollWidth > it.clientWidth).map((it) => it.id || it.tagName)"""
CONTRAST = """(() => {
  const parse = (text) => { const it = text.match(/[\\d.]+/g).map(Number); return it.length < 4 ? [...it, 1] : it; };
  const ground = (it) => {
    const one = parse(getComputedStyle(it).backgroundColor);
    return one[3] > 0 || !it.parentElement ? one : ground(it.parentElement);
  };
  const even = (it) => it <= 0.04045 ? it / 12.92 : ((it + 0.055) / 1.055) ** 2.4;
  const light = (parts) => parts.slice(0, 3).reduce((sum, it, at) => sum + even(it / 255) * [0.2126, 0.7152, 0.0722][at], 0);
  const low = [];
  const walk = document.createTreeWalker(document.body, NodeFilter.SHOW_TEXT);
  for (let node; node = walk.nextNode();) {
    const it = node.parentElement;
    if (node.data.trim() === '' || !it.checkVisibility({ visibilityProperty: true }) || it.closest('noscript, script')) continue;
    const [one, other] = [light(parse(getComputedStyle(it).color)), light(ground(it))];
    const ratio = (Math.max(one, other) + 0.05) / (Math.min(one, other) + 0.05);
    if (ratio < 4.5) low.push(`${node.data.trim().slice(0, 30)}: ${ratio.toFixed(2)}`);
  }
  return low; })()"""

NAMELESS = ("button", "textbox", "searchbox", "checkbox", "link", "progressbar", "table", "region", "group", "columnheader", "form", "search", "heading")


def looks(test, name):
    """Wide and narrow, light and dark: nothing is wider than the page, text stands out, and all that has a part has a name."""
    page = test.page
    test.drop(test.modules[name])
    page.click("#map button:nth-child(2)")
    chain_shown(test)
    for width in (320, 360, 1280):
        for dark in (False, True):
            page.size(width, 900, dark)
            time.sleep(0.2)
            kind = f"{width} px, {'dark' if dark else 'light'}"
            test.same(f"{kind}: what is wider than its room", page.value(WIDER), [])
            test.same(f"{kind}: low contrast", page.value(CONTRAST), [])
            light = page.value("Number(getComputedStyle(document.body).backgroundColor.match(/\\d+/)[0]) > 128")
            test.same(f"{kind}: its ground", light, not dark)
            page.value("scrollTo(0, 0)")
            test.screen(f"page-{width}-{'dark' if dark else 'light'}")
    nodes = page.call("Accessibility.getFullAXTree")["nodes"]
    roles = [(it["role"]["value"], it.get("name", {}).get("value", "").strip()) for it in nodes if not it.get("ignored")]
    test.holds("parts for readers are there", len(roles) > 50 and ("button", "Choose a module") in roles)
    test.same("parts without a name", [it for it in roles if it[0] in NAMELESS and it[1] == ""], [])
    test.same("what can have the focus and has no name", [
        it["role"]["value"] for it in nodes if not it.get("ignored") and not it.get("name", {}).get("value")
        and it["role"]["value"] != "RootWebArea" and any(one["name"] == "focusable" and one["value"]["value"] for one in it.get("properties", []))], [])


def first_answer(test, name):
    """The time from the drop to the first answer, in a page that is just open."""
    times = []
    while len(times) < TRIES and (not times or times[-1] > FIRST_ANSWER):
        test.open()
        times.append(test.drop(test.modules[name]))
    test.holds(f"{name}: the first answer in {min(times):.2f} s", min(times) <= FIRST_ANSWER)
    test.told.append(f"the first answer on {name} in {', '.join(f'{it:.2f}' for it in times)} s")


def with_most(test, limit):
    """The largest module of fewer bytes."""
    sizes = {name: path.stat().st_size for name, path in test.modules.items()}
    return max((name for name in sizes if sizes[name] < limit), key=sizes.get)


def picture(test, name):
    """The picture of README.md: the functions that stay, why the second one does, and what would go with it."""
    page = test.page
    page.size(1040, 900)
    page.call("Emulation.setScrollbarsHidden", hidden=True)
    test.drop(test.modules[name])
    page.click("#map button:nth-child(2)")
    chain_shown(test)
    page.call("Input.dispatchMouseEvent", type="mouseMoved", x=1, y=1)
    clip = page.value("""(() => { for (const it of [document.getElementById('back').parentElement, document.getElementById('listed')]) it.hidden = true;
        const all = document.getElementById('functions').getBoundingClientRect();
        return { x: all.x + scrollX, y: all.y + scrollY, width: all.width, height: all.height, scale: 1 }; })()""")
    data = page.call("Page.captureScreenshot", format="png", captureBeyondViewport=True, clip=clip)["data"]
    (pathlib.Path(test.screens) / "page.png").write_bytes(base64.b64decode(data))


def tests(test):
    """Each test as a call with no argument, in a page of its own but for the module of 20 MB."""
    largest, small = with_most(test, 10_000_000), with_most(test, 20_000)
    yield functools.partial(first_answer, test, largest)
    for name in test.modules:
        yield functools.partial(counts_and_download, test, name)
    for name in {largest, small}:
        yield functools.partial(functions_and_chains, test, name)
    if test.modules[largest].stat().st_size > 500_000:
        yield functools.partial(more_rows, test, largest)
    yield functools.partial(keys_alone, test, largest)
    for name in {small, "c14-simd.wasm"}:
        yield functools.partial(ticks_of_exports, test, name)
    yield functools.partial(many_exports, test)
    yield functools.partial(ticks_by_keys, test, "c14-simd.wasm")
    yield functools.partial(choices, test, small)
    yield functools.partial(legacy, test, "c19-eh.wasm")
    yield functools.partial(refusals, test, small)
    yield functools.partial(looks, test, largest)
    yield functools.partial(large, test, small)
    yield functools.partial(policy, test, small)
    if test.screens:
        yield functools.partial(picture, test, with_most(test, 50_000))


def run_all(test):
    for one in tests(test):
        try:
            test.open()
            one()
        except Refused as error:
            test.finds += 1
            print(f"FIND page: {one.func.__name__}: {error}")
            if time.monotonic() > test.chromium.ends:
                break
    for line in test.told:
        print(f"tests/web.sh: page: {line}")
    print(f"tests/web.sh: page: {test.compared} comparisons; {test.finds} finds")


def main():
    command, folder, program, *modules = sys.argv[1:]
    chromium = Chromium(command, time.monotonic() + SECONDS_IN_ALL)
    try:
        test = Test(chromium, folder, program, modules)
        run_all(test)
    except Refused as error:
        sys.exit(f"FIND page: {command} doesn't come up: {error}")
    finally:
        chromium.end()
    sys.exit(1 if test.finds > 0 else 0)


main()
