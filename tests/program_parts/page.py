"""The lines of docs/USING.md, as they stand there."""
import re
import shutil
import subprocess

from .comparisons import PROGRAM, run, same, TOP
from .modules import body_sizes, BROKEN, customs, exports_of, functions, imports_of, named, read_name, samples, sections
from .parts import code_of, section_rows, section_text, shown_name, TRAP

PAGE = TOP / "docs" / "USING.md"


def page_line(begin):
    """The line of the page's first lines that begins so, without what is said of it."""
    found = re.findall(rf"^    ({re.escape(begin)}.*?) *(?:#.*)?$", PAGE.read_text(), re.M)
    same(f"lines of docs/USING.md that begin as {begin}", len(found), 1)
    return found[0]


def run_line(line, folder):
    """What a line of the page answers in this folder."""
    text = line.replace("./mulkavesh", '"$0"')
    done = subprocess.run(["sh", "-c", text, str(PROGRAM)], cwd=folder, capture_output=True, check=False)
    return done.returncode, done.stdout.decode(), done.stderr.decode()


def try_page(work):
    """The page that shows what is said of a file of another kind: its line, as it stands there, and its answer."""
    found = re.findall(r"^    (gzip .*\| \./mulkavesh check)\n\n    (.*)$", PAGE.read_text(), re.M)
    same("lines of docs/USING.md", len(found), 1)
    for line, answer in found:
        same(line, run_line(line, TOP)[:2], (1, f"{answer}\n"))


def try_page_strip(work):
    """The page's line on debug information: it goes, and all other sections stand there byte for byte."""
    line, source, out = page_line("./mulkavesh strip --debug "), work / "in.wasm", work / "out.wasm"
    with_debug = [(title, data) for title, data in samples() if title not in ("broken", "empty") and any(text.startswith(b".debug") for text, _ in customs(data))]
    for title, data in with_debug:
        source.write_bytes(data)
        same(f"{line} of {title}", run_line(line, work), (0, "", ""))
        at, left = 8, data[:8]
        for code, content, length in sections(data):
            left += b"" if code == 0 and read_name(content, 0)[0].startswith(b".debug") else data[at : at + length]
            at += length
        same(f"OUT of {line} of {title}", out.read_bytes(), left)
        same(f"bytes of {title} that went", len(out.read_bytes()) < len(data), True)


def try_page_sections(work):
    """The page's line on sections, of modules that are refused: two exports of one name, and bytes that are cut."""
    line, source = page_line("./mulkavesh sections "), work / "in.wasm"
    twice = functions(1, [("a", 0), ("a", 0)])
    for title, data in (("two exports of one name", twice), ("bytes that are cut", BROKEN)):
        source.write_bytes(data)
        same(f"check of {title}", run("check", data=data)[0], 1)
        rows, end = section_rows(data)
        said = "" if end == len(data) else f"mulkavesh: no section stands at byte {end}\n"
        same(f"{line} of {title}", run_line(line, work), (int(end < len(data)), "".join(section_text(*it) for it in rows), said))


def try_page_list(work):
    """The page's line on the largest functions: ten at most, with the sizes that bodies have in the smaller module, and the names that IN has."""
    line, source = page_line("./mulkavesh list --by size "), work / "in.wasm"
    for title, data in samples():
        status, made, _ = run("gc", "--quiet", data=data)
        if status or not any(body_sizes(made)):
            continue
        source.write_bytes(data)
        status, text, said = run_line(line, work)
        *rows, total = text.splitlines()
        found = [row.split(" ", 3) for row in rows]
        same(f"the sizes of {line} of {title}", [int(row[0]) for row in found], sorted(body_sizes(made), reverse=True)[:10])
        same(f"the total of {line} of {title}", total, f"{sum(body_sizes(made))} 100.0% of {len(list(body_sizes(made)))} functions")
        names = dict((index, shown_name(text.decode("utf-8", "replace"))[1:]) for text, index in reversed(list(named(data))))
        same(f"the names of {line} of {title}", [row[3] if len(row) > 3 else "" for row in found], [names.get(int(row[2]), "") for row in found])
        same(f"what {line} of {title} says", (status, said), (0, ""))


SHARED = (TOP / "tests" / "samples" / "c22-shared.wasm").read_bytes()
# What stays of that module's functions whatever is exported: the start function, and what its table has.
STAYING_OF_SHARED = {"__wasm_init_memory", "add", "sub", "mul", "dv"}


def names_left(data):
    return {text.decode() for text, _ in named(data)}


def try_page_roots(work):
    """The page's lines on chosen exports, over a shared library: `wasm-objdump` showed which function calls which."""
    (work / "in.wasm").write_bytes(SHARED)
    (work / "names").write_text("fac\nisqrt\n")
    for begin, out, wanted in (
        ("./mulkavesh gc --keep fac", "two.wasm", ["fac", "gcd"]), ("./mulkavesh gc --keep 's*'", "some.wasm", ["sieve"]),
        ("./mulkavesh gc $(sed ", "out.wasm", ["fac", "isqrt"]),
    ):
        line = page_line(begin)
        status, text, _ = run_line(line, work)
        made = (work / out).read_bytes()
        same(line, (status, text, [text for text, _, _ in exports_of(made)]), (0, "", wanted))
        same(f"the functions that {line} leaves", names_left(made), {*wanted, *STAYING_OF_SHARED})


def try_page_reasons(work):
    """Its lines on what goes, on what a function costs and what goes with it, on callers and on imports, over that module."""
    (work / "in.wasm").write_bytes(SHARED)
    for begin, wanted in (
        ("./mulkavesh list --dropped ", "2 1 __wasm_call_ctors\n"),
        ("./mulkavesh list --imports ", "memory 0 env memory\ntable 0 env __indirect_function_table\nglobal 0 env __memory_base\nglobal 1 env __table_base\nfunction 0 env host_log\n"),
        ("./mulkavesh why fib ", f'function 6 fib, {self_size("fib")} bytes, exported as "fib"\nit and what it alone keeps: functions 1, bytes {self_size("fib")}\n'),
        ("./mulkavesh why --callers ", f'function 6 fib, {self_size("fib")} bytes, exported as "fib"\n'),
    ):
        line = page_line(begin)
        same(line, run_line(line, work), (0, wanted, ""))


def self_size(text):
    """How many bytes the body of the function of this name has in what gc makes of that module."""
    return len(code_of(run("gc", "-q", data=SHARED)[1])[text.encode()])


# What calls each function of a shared library by its name, and says which of them trap.
CALLER = """
const { readFileSync } = require('fs');
const memory = new WebAssembly.Memory({ initial: 2 }), table = new WebAssembly.Table({ initial: 8, element: 'anyfunc' });
const at = value => new WebAssembly.Global({ value: 'i32', mutable: false }, value);
const env = { memory, __indirect_function_table: table, __memory_base: at(1024), __table_base: at(0), host_log: it => it };
const { exports } = new WebAssembly.Instance(new WebAssembly.Module(readFileSync(process.argv[1])), { env });
const trapped = [];
for (const [name, call] of Object.entries(exports)) {
  try { call(1, 1, 1); } catch (error) { if (error instanceof WebAssembly.RuntimeError) trapped.push(name); else throw error; }
}
console.log(trapped.join(' '));
"""


def try_page_snip(work):
    """Its line on functions that trap: the output is valid, and they and no others trap."""
    line = page_line("./mulkavesh snip ")
    (work / "in.wasm").write_bytes(SHARED)
    status, text, _ = run_line(line, work)
    made, own = code_of((work / "out.wasm").read_bytes()), code_of(SHARED)
    same(line, (status, text, {text for text, code in made.items() if code == TRAP}), (0, "", {b"dead_import_user", b"dead_plain"}))
    same(f"the functions that {line} leaves", set(made), set(own) - {b"__wasm_call_ctors"})
    if not shutil.which("wasm-validate") or not shutil.which("node"):
        print("not tried: whether what snip writes is valid and traps, since there is no wasm-validate or no node")
        return
    same(f"whether what {line} writes is valid", subprocess.run(["wasm-validate", "--enable-all", work / "out.wasm"], check=False).returncode, 0)
    for file, wanted in (("in.wasm", b"\n"), ("out.wasm", b"dead_import_user dead_plain\n")):
        done = subprocess.run(["node", "-e", CALLER, work / file], capture_output=True, check=False)
        same(f"what traps in {file} of {line}", (done.returncode, done.stdout), (0, wanted))


def try_page_stub(work):
    """Its line on WASI: no function is imported from there, and the output is valid; over a module of a C program, where it is there."""
    line = page_line("./mulkavesh stub ")
    for title, data in samples():
        rows = [] if title in ("broken", "empty") else list(imports_of(data))
        if not any(module == "wasi_snapshot_preview1" for module, *_ in rows):
            continue
        (work / "in.wasm").write_bytes(data)
        status, text, _ = run_line(line, work)
        made = (work / "out.wasm").read_bytes()
        same(f"{line} of {title}", (status, text, [it for it in imports_of(made) if it[0] == "wasi_snapshot_preview1"]), (0, "", []))
        if shutil.which("wasm-validate"):
            same(f"whether what {line} writes of {title} is valid", subprocess.run(["wasm-validate", "--enable-all", work / "out.wasm"], check=False).returncode, 0)
