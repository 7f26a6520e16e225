"""Arguments that say nothing, with the line that is told of each, and several spellings of the same."""
import os
import subprocess

from .comparisons import PROGRAM, run, same
from .modules import TWO
from .names import NAMES

NO_SECTION = "nothing to strip: --section NAME, --names, --producers, --debug or --all"
APART = "--dropped, --exports and --imports don't go together, nor does --by size with the last two; mulkavesh list --help tells more"
# Command lines that say nothing, and what is told of each behind `mulkavesh: `.
MISTAKES = (
    ("nothing", "unknown subcommand 'nothing'; mulkavesh --help tells more"),
    ("GC", "unknown subcommand 'GC'; mulkavesh --help tells more"),
    ("gcc in", "unknown subcommand 'gcc'; did you mean gc?"),
    ("lst", "unknown subcommand 'lst'; did you mean list?"),
    ("reprot in", "unknown subcommand 'reprot'; did you mean report?"),
    ("help chek", "unknown subcommand 'chek'; did you mean check?"),
    ("help gc in", "'in' is one argument too many; mulkavesh --help tells more"),
    ("--version gc", "'gc' is one argument too many; mulkavesh --help tells more"),
    ("-V -V", "'-V' is one argument too many; mulkavesh --help tells more"),
    ("--quiet gc", "no subcommand stands in front of '--quiet'; mulkavesh --help tells more"),
    ("--versoin", "no subcommand stands in front of '--versoin'; did you mean --version?"),
    ("-- gc", "no subcommand stands in front of '--'; mulkavesh --help tells more"),
    ("-o --help", "no subcommand stands in front of '-o'; mulkavesh --help tells more"),
    ("gc --no-name", "gc: unknown option --no-name; did you mean --no-names?"),
    ("gc --no-prod in", "gc: unknown option --no-prod; did you mean --no-producers?"),
    ("gc --no-producer in", "gc: unknown option --no-producer; did you mean --no-producers?"),
    ("gc --quite in", "gc: unknown option --quite; did you mean --quiet?"),
    ("report --jsn", "report: unknown option --jsn; did you mean --json?"),
    ("list --ouput=a", "list: unknown option --ouput=a; mulkavesh list --help tells more"),
    ("check -x", "check: unknown option -x; mulkavesh check --help tells more"),
    ("gc -qo out", "gc: unknown option -qo; mulkavesh gc --help tells more"),
    ("gc --json", "gc: --json is no option of this subcommand; mulkavesh gc --help tells more"),
    ("report --quiet", "report: --quiet is no option of this subcommand; mulkavesh report --help tells more"),
    ("list -q in", "list: -q is no option of this subcommand; mulkavesh list --help tells more"),
    ("strip --all --no-names", "strip: --no-names is no option of this subcommand; mulkavesh strip --help tells more"),
    ("sections --quiet", "sections: --quiet is no option of this subcommand; mulkavesh sections --help tells more"),
    ("sections in out", "sections: 'out' is a second input; the output goes behind -o"),
    ("why a --quiet", "why: --quiet is no option of this subcommand; mulkavesh why --help tells more"),
    ("gc -q=1", "gc: -q=1 has a value, but this option takes none; mulkavesh gc --help tells more"),
    ("gc --quiet=1", "gc: --quiet=1 has a value, but this option takes none; mulkavesh gc --help tells more"),
    ("check --json= in", "check: --json= has a value, but this option takes none; mulkavesh check --help tells more"),
    ("gc -o", "gc: FILE is missing behind -o; mulkavesh gc --help tells more"),
    ("report in --output", "report: FILE is missing behind --output; mulkavesh report --help tells more"),
    ("gc -o a -o b", "gc: 'b' is a second output; there can be one -o"),
    ("gc -oa --output=--help", "gc: '--help' is a second output; there can be one -o"),
    ("gc --output a -ob", "gc: 'b' is a second output; there can be one -o"),
    ("gc in out.wasm", "gc: 'out.wasm' is a second input; the output goes behind -o"),
    ("gc -- in -o", "gc: '-o' is a second input; the output goes behind -o"),
    ("why a b c", "why: 'c' is a second input; the output goes behind -o"),
    ("strip", f"strip: {NO_SECTION}"),
    ("strip in", f"strip: {NO_SECTION}"),
    ("strip -o out -- in", f"strip: {NO_SECTION}"),
    ("strip name in", "strip: 'in' is a second input; the output goes behind -o"),
    ("strip --section", "strip: NAME is missing behind --section; mulkavesh strip --help tells more"),
    ("strip --names in --section", "strip: NAME is missing behind --section; mulkavesh strip --help tells more"),
    ("strip --sections=a", "strip: unknown option --sections=a; did you mean --section?"),
    ("strip --name", "strip: unknown option --name; did you mean --names?"),
    ("strip --all=1", "strip: --all=1 has a value, but this option takes none; mulkavesh strip --help tells more"),
    ("strip --debug=", "strip: --debug= has a value, but this option takes none; mulkavesh strip --help tells more"),
    ("strip --json --all", "strip: --json is no option of this subcommand; mulkavesh strip --help tells more"),
    ("gc --section name", "gc: --section is no option of this subcommand; mulkavesh gc --help tells more"),
    ("gc --section=name in", "gc: --section=name is no option of this subcommand; mulkavesh gc --help tells more"),
    ("gc --section", "gc: --section is no option of this subcommand; mulkavesh gc --help tells more"),
    ("list --all", "list: --all is no option of this subcommand; mulkavesh list --help tells more"),
    ("sections --names", "sections: --names is no option of this subcommand; mulkavesh sections --help tells more"),
    ("check --debug", "check: --debug is no option of this subcommand; mulkavesh check --help tells more"),
    ("why --json", "why: FUNCTION is missing; mulkavesh why --help tells more"),
    ("snip -o out", "snip: --function F is missing; mulkavesh snip --help tells more"),
    ("snip a --no-names", "snip: --function F is missing; mulkavesh snip --help tells more"),
    ("snip f in", "snip: 'in' is a second input; the output goes behind -o"),
    ("snip in --function", "snip: F is missing behind --function; mulkavesh snip --help tells more"),
    ("snip --function f --import a", "snip: --import is no option of this subcommand; mulkavesh snip --help tells more"),
    ("snip --function=f --json", "snip: --json is no option of this subcommand; mulkavesh snip --help tells more"),
    ("snip --func f", "snip: unknown option --func; did you mean --function?"),
    ("stub --", "stub: --module M is missing; mulkavesh stub --help tells more"),
    ("stub --import a in", "stub: --module M is missing; mulkavesh stub --help tells more"),
    ("stub --module", "stub: M is missing behind --module; mulkavesh stub --help tells more"),
    ("stub --module=m --import", "stub: NAME is missing behind --import; mulkavesh stub --help tells more"),
    ("stub --module=m --imports", "stub: --imports is no option of this subcommand; mulkavesh stub --help tells more"),
    ("gc --keep", "gc: NAME is missing behind --keep; mulkavesh gc --help tells more"),
    ("gc --kep a", "gc: unknown option --kep; did you mean --keep?"),
    ("gc --keep a --drop=b -o x -oy", "gc: 'y' is a second output; there can be one -o"),
    ("gc --function f", "gc: --function is no option of this subcommand; mulkavesh gc --help tells more"),
    ("gc -n3", "gc: -n3 is no option of this subcommand; mulkavesh gc --help tells more"),
    ("strip --keep a", "strip: --keep is no option of this subcommand; mulkavesh strip --help tells more"),
    ("check --drop=a", "check: --drop=a is no option of this subcommand; mulkavesh check --help tells more"),
    ("report --exports", "report: --exports is no option of this subcommand; mulkavesh report --help tells more"),
    ("report --by size", "report: --by is no option of this subcommand; mulkavesh report --help tells more"),
    ("why --callers=1 0", "why: --callers=1 has a value, but this option takes none; mulkavesh why --help tells more"),
    ("why --caller 0", "why: unknown option --caller; did you mean --callers?"),
    ("list --expor", "list: unknown option --expor; did you mean --exports?"),
    ("list --by", "list: size or index is missing behind --by; mulkavesh list --help tells more"),
    ("list --by name", "list: 'name' is no value of --by; mulkavesh list --help tells more"),
    ("list --by=", "list: '' is no value of --by; mulkavesh list --help tells more"),
    ("list in -n", "list: N is missing behind -n; mulkavesh list --help tells more"),
    ("list -n ten in", "list: 'ten' is no value of -n; mulkavesh list --help tells more"),
    ("list -n-1", "list: '-1' is no value of -n; mulkavesh list --help tells more"),
    ("list -n=3", "list: '=3' is no value of -n; mulkavesh list --help tells more"),
    ("list -n 4294967296", "list: '4294967296' is no value of -n; mulkavesh list --help tells more"),
    ("list --exports --imports", f"list: {APART}"),
    ("list --imports in --dropped", f"list: {APART}"),
    ("list --by size -n 3 --exports", f"list: {APART}"),
    ("list --by index --imports --by=size", f"list: {APART}"),
)


def refused_arguments(source, *words):
    """The status, whether anything was read or written, and what was said."""
    with open(source, "rb") as stream:
        done = subprocess.run([PROGRAM, *words], stdin=stream, capture_output=True, check=False)
        return done.returncode, os.lseek(stream.fileno(), 0, os.SEEK_CUR) > 0 or done.stdout != b"", done.stderr.decode()


def try_mistakes(work):
    """Arguments that say nothing: the status 2, a line that says what is wrong, and nothing is read."""
    source = work / "in"
    source.write_bytes(TWO)
    for words, line in MISTAKES:
        same(f"the arguments {words!r}", refused_arguments(source, *words.split()), (2, False, f"mulkavesh: {line}\n"))
    same("no arguments", refused_arguments(source), (2, False, run("--help")[1].decode()))
    same("an empty argument", refused_arguments(source, ""), (2, False, "mulkavesh: unknown subcommand ''; mulkavesh --help tells more\n"))
    same("an argument that isn't UTF-8", refused_arguments(source, b"gc", b"\xff"), (2, False, "mulkavesh: an argument isn't UTF-8\n"))
    for text, seen, _ in NAMES:
        if "\x00" not in text:
            line = f"mulkavesh: gc: '{seen}' is a second input; the output goes behind -o\n"
            same(f"a second input {text!r}", refused_arguments(source, "gc", "in", "--", text), (2, False, line))
            line = f"mulkavesh: gc: unknown option -x{seen}; mulkavesh gc --help tells more\n"
            same(f"an option {text!r}", refused_arguments(source, "gc", f"-x{text}"), (2, False, line))


def try_forms(work):
    """Several spellings of the same."""
    wanted = run("gc", "--quiet", "--no-names", data=TWO)
    same("the status of gc", wanted[::2], (0, ""))
    for words in (
        "gc --no-names --quiet --no-names", "gc - --quiet --no-names", "gc --quiet -o - --no-names --", "gc -q --no-names", "gc -q -o- --no-names",
        "gc --output - -q --no-names -", "gc --output=- --no-names --quiet -q", "gc --no-names -q -- -",
    ):
        same(f"the arguments {words!r}", run(*words.split(), data=TWO), wanted)
    for words in (["-o", "out"], ["-oout"], ["--output", "out"], ["--output=out"]):
        same(f"gc {words}", run("gc", "-q", "--no-names", *words, data=TWO, cwd=work), (0, b"", ""))
        same(f"OUT of gc {words}", (work / "out").read_bytes(), wanted[1])
        (work / "out").unlink()
    same("-o=out", run("gc", "-q", "-o=out", data=TWO, cwd=work)[0], 0)
    same("OUT of -o=out", (work / "=out").is_file(), True)
    (work / "--quiet").write_bytes(TWO)
    same("a file that is called as an option", run("check", "--", "--quiet", cwd=work), (0, b"accepted\n", ""))
    same("OUT that is called as an option", run("check", "--json", "-o", "--json", data=TWO, cwd=work), (0, b"", ""))
    same("its text", (work / "--json").read_bytes(), b"{\"accepted\":true}\n")
    same("OUT that is called --help", run("check", "-o", "--help", data=TWO, cwd=work), (0, b"", ""))
    same("its text too", (work / "--help").read_bytes(), b"accepted\n")
    (work / "-h").write_bytes(TWO)
    same("IN that is called -h", run("check", "--", "-h", cwd=work), (0, b"accepted\n", ""))
