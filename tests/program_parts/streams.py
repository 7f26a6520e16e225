"""Devices, pipes, closed streams, terminals, and readers that go."""
import os
import pty
import select
import stat
import subprocess
import threading

from .comparisons import PROGRAM, run, same
from .modules import BROKEN, custom, functions, TWO

MANY = 1_000_000


def try_devices(work):
    wanted = run("gc", "--quiet", data=TWO)[1]
    full = "no space left on device\n"
    same("OUT as /dev/full", run("gc", "--quiet", "-o", "/dev/full", data=TWO), (1, b"", f"mulkavesh: /dev/full: {full}"))
    with open("/dev/full", "wb") as device:
        done = subprocess.run([PROGRAM, "gc"], input=TWO, stdout=device, stderr=subprocess.PIPE, check=False)
        same("standard output as /dev/full", (done.returncode, done.stderr.decode()), (1, f"mulkavesh: standard output: {full}"))
        done = subprocess.run([PROGRAM, "--help"], stdout=device, stderr=subprocess.PIPE, check=False)
        same("--help to /dev/full", (done.returncode, done.stderr.decode()), (1, f"mulkavesh: standard output: {full}"))
        done = subprocess.run([PROGRAM, "gc"], input=BROKEN, stdout=subprocess.PIPE, stderr=device, check=False)
        same("standard error as /dev/full", (done.returncode, done.stdout), (1, b""))
    same("OUT as /dev/null", run("gc", "--quiet", "-o", "/dev/null", data=TWO), (0, b"", ""))
    same("/dev/null is a device", stat.S_ISCHR(os.stat("/dev/null").st_mode), True)
    same("OUT as /dev/stdout", run("gc", "--quiet", "-o", "/dev/stdout", data=TWO), (0, wanted, ""))
    same("IN as /dev/stdin", run("gc", "--quiet", "/dev/stdin", data=TWO), (0, wanted, ""))
    pipe = work / "pipe"
    os.mkfifo(pipe)
    read = []
    reader = threading.Thread(target=lambda: read.append(pipe.read_bytes()))
    reader.start()
    same("OUT as a named pipe", run("gc", "--quiet", "-o", pipe, data=TWO), (0, b"", ""))
    reader.join(10)
    same("what comes through", read, [wanted])
    same("a named pipe stays", stat.S_ISFIFO(pipe.stat().st_mode), True)
    writer = threading.Thread(target=lambda: pipe.write_bytes(TWO))
    writer.start()
    same("IN as a named pipe", run("gc", "--quiet", pipe), (0, wanted, ""))
    writer.join(10)


def shell(text, **more):
    done = subprocess.run(["bash", "-c", text], capture_output=True, check=False, env={**os.environ, "P": PROGRAM, **more})
    return done.returncode, done.stdout, done.stderr.decode()


def try_closed_streams(work):
    """Where a standard stream is closed, nothing else takes its place."""
    wanted = run("gc", "--quiet", data=TWO)[1]
    source, out = work / "in", work / "out"
    source.write_bytes(TWO)
    words = {"IN": str(source), "OUT": str(out)}
    for closed in ("2>&-", ">&-", "<&-", "<&- >&- 2>&-"):
        same(f"gc {closed}", shell(f'"$P" gc "$IN" -o "$OUT" {closed}', **words)[0], 0)
        same(f"OUT of gc {closed}", out.read_bytes(), wanted)
    same("gc from a pipe 2>&-", shell('cat "$IN" | "$P" gc -o "$OUT" 2>&-', **words)[0], 0)
    same("OUT of gc from a pipe 2>&-", out.read_bytes(), wanted)
    same("gc <&-", shell('"$P" gc <&-', **words)[::2], (1, "mulkavesh: standard input: bad file descriptor\n"))
    same("gc >&-", shell('"$P" gc "$IN" >&-', **words)[::2], (1, "mulkavesh: standard output: bad file descriptor\n"))


def at_terminal(*words, of, **streams):
    """The status, what was written and what was said, where these streams (0, 1) are a terminal."""
    leader, follower = pty.openpty()
    try:
        ends = {name: follower if number in of else streams.get(name, subprocess.PIPE) for number, name in ((0, "stdin"), (1, "stdout"))}
        child = subprocess.Popen([PROGRAM, *words], stderr=subprocess.PIPE, **ends)
        written, said = child.communicate(None if 0 in of else TWO, timeout=60)
        os.close(follower)
        follower = None
        seen = b""
        while select.select([leader], [], [], 0)[0]:
            try:
                some = os.read(leader, 65536)
            except OSError:
                break
            if not some:
                break
            seen += some
        return child.returncode, written if 1 not in of else seen, said.decode()
    finally:
        os.close(leader)
        if follower is not None:
            os.close(follower)


def try_terminals(work):
    """From a terminal nothing is read, and to one no module is written, but where `-` says so."""
    source, out = work / "in", work / "out"
    source.write_bytes(TWO)
    no_input = "no input: name a file, or - for standard input"
    no_output = "standard output is a terminal; write -o FILE, or -o - to send the bytes there all the same"
    for words in (["gc"], ["report"], ["list", "--json"], ["check"], ["sections"], ["strip", "--all"], ["snip", "--function", "run"], ["stub", "--module", "*"], ["why", "0"]):
        line = (2, b"", f"mulkavesh: {words[0]}: {no_input}\n")
        same(f"{words} of a terminal", at_terminal(*words, of=(0,)), line)
        same(f"{words} -o OUT of a terminal", at_terminal(*words, "-o", out, of=(0, 1)), line)
    same("OUT is left alone", out.exists(), False)
    for words in (["gc"], ["strip", "--all"], ["snip", "--function", "run"]):
        same(f"{words} to a terminal", at_terminal(*words, source, of=(1,)), (2, b"", f"mulkavesh: {words[0]}: {no_output}\n"))
        same(f"{words} to a terminal from standard input", at_terminal(*words, of=(1,)), (2, b"", f"mulkavesh: {words[0]}: {no_output}\n"))
        status, written, said = at_terminal(*words, source, "-o", "-", of=(1,))
        same(f"{words} -o - to a terminal", (status, written[:4]), (0, b"\0asm"))
        same(f"{words} -o OUT from a terminal's side", at_terminal(*words, source, "-o", out, of=(0, 1))[:2], (0, b""))
    same("check to a terminal", at_terminal("check", source, of=(0, 1)), (0, b"accepted\r\n", ""))
    same("check - of a terminal's side", at_terminal("check", "-", of=(1,)), (0, b"accepted\r\n", ""))
    same("--help to a terminal", at_terminal("--help", of=(0, 1))[0], 0)


def try_readers_that_go(work):
    big = functions(20000, [(f"f{at}", at) for at in range(20000)], more=[custom("notes", b"abc")])
    (work / "big").write_bytes(big)
    for words in ("gc --quiet", "list", "list --json", "strip --section notes"):
        found = shell(f'"$P" {words} "$IN" | head -c 1 | wc -c; echo "${{PIPESTATUS[0]}}"', IN=str(work / "big"))
        same(f"{words} into head", found, (0, b"1\n1\n", ""))
    many = work / "many"
    many.write_bytes(functions(MANY, [(f"f{at}", at) for at in range(MANY)]))
    found = shell('"$P" list "$IN" | head -n 1; echo "${PIPESTATUS[0]}"', IN=str(many))
    same("a list of a million lines into head", found, (0, b"2 0\n1\n", ""))
    found = shell('"$P" list "$IN" | wc -l', IN=str(many))
    same("a list of a million lines", found, (0, b"%d\n" % MANY, ""))
