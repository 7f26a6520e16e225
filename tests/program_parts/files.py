"""Files as IN and as OUT: links, rights, each failure, and a disk that is full."""
import os
import shutil
import stat
import subprocess

from .comparisons import PROGRAM, run, same
from .modules import BROKEN, functions, TWO

OTHER_USER = 65534


def is_clean(what, folder):
    same(f"files that are left by {what}", sorted(it.name for it in folder.rglob(".mulkavesh*")), [])


def try_files(work):
    wanted = run("gc", "--quiet", data=TWO)[1]
    source, out = work / "in.wasm", work / "out.wasm"
    source.write_bytes(TWO)
    for words in ([source, "-o", out], ["-o", out, source], ["-o", out, "--", source]):
        same(f"gc {words}", (run("gc", "--quiet", *words), out.read_bytes()), ((0, b"", ""), wanted))
        out.unlink()
    same("gc IN", run("gc", "--quiet", source), (0, wanted, ""))
    same("gc - -o -", run("gc", "--quiet", "-", "-o", "-", data=TWO), (0, wanted, ""))
    same("gc -o OUT", (run("gc", "--quiet", "-o", out, data=TWO), out.read_bytes()), ((0, b"", ""), wanted))
    same("the rights of a new file", stat.S_IMODE(out.stat().st_mode), 0o666 & ~current_umask())
    same("gc -o OUT in its folder", run("gc", "--quiet", "in.wasm", "-o", "here", cwd=work), (0, b"", ""))
    same("OUT in its folder", (work / "here").read_bytes(), wanted)
    out.write_bytes(TWO * 3)
    out.chmod(0o640)
    same("gc over a longer OUT", (run("gc", "--quiet", source, "-o", out), out.read_bytes()), ((0, b"", ""), wanted))
    same("the rights of an old file", stat.S_IMODE(out.stat().st_mode), 0o640)
    same("IN as OUT", (run("gc", "--quiet", source, "-o", source), source.read_bytes()), ((0, b"", ""), wanted))
    link = work / "link"
    link.symlink_to("out.wasm")
    same("OUT as a link", (run("gc", "--quiet", "-o", link, data=TWO), out.read_bytes()), ((0, b"", ""), wanted))
    same("a link stays", link.is_symlink(), True)
    long = work / ("n" * 255)
    same("OUT with a long name", (run("gc", "--quiet", "-o", long, data=TWO), long.read_bytes()), ((0, b"", ""), wanted))
    same("an empty list", (run("list", "-o", out, data=functions(1)), out.read_bytes()), ((0, b"", ""), b""))
    is_clean("what was done", work)


def current_umask():
    mask = os.umask(0)
    os.umask(mask)
    return mask


def try_failures(work):
    """Each is a line and the status 1; OUT is as it was."""
    out, folder = work / "out", work / "folder"
    out.write_bytes(b"as it was")
    folder.mkdir()
    (work / "nowhere").symlink_to(work / "nothing")
    (work / "circle").symlink_to(work / "circle")
    nothing, no_folder = "no such file or directory", "not a directory"
    for words, of, why in (
        (["gc", work / "none", "-o", out], work / "none", nothing),
        (["gc", folder, "-o", out], folder, "is a directory"),
        (["gc", out / "in", "-o", out], out / "in", no_folder),
        (["gc", work / ("n" * 300), "-o", out], work / ("n" * 300), "file name too long"),
        (["gc", work / "circle", "-o", out], work / "circle", "too many levels of symbolic links"),
        (["gc", "", "-o", out], "", nothing),
        (["gc", "-o", folder], folder, "is a directory"),
        (["gc", "-o", work / "none" / "out"], work / "none" / "out", nothing),
        (["gc", "-o", out / "out"], out / "out", no_folder),
        (["gc", "-o", f"{work}/new/"], f"{work}/new/", no_folder),
        (["gc", "-o", work / ("n" * 300)], work / ("n" * 300), "file name too long"),
        (["gc", "-o", work / "nowhere"], work / "nowhere", nothing),
        (["gc", "-o", ""], "", nothing),
        (["strip", "--section", "none", "-o", out], "standard input", "one of the options fits no custom section"),
        (["snip", "--function", "none", "-o", out], "standard input", "there is no such function"),
        (["stub", "--module", "none", "-o", out], "standard input", "no function is imported so"),
        (["gc", "--keep", "none", "-o", out], "standard input", "no export fits none"),
        (["why", "none", "-o", out], "standard input", "there is no such function or export"),
        (["why", "2", "-o", out], "standard input", "there is no such function or export"),
    ):
        same(f"{words}", run(*words, data=TWO), (1, b"", f"mulkavesh: {of}: {why}\n"))
        same(f"OUT of {words}", out.read_bytes(), b"as it was")
    line = f"mulkavesh: standard input: the input WebAssembly is invalid: {run('check', data=BROKEN)[1].decode()}"
    for work_word in ("gc", "report", "list", "strip --all", "snip --function none", "stub --module none", "why none"):
        same(f"{work_word} of what is refused", run(*work_word.split(), "-o", out, data=BROKEN), (1, b"", line))
        same(f"OUT of {work_word} of what is refused", out.read_bytes(), b"as it was")
    line = "mulkavesh: standard input: the input WebAssembly is invalid\n"
    same("check of what is refused", run("check", "-o", out, data=BROKEN), (1, b"", line))
    is_clean("what was refused", work)


def try_rights(work):
    if os.getuid() != 0:
        print("not tried: another user, since this one isn't root")
        return
    os.chmod(work, 0o755)
    program = work / "program"
    shutil.copy(PROGRAM, program)
    mine, theirs, shut = work / "mine", work / "theirs", work / "shut"
    for folder, owner in ((mine, 0), (theirs, OTHER_USER), (shut, OTHER_USER)):
        folder.mkdir()
        (folder / "out").write_bytes(b"as it was")
        (folder / "in").write_bytes(TWO)
        for path in (folder, folder / "out", folder / "in"):
            os.chown(path, owner, owner)
    (theirs / "out").chmod(0o444)
    (shut / "in").chmod(0)
    for what, words, of in (
        ("a folder of another user", ["gc", "-o", mine / "new"], mine / "new"),
        ("a file of another user", ["gc", "-o", mine / "out"], mine / "out"),
        ("a file that isn't to be written", ["gc", "-o", theirs / "out"], theirs / "out"),
        ("a file that isn't to be read", ["gc", shut / "in", "-o", shut / "out"], shut / "in"),
    ):
        found = run(*words, data=TWO, program=program, user=OTHER_USER)
        same(what, found, (1, b"", f"mulkavesh: {of}: permission denied\n"))
    (mine / "out").chmod(0o666)
    found = run("gc", "-o", mine / "out", data=TWO, program=program, user=OTHER_USER)
    same("a file that may be written in a folder that may not", found, (1, b"", f"mulkavesh: {mine / 'out'}: permission denied\n"))
    for folder in (mine, theirs, shut):
        same(f"OUT in {folder.name}", (folder / "out").read_bytes(), b"as it was")
        same(f"what is in {folder.name}", sorted(it.name for it in folder.iterdir()), ["in", "out"])
    (theirs / "out").chmod(0o600)
    same("root over a file of another user", run("gc", "--quiet", "-o", theirs / "out", data=TWO)[0], 0)
    same("whose it is then", ((theirs / "out").stat().st_uid, stat.S_IMODE((theirs / "out").stat().st_mode)), (OTHER_USER, 0o600))


def try_full_disk(work):
    disk = work / "disk"
    disk.mkdir()
    if subprocess.run(["mount", "-t", "tmpfs", "-o", "size=64k", "none", disk], capture_output=True, check=False).returncode:
        print("not tried: a full disk, since none can be mounted")
        return
    try:
        out, data = disk / "out", functions(20000, [(f"f{at}", at) for at in range(20000)])
        line = f"mulkavesh: {out}: no space left on device\n"
        same("a new file on a full disk", run("gc", "--quiet", "-o", out, data=data), (1, b"", line))
        same("what is on it", list(disk.iterdir()), [])
        out.write_bytes(b"as it was")
        same("an old file on a full disk", run("gc", "--quiet", "-o", out, data=data), (1, b"", line))
        same("what is on it then", [(it.name, it.read_bytes()) for it in disk.iterdir()], [("out", b"as it was")])
    finally:
        subprocess.run(["umount", disk], check=True)
