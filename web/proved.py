#!/usr/bin/env python3
"""LLVM's module of the proved library: web/proved.py OUT.bc, behind tools/build.sh mulkavesh_c.

The crate is proved over the libraries that are built, as tools/build.py does, and what `rattle build` hands to clang is kept: in a copy of the kit's toolchain
folder, of links, clang is a script that copies the module before it calls the kit's. The kit stays as it is.
"""
import pathlib
import shlex
import shutil
import subprocess
import sys
import tempfile

TOP = pathlib.Path(__file__).resolve().parent.parent
CRATE = TOP / "crates" / "mulkavesh_c"
KIT = pathlib.Path(shutil.which("rt") or sys.exit("proved: there is no command rt")).resolve().parent.parent
CLANG = """#!/usr/bin/env bash
[ ! -f module.bc ] || cp module.bc {out}
exec {clang} "$@"
"""


def toolchain_in(room, out):
    """A toolchain folder that leaves the module at OUT."""
    folder = pathlib.Path(room) / "toolchain"
    subprocess.run(["cp", "-rs", KIT / "toolchain", folder], check=True)
    clang = folder / "bin" / "clang"
    clang.unlink()
    clang.write_text(CLANG.format(out=shlex.quote(str(out)), clang=shlex.quote(str(KIT / "toolchain" / "bin" / "clang"))))
    clang.chmod(0o755)
    return folder


def main():
    if len(sys.argv) != 2:
        sys.exit("usage: web/proved.py OUT.bc")
    out = pathlib.Path(sys.argv[1]).resolve()
    sys.dont_write_bytecode = True
    sys.path.insert(0, str(KIT / "bin"))
    import rtlib

    words = rtlib.Crate(str(CRATE), str(TOP), {}).words(["--jobs", "1"], keeps=False)
    with tempfile.TemporaryDirectory() as room:
        command = [rtlib.RATTLE, "build", *words, "--toolchain", toolchain_in(room, out), "--backend", "llvm", "-o", f"{room}/archive.a"]
        ran = subprocess.run(command, cwd=CRATE, stdout=sys.stderr, check=False)
    if ran.returncode or not out.exists():
        sys.exit(f"proved: rattle ended with status {ran.returncode} and left {'a' if out.exists() else 'no'} module")


if __name__ == "__main__":
    main()
