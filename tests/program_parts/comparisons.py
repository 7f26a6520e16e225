"""How the parts of tests/program.py run the programs and compare what comes out."""
import pathlib
import subprocess
import sys

TOP = pathlib.Path(__file__).resolve().parents[2]
sys.path.insert(0, str(TOP / "python"))
import mulkavesh  # noqa: E402

PROGRAM, WALRUS_GC = sys.argv[1:]

counts = {"compared": 0, "finds": 0}


def same(what, found, wanted):
    counts["compared"] += 1
    if found != wanted:
        counts["finds"] += 1
        print(f"FIND {what}: {shown(found)}, not {shown(wanted)}")


def shown(value):
    text = repr(value)
    return text if len(text) < 300 else text[:200] + ".." + text[-60:]


def run(*words, data=b"", program=PROGRAM, user=None, **more):
    """The status, what was written, and what was said."""
    before = ["setpriv", f"--reuid={user}", f"--regid={user}", "--clear-groups"] if user else []
    done = subprocess.run([*before, program, *words], input=data, capture_output=True, check=False, **more)
    return done.returncode, done.stdout, done.stderr.decode()
