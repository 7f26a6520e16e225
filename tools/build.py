#!/usr/bin/env python3
"""What tools/build.sh does. `rt` knows by their content what has changed; this adds the lanes and the progress.

Crates are proved side by side by `rt all check`, as many as there are processors and 2 GB of memory each for (where that is for one or
two, `rt` chooses itself), and the crate itself is built by `rt run` or `rt lib` behind them. tools/build-times.txt, the seconds that each
crate takes, serves to guess the time left. What was proved when a run is interrupted is kept, and the next one goes on from there.
"""
import contextlib
import functools
import os
import pathlib
import shutil
import subprocess
import sys
import tempfile
import threading
import time

TOP = pathlib.Path(__file__).resolve().parent.parent
CRATES = TOP / "crates"
TURN = 15  # seconds from one line of progress to the next


def say(text):
    print(f"build: {text}", file=sys.stderr, flush=True)


def table(path):
    """A file of lines `NAME: WORD ..`, without comments."""
    lines = (line.split("#")[0].split() for line in path.read_text().splitlines())
    return {line[0].rstrip(":"): line[1:] for line in lines if line}


def listed():
    """The crates of crates.txt with those that each lists, and which of them are static libraries."""
    rows = [line.split("#")[0].partition(":") for line in (TOP / "crates.txt").read_text().splitlines()]
    rows = [(head.split(), below.split()) for head, _, below in rows if head.strip()]
    return {head[0]: below for head, below in rows}, {head[0] for head, _ in rows if "staticlib" in head}


NAMED, STATIC = listed()


@functools.cache
def all_below(crate):
    """All crates of the repository that a crate stands on."""
    mine = [other for other in NAMED[crate] if other in NAMED]
    return frozenset(mine).union(*map(all_below, mine))


def newest_source(crates):
    """When a source of the crates was last changed, added or taken away."""
    parts = [CRATES / crate / part for crate in crates for part in ("src", "specs", "proofs")]
    paths = [path for part in parts if part.exists() for path in [part, *part.rglob("*")]]
    return max(path.stat().st_mtime for path in [TOP / "crates.txt", *paths])


class Progress:
    """Which of the crates are still to be proved, told every few seconds until it is done."""

    def __init__(self, below):
        self.below, self.left, self.begin, self.begun = below, set(below), time.monotonic(), {}
        kilobytes = int(table(pathlib.Path("/proc/meminfo"))["MemAvailable"][0])
        self.lanes = max(1, min(len(os.sched_getaffinity(0)), kilobytes // (2 << 20)))
        self.seconds = table(TOP / "tools" / "build-times.txt")
        threading.Thread(target=self.tell, daemon=True).start()

    def at_work(self):
        """The crates whose turn it is: of those that stand on none that is left, the first ones."""
        ready = [crate for crate in self.below if crate in self.left and not self.below[crate] & self.left]
        for crate in ready[: self.lanes]:
            self.begun.setdefault(crate, time.monotonic())
        return ready[: self.lanes]

    def seconds_left(self, crate):
        spent = time.monotonic() - self.begun.get(crate, time.monotonic())
        return max(0.0, float(self.seconds.get(crate, [60])[0]) - spent)

    def minutes_left(self):
        """What the longest chain of crates takes, or all of them side by side, where that is longer."""
        chains, left = {}, self.left.copy()
        for crate in self.below:
            if crate in left:
                above = max((chains[other] for other in self.below[crate] & chains.keys()), default=0)
                chains[crate] = self.seconds_left(crate) + above
        return max(max(chains.values(), default=0), sum(map(self.seconds_left, left)) / self.lanes) / 60

    def tell(self):
        while True:
            time.sleep(TURN)
            work, minutes = self.at_work(), (time.monotonic() - self.begin) / 60
            say(f"{len(self.below) - len(self.left)} of {len(self.below)} crates after {minutes:.0f} min; at work on"
                f" {', '.join(work) or 'what is run'}; about {self.minutes_left():.0f} min more")


def prove(crate, progress, log):
    """Runs `rt all check` in the crate's folder, which proves it and all crates below it."""
    command = ["rt", "all", "check", *(["--jobs", str(progress.lanes)] if progress.lanes > 2 else [])]
    pipes = {"stdin": subprocess.DEVNULL, "stdout": subprocess.PIPE, "stderr": subprocess.STDOUT}
    with subprocess.Popen(command, cwd=CRATES / crate, text=True, errors="replace", **pipes) as run:
        for line in run.stdout:
            log.write(line)
            if line.startswith("== "):
                progress.left.discard(line[3:].strip())
    return run.returncode == 0


def build(crate, is_program, log):
    """Builds the crate, a program by its stored run, whose outcome is the gate's matter."""
    given, words = CRATES / crate / "stdin", CRATES / crate / "args"
    command = ["rt", "run", "--", *(words.read_text().splitlines() if words.exists() else [])] if is_program else ["rt", "lib"]
    with open(given if given.exists() else os.devnull, "rb") as source:
        subprocess.run(command, cwd=CRATES / crate, stdin=source, stdout=subprocess.DEVNULL, stderr=log, check=False)


def are_built(crates, since):
    """Whether each of these libraries was built since then: by `rt lib`, or by `rt ci`, which leaves no stamp."""
    made = [CRATES / it / "out" / "rlib" / f"{it}.rlib" for it in crates]
    return all(it.exists() and it.stat().st_mtime >= since for it in made)


def archive(crate, log):
    """Proves a static library over the libraries that are built, as they are, and compiles it."""
    sys.path.insert(0, str(pathlib.Path(os.path.realpath(shutil.which("rt"))).parent))
    sys.dont_write_bytecode = True
    import rtlib

    with contextlib.redirect_stdout(log):
        words = rtlib.Crate(str(CRATES / crate), str(TOP), {}).words(["--jobs", "1"], keeps=False)
    to = f"out/lib{crate}.a"
    command = [rtlib.RATTLE, "build", *words, "--toolchain", f"{rtlib.KIT}/toolchain", "--backend", "llvm", "-o", to]
    (CRATES / crate / "out").mkdir(exist_ok=True)
    subprocess.run(command, cwd=CRATES / crate, stdout=log, stderr=log, check=False)


def link(crate, log):
    """Makes the libraries that programs link of the archive of a static library, if it is there."""
    out = CRATES / crate / "out"
    if (out / f"lib{crate}.a").exists():
        subprocess.run([TOP / "tools" / "library.sh", out / f"lib{crate}.a", out / "lib"], stdout=log, stderr=log, check=False)


def made_of(crate):
    """The kind of a crate (`program`, `static` or `library`), what its build leaves, and what is there only behind a proof."""
    out = CRATES / crate / "out"
    if (CRATES / crate / "src" / "main.rt").exists():
        return "program", out / crate, out / f"{crate}.stamp"
    if crate in STATIC:
        return "static", out / "lib" / "libmulkavesh.a", out / "lib" / "libmulkavesh.so"
    return "library", out / "rlib" / "stamp", out / "rlib" / "stamp"


def make(crate, kind, crates, log):
    """Proves what isn't proved yet, and builds the crate; answers whether all is proved."""
    if kind == "static" and are_built(crates - {crate}, newest_source(crates)):
        archive(crate, log)
        link(crate, log)
        return True
    progress = Progress({it: all_below(it) for it in NAMED if it in crates})
    say(f"{len(crates)} crate{'s' * (len(crates) > 1)} to be proved where not proved yet; from nothing that takes about"
        f" {progress.minutes_left():.0f} min, where nothing else is at work")
    is_proved = prove(crate, progress, log)
    if is_proved:
        build(crate, kind == "program", log)
        if kind == "static":
            link(crate, log)
    return is_proved


def main():
    if len(sys.argv) != 2 or sys.argv[1] not in NAMED:
        sys.exit("usage: tools/build.sh CRATE, a crate of crates.txt")
    crate = sys.argv[1]
    crates = {crate, *all_below(crate)}
    kind, made, stamp = made_of(crate)
    if made.exists() and made.stat().st_mtime >= newest_source(crates):
        return
    if not shutil.which("rt"):
        sys.exit('build: there is no command rt, which comes with the Rattle kit; README.md, "Quick start", says what a build needs')
    begin = time.time()
    # rt takes a stamp away before it builds anew, so an older program has none
    for it in (made, stamp) if kind == "static" else ():
        it.unlink(missing_ok=True)
    with tempfile.NamedTemporaryFile("w", buffering=1, prefix=f"build-{crate}-", delete=False) as log:
        try:
            is_proved = make(crate, kind, crates, log)
        except KeyboardInterrupt:
            os.remove(log.name)
            sys.exit("build: interrupted; what is proved is kept, and the next call goes on from there")
    if not is_proved or not stamp.exists():
        sys.exit(f"build: {crate} isn't built; see {log.name}")
    os.utime(made, (begin, begin))
    os.remove(log.name)
    say(f"{crate} is built")


if __name__ == "__main__":
    main()
