#!/usr/bin/env python3
"""What tools/day.sh does, for a change in hand:

    tools/day.sh [--dry] [FILE|CRATE..]

It checks the form of the repository, prints which crates the change proves again and for how long (from nothing, by
tools/build-times.txt; what is kept makes it less), and checks them: the changed ones by `rt check`, lowest first, then what stands on
them by `rt all check`, in each crate on which no other of them stands. It ends at the first that fails. With --dry it doesn't check
them. The change is FILE|CRATE.., or else what git calls changed against HEAD, with the files that it doesn't know. No part of the gate.
"""
import pathlib
import subprocess
import sys
import tempfile

from build import CRATES, NAMED, TOP, Progress, all_below, prove, table

SECONDS = table(TOP / "tools" / "build-times.txt")
PROVED = ("src", "specs", "proofs")


def say(text):
    print(f"day: {text}", flush=True)


def told_by_git(*words):
    return subprocess.run(["git", *words], cwd=TOP, text=True, capture_output=True, check=True).stdout.splitlines()


def changed_files():
    told = told_by_git("diff", "--name-only", "--no-renames", "HEAD") + told_by_git("ls-files", "--others", "--exclude-standard")
    return [TOP / name for name in told]


def changed_lines():
    """The crates whose line of crates.txt differs from that of HEAD."""
    lines = told_by_git("diff", "-U0", "HEAD", "--", "crates.txt")
    return {line[1:].partition(":")[0].split(" ")[0] for line in lines if line[:1] == "+"} & NAMED.keys()


def crates_of(path):
    """The crates that a change of a file proves again, without those above them."""
    if path == TOP / "crates.txt":
        return changed_lines()
    parts = path.relative_to(CRATES).parts if path.is_relative_to(CRATES) else ()
    return {parts[0]} & NAMED.keys() if len(parts) > 1 and parts[1] in PROVED else set()


def changed_crates(names):
    paths = changed_files()
    if names:
        paths = [pathlib.Path(name).resolve() for name in names if name not in NAMED]
        for path in paths:
            if not path.exists() and not crates_of(path):
                sys.exit(f"day: {path} is no crate of crates.txt, and no file\nusage: tools/day.sh [--dry] [FILE|CRATE..]")
    return {name for name in names if name in NAMED}.union(*map(crates_of, paths))


def seconds(crate):
    return int(SECONDS.get(crate, [60])[0])


def longest_chain(crates):
    """The seconds of the crates that are proved one after the other, however many processors there are."""
    chains = {}
    for crate in crates:
        chains[crate] = seconds(crate) + max((chains[it] for it in all_below(crate) & chains.keys()), default=0)
    return max(chains.values(), default=0)


def tell(changed, again):
    say(f"{len(again)} of {len(NAMED)} crates are proved again: {sum(map(seconds, again)) / 60:.0f} processor minutes from nothing,"
        f" no less than {longest_chain(again) / 60:.0f} on many processors")
    for crate in again:
        print(f"  {seconds(crate):4d} s  {crate}{', changed' if crate in changed else ''}")


def check_above(above):
    """Whether all crates above the changed ones are proved; where one isn't, the lines of its errors are printed."""
    tops = [crate for crate in above if not any(crate in all_below(other) for other in above)]
    progress = Progress({crate: all_below(crate) & set(above) for crate in above})
    for crate in tops:
        with tempfile.NamedTemporaryFile("w+", buffering=1, prefix=f"day-{crate}-", delete=False) as log:
            if not prove(crate, progress, log):
                log.seek(0)
                print(*(line.rstrip() for line in log if "error" in line), sep="\n")
                say(f"{crate}, or a crate below it, isn't proved; see {log.name}")
                return False
        pathlib.Path(log.name).unlink()
        progress.left -= {crate, *all_below(crate)}
    return True


def main():
    names = [word for word in sys.argv[1:] if word != "--dry"]
    changed = changed_crates(names)
    again = [crate for crate in NAMED if crate in changed or all_below(crate) & changed]
    if subprocess.run([TOP / "tools" / "form.py"], check=False).returncode:
        sys.exit(1)
    tell(changed, again)
    if "--dry" in sys.argv[1:]:
        return
    for crate in again:
        if crate in changed:
            say(f"rt check in crates/{crate}")
            if subprocess.run(["rt", "check"], cwd=CRATES / crate, check=False).returncode:
                sys.exit(f"day: {crate} isn't proved")
    above = [crate for crate in again if crate not in changed]
    if above and not check_above(above):
        sys.exit(1)
    say(f"{len(again)} crates are proved")


main()
