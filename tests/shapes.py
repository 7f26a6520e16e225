#!/usr/bin/env python3
"""Compares the time that walrus-gc takes on modules of hostile shapes with that on others a tenth as large, and its memory with their bytes:

    tests/shapes.py [--factor F] [--seconds N] [--gigabytes N] [--keep FOLDER] [--mulkavesh PROGRAM] [--library FOLDER] PROGRAM [SHAPE..]
    tests/shapes.py --list

A shape is a module of many equal parts, of parts that are dear beside the bytes that they take, or of what meets a weak place of lists and tables; or
such a module with a long list of edits. Where no SHAPE is named all are run, which takes some ten minutes; a SHAPE may have stars, as `edit_*`. The
smaller module has 1 MB, mostly, and the larger one ten times as many bytes, or 10,000 and 100,000 edits; --factor multiplies both, but makes those no
larger whose time isn't judged. With --keep the modules, and the lists beside them, stay in FOLDER. What makes them stands in shape_parts, by topic.

PROGRAM is walrus-gc. A shape that is for a subcommand of mulkavesh is run by the PROGRAM that --mulkavesh names, and a list of edits is handed to the
library for C in the FOLDER that --library names. Where one isn't named, the shapes for it are passed over.

A shape is flagged where one of these doesn't hold:

- The program ends with status 0 and tells nothing; on the two shapes that are no modules with status 1, the line that says so, and nothing written.
  It is given so many seconds by the clock (120), behind which SIGALRM ends it, and so many gigabytes of address space (half of the machine's memory).
- The larger module takes at most 16 times the processor seconds of the smaller one, or 13 times where that has 3 MB or more: for
  ten times the bytes, and in proportion where they aren't quite that. Some shapes have a figure of their own. The least seconds of some runs count,
  without those that an empty module takes; of a list those of the call alone. Where the larger one takes less than a tenth of a second that isn't
  judged, nor of shapes that are dear by what they say: 50,000 locals in a few bytes, or each of many things for each of many others.
- At the peak a run takes at most 64 times the bytes that it reads and writes, and 50 MB. Some shapes have a figure of their own, by the bytes that
  are read alone, in place of those 64 times. Those of a list count as read, and its run has the caller's own 20 MB in it, a program in Python.

Prints a line a shape, with what is wrong where it is flagged, and the counts; the status is 1 where one is flagged. Runs follow one after the other,
those of walrus-gc and of lists without producers. A peak below some 15 MB isn't seen, since a run begins as a copy of this process. No part of the gate.
"""
import argparse
import dataclasses
import fnmatch
import functools
import multiprocessing
import os
import pathlib
import resource
import signal
import subprocess
import sys
import tempfile
import time

sys.dont_write_bytecode = True
from shape_parts import items, bodies, customs, subcommands, edits  # noqa: F401, in the order of their lines
from shape_parts.shape import GIGABYTE, LARGER, MEGABYTE, MOST_ROUNDS, SHAPES, TAKEN
from shape_parts.spelling import module

SHORTEST_JUDGED = 0.1
MOST_BYTES_FOR_A_BYTE = 64
MEMORY_BESIDE = 50 * MEGABYTE
# A module isn't run again where its runs have taken so many seconds by the clock.
ENOUGH_SECONDS = 4
# What each program is run with on an empty module, and walrus-gc on all shapes.
WALRUS_GC, MULKAVESH = ("--no-producers",), ("gc", "--quiet", "--no-producers")
EDIT_CALL = pathlib.Path(__file__).resolve().parent / "shape_parts" / "edit_call.py"


@dataclasses.dataclass
class Taken:
    """What the runs over a module took: its bytes, those of a list with them, the least processor seconds, the most bytes at the peak and written, and how they ended."""
    given: int
    seconds: float
    peak: int
    written: int
    endings: set

    def multiple(self):
        return self.peak / (self.given + self.written)


class Runner:
    """Runs a program over modules in files, within limits of seconds by the clock and of bytes of address space."""

    def __init__(self, program, words, folder, seconds, space):
        self.program, self.words, self.folder, self.seconds, self.space = os.path.abspath(program), words, folder, seconds, space
        # What the start of a process takes.
        self.start = 0
        self.prepare()

    def prepare(self):
        empty = self.folder / "empty.wasm"
        empty.write_bytes(module())
        started = self.taken(empty, self.words)
        self.start = started.seconds
        if started.endings != {TAKEN}:
            sys.exit(f"tests/shapes.py: {self.program} doesn't take the empty module")

    def limit(self):
        """In a new process, before the program begins: the alarm goes on through that."""
        resource.setrlimit(resource.RLIMIT_AS, (self.space, self.space))
        resource.setrlimit(resource.RLIMIT_CORE, (0, 0))
        signal.alarm(self.seconds)

    def command(self, path, words):
        return [self.program, *words]

    def given(self, path):
        """How many bytes are handed over."""
        return path.stat().st_size

    def spent(self, usage):
        """The processor seconds of a run."""
        return usage.ru_utime + usage.ru_stime

    def run(self, path, words):
        """Processor seconds, bytes at the peak, bytes written, and how it ended."""
        output, errors = self.folder / "output", self.folder / "errors"
        with open(path, "rb") as source, open(output, "wb") as sink, open(errors, "wb") as told:
            process = subprocess.Popen(self.command(path, words), stdin=source, stdout=sink, stderr=told, preexec_fn=self.limit)
            _, status, usage = os.wait4(process.pid, 0)
            process.returncode = os.waitstatus_to_exitcode(status)
        written = output.stat().st_size
        output.unlink()
        return self.spent(usage), usage.ru_maxrss * 1024, written, (process.returncode, errors.read_bytes(), written > 0)

    def taken(self, path, words, rounds=MOST_ROUNDS):
        runs, end = [], time.monotonic() + ENOUGH_SECONDS
        while not runs or len(runs) < rounds and time.monotonic() < end:
            runs.append(self.run(path, words))
        seconds, peaks, written, endings = zip(*runs)
        return Taken(self.given(path), max(min(seconds) - self.start, 0.001), max(peaks), max(written), set(endings))


class Caller(Runner):
    """Has a library edit modules in files, by lists that stand beside them."""

    def __init__(self, library, *limits):
        super().__init__(library, (), *limits)

    def prepare(self):
        """The seconds are those of the call alone."""

    def command(self, path, words):
        return [sys.executable, "-B", str(EDIT_CALL), self.program, str(list_of(path)), str(self.folder / "seconds")]

    def given(self, path):
        return path.stat().st_size + list_of(path).stat().st_size

    def spent(self, usage):
        seconds = self.folder / "seconds"
        if not seconds.exists():
            return 0
        told = float(seconds.read_text(encoding="ascii"))
        seconds.unlink()
        return told


def list_of(path):
    """The file of a list of edits that stands beside a module."""
    return path.with_suffix(".edits")


def write_module(name, size, path):
    wanted = SHAPES[name]
    if wanted.is_list:
        data, listed = wanted.make(size)
        list_of(path).write_bytes(listed)
    else:
        data = wanted.make(size)
    path.write_bytes(data)


def made(name, size, path):
    """Makes a module in a process of its own: what a run is said to take at the peak is never below what this process has."""
    maker = multiprocessing.get_context("fork").Process(target=write_module, args=(name, size, path))
    maker.start()
    maker.join()
    if maker.exitcode:
        sys.exit(f"tests/shapes.py: {name} of {size} bytes can't be made")


def times_as_long(smaller, larger):
    """How often the larger module takes the seconds of the smaller one, for ten times the bytes."""
    return larger.seconds / smaller.seconds * LARGER / (larger.given / smaller.given)


def wrong_in_runs(wanted, taken):
    """What is wrong with how the runs over a module end, and with their memory."""
    for status, told, has_written in taken.endings - {wanted.ending}:
        word = signal.Signals(-status).name if status < 0 else f"status {status}"
        yield f"{word} on {taken.given} bytes, told {told[:80]!r}, {'output' if has_written else 'no output'}"
    both = taken.given + taken.written
    most = MEMORY_BESIDE + (wanted.memory(taken.given) if wanted.memory else MOST_BYTES_FOR_A_BYTE * both)
    if taken.peak > most:
        yield f"{taken.peak / MEGABYTE:.0f} MB for {both} bytes read and written, more than {most / MEGABYTE:.0f}"


def wrong_in(wanted, size, smaller, larger):
    yield from wrong_in_runs(wanted, smaller)
    yield from wrong_in_runs(wanted, larger)
    most = wanted.times(size)
    if wanted.is_timed and larger.seconds >= SHORTEST_JUDGED and times_as_long(smaller, larger) > most:
        yield f"{times_as_long(smaller, larger):.1f} times as long for ten times the bytes, more than {most}"


# Bytes and peak are those of the larger module, and the multiple is of its bytes in and out.
HEAD = f"{'shape':20} {'bytes in':>10} {'bytes out':>10} {'seconds':>8} {'larger':>8} {'ratio':>6} {'peak MB':>8} {'multiple':>8}"


def judged(name, runner, folder, factor, is_kept):
    """Whether a shape is flagged; prints its line."""
    wanted, taken = SHAPES[name], []
    sizes, words = wanted.sizes(factor), wanted.subcommand or runner.words
    for size, word in zip(sizes, ("smaller", "larger")):
        path = folder / f"{name}.{word}.wasm"
        made(name, size, path)
        taken.append(runner.taken(path, words, wanted.rounds))
        if not is_kept:
            path.unlink()
            list_of(path).unlink(missing_ok=True)
    smaller, larger = taken
    wrong = list(wrong_in(wanted, sizes[0], smaller, larger))
    print(
        f"{name:20} {larger.given:10} {larger.written:10} {smaller.seconds:8.3f} {larger.seconds:8.3f} {times_as_long(smaller, larger):6.1f}"
        f" {larger.peak / MEGABYTE:8.1f} {larger.multiple():8.1f}{'  FLAG ' if wrong else ''}{'; '.join(wrong)}", flush=True)
    return bool(wrong)


def words_given():
    words = argparse.ArgumentParser(formatter_class=argparse.RawDescriptionHelpFormatter, description=__doc__)
    words.add_argument("--list", action="store_true")
    words.add_argument("--factor", type=float, default=1.0)
    words.add_argument("--seconds", type=int, default=120)
    words.add_argument("--gigabytes", type=float, default=os.sysconf("SC_PHYS_PAGES") * os.sysconf("SC_PAGE_SIZE") / 2 / GIGABYTE)
    words.add_argument("--keep", type=pathlib.Path)
    words.add_argument("--mulkavesh")
    words.add_argument("--library", type=pathlib.Path)
    words.add_argument("program", nargs="?")
    words.add_argument("shape", nargs="*")
    given = words.parse_args()
    unknown = [name for name in given.shape if not fnmatch.filter(SHAPES, name)]
    if unknown:
        words.error(f"there is no shape {', '.join(unknown)}; --list names them")
    given.shape = [name for name in SHAPES if any(fnmatch.fnmatchcase(name, it) for it in given.shape or "*")]
    if not given.list:
        if not given.program:
            words.error("no program is named")
        for program in filter(None, (given.program, given.mulkavesh)):
            if not os.access(program, os.X_OK):
                words.error(f"{program} can't be run")
        given.library = given.library and given.library / "libmulkavesh.so"
        if given.library and not given.library.is_file():
            words.error(f"there is no {given.library}")
    return given


def option_of(name):
    """What names the program that a shape is run by."""
    return "library" if SHAPES[name].is_list else "mulkavesh" if SHAPES[name].subcommand else "program"


def main():
    given = words_given()
    if given.list:
        for name, it in SHAPES.items():
            print(f"{name:20} {it.size:>9}  {it.what}")
        return
    begin, flagged, passed_over = time.monotonic(), [], []
    with tempfile.TemporaryDirectory(prefix="shapes-") as room:
        limits = pathlib.Path(room), given.seconds, int(given.gigabytes * GIGABYTE)
        makers = {
            "program": lambda: Runner(given.program, WALRUS_GC, *limits), "mulkavesh": lambda: Runner(given.mulkavesh, MULKAVESH, *limits),
            "library": lambda: Caller(given.library, *limits),
        }
        runner = functools.cache(lambda option: makers[option]())
        folder = given.keep or pathlib.Path(room)
        folder.mkdir(parents=True, exist_ok=True)
        print(HEAD, flush=True)
        for name in given.shape:
            option = option_of(name)
            if not getattr(given, option):
                passed_over.append(name)
                print(f"{name:20} is passed over, since no --{option} is given", flush=True)
            elif judged(name, runner(option), folder, given.factor, given.keep is not None):
                flagged.append(name)
    counts = f"{len(given.shape) - len(passed_over)} shapes in {time.monotonic() - begin:.0f} s, {len(flagged)} flagged"
    print(f"tests/shapes.py: {counts}{': ' if flagged else ''}{', '.join(flagged)}")
    sys.exit(1 if flagged else 0)


if __name__ == "__main__":
    main()
