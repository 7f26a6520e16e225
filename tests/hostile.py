#!/usr/bin/env python3
"""Compares what walrus-gc does on mutated modules with what it may do; it is what tests/hostile.sh runs:

    tests/hostile.py [--seed N] [--jobs N] [--keep FOLDER] [--only I] COUNT PROGRAM BASE..

BASE is a module, or a folder of them: those of at most 100 KB that the program accepts are taken. Input I is made of the seed and of I alone, so that a find
can be made again: --only I writes it to standard output and ends. Asked of each run: status 0 and nothing told, or status 1, the line that says invalid, and
nothing written; at most ten seconds; at most 64 times the input and 50 MB at the peak. Of an output: a second run gives the same bytes, and where wabt's
wasm-validate takes the input it takes the output. Printed are the finds and the counts. Those that wabt takes and the program refuses are counted, and with
--keep kept as the finds are; they are no finds.
"""
import argparse
import collections
import multiprocessing
import os
import pathlib
import random
import resource
import shutil
import subprocess
import sys
import tempfile
import time

INVALID = b"walrus-gc: The input WebAssembly is invalid\n"
FEATURES = ["--enable-" + name for name in "exceptions threads tail-call memory64 multi-memory extended-const relaxed-simd function-references gc".split()]
EXTREMES = [0, 1, 2, 63, 64, 127, 128, 255, 256, 16383, 16384, 49_999, 50_000, 50_001, 2**20, 2**31 - 1, 2**31, 2**32 - 1]


def leb(n, pad=0):
    out = bytearray()
    while True:
        b = n & 127
        n >>= 7
        if n or pad:
            out.append(b | 128)
            pad -= pad > 0 and not n
        else:
            out.append(b)
            return bytes(out)


def number(data, at):
    value = shift = 0
    while True:
        b = data[at]
        value, shift, at = value | (b & 127) << shift, shift + 7, at + 1
        if b < 128:
            return value, at
        if shift > 35:
            raise IndexError


def sections(module):
    """(id, content) of each, or None where the framing is broken."""
    found, at = [], 8
    try:
        while at < len(module):
            size, begin = number(module, at + 1)
            if begin + size > len(module):
                return None
            found.append((module[at], module[begin : begin + size]))
            at = begin + size
    except IndexError:
        return None
    return found


def joined(found):
    return b"\0asm\1\0\0\0" + b"".join(bytes([i]) + leb(len(c)) + c for i, c in found)


def bodies(content):
    try:
        count, at = number(content, 0)
        found = []
        for _ in range(count):
            size, begin = number(content, at)
            if begin + size > len(content):
                return None
            found.append(content[begin : begin + size])
            at = begin + size
        return found if at == len(content) else None
    except IndexError:
        return None


def bent(rng, data):
    """Some bytes of these changed, taken out or put in."""
    data = bytearray(data)
    for _ in range(rng.choice((1, 1, 1, 2, 3))):
        at = rng.randrange(len(data) + 1)
        kind = rng.randrange(7)
        if kind == 0 and at < len(data):
            data[at] ^= 1 << rng.randrange(8)
        elif kind == 1 and at < len(data):
            data[at] = rng.randrange(256)
        elif kind == 2 and at < len(data):
            data[at] = (data[at] + rng.choice((1, -1))) % 256
        elif kind == 3:
            data[at:at] = bytes(rng.randrange(256) for _ in range(rng.choice((1, 1, 2, 4))))
        elif kind == 4:
            del data[at : at + rng.choice((1, 1, 2, 4, 16))]
        elif kind == 5 and at < len(data):
            try:
                value, end = number(data, at)
            except IndexError:
                continue
            data[at:end] = leb(rng.choice(EXTREMES), rng.choice((0, 0, 0, 1, 4)))
        elif at < len(data):
            end = min(len(data), at + rng.choice((1, 2, 4, 8, 32)))
            to = rng.randrange(len(data) + 1)
            data[to:to] = data[at:end]
    return bytes(data)


def mutated(rng, all_bases):
    module = rng.choice(all_bases)
    found = sections(module)
    if not found or rng.random() < 0.1:
        return bent(rng, module) if rng.random() < 0.7 else module[: rng.randrange(len(module) + 1)]
    for _ in range(rng.choice((1, 1, 1, 2, 3))):
        place = rng.randrange(len(found))
        kind = rng.random()
        i, content = found[place]
        inner = bodies(content) if i == 10 else None
        if kind < 0.45 and inner:
            which = rng.randrange(len(inner))
            inner[which] = bent(rng, inner[which])
            found[place] = (i, leb(len(inner)) + b"".join(leb(len(b)) + b for b in inner))
        elif kind < 0.75:
            found[place] = (i, bent(rng, content))
        elif kind < 0.8:
            found.insert(rng.randrange(len(found) + 1), found[place])
        elif kind < 0.85:
            del found[place]
        elif kind < 0.9:
            to = rng.randrange(len(found))
            found[place], found[to] = found[to], found[place]
        else:
            others = [s for s in sections(rng.choice(all_bases)) or [] if s[0] == i]
            if others:
                found[place] = rng.choice(others)
        if not found:
            break
    return joined(found)


def spawned(command, source, sink, errors):
    """Status of a run and what it used. What starts it makes no copy of this process, as a function called before the program would."""
    files = [(os.POSIX_SPAWN_OPEN, 0, source, os.O_RDONLY, 0)]
    for number, path in ((1, sink), (2, errors)):
        files.append((os.POSIX_SPAWN_OPEN, number, path, os.O_WRONLY | os.O_CREAT | os.O_TRUNC, 0o600))
    pid = os.posix_spawnp(command[0], command, os.environ, file_actions=files)
    try:
        resource.prlimit(pid, resource.RLIMIT_CPU, (10, 12))
    except ProcessLookupError:
        pass
    _, status, use = os.wait4(pid, 0)
    return os.waitstatus_to_exitcode(status), use


def ran(program, data, folder):
    source, sink, errors = f"{folder}/in", f"{folder}/out", f"{folder}/told"
    with open(source, "wb") as out:
        out.write(data)
    status, use = spawned([program], source, sink, errors)
    with open(sink, "rb") as taken, open(errors, "rb") as told:
        return status, taken.read(), told.read(), use.ru_utime + use.ru_stime, use.ru_maxrss * 1024


def without_linking(data):
    """The module without `linking` and `reloc.*`, which wabt reads, and whose indices nobody renumbers (docs/FORMATS.md)."""
    out, at = bytearray(data[:8]), 8
    while at < len(data):
        end, shift, size = at + 1, 0, 0
        while end < len(data):
            size |= (data[end] & 127) << shift
            shift, end = shift + 7, end + 1
            if data[end - 1] < 128:
                break
        name = bytes(data[end + 1 : end + 1 + data[end]]) if data[at] == 0 and end < len(data) else b""
        if not name.startswith((b"linking", b"reloc.")):
            out += data[at : end + size]
        at = end + size
    return bytes(out)


def is_valid(data, folder):
    path = f"{folder}/valid"
    with open(path, "wb") as out:
        out.write(without_linking(data))
    return spawned(["wasm-validate", *FEATURES, path], os.devnull, os.devnull, os.devnull)[0] == 0


def look(program, data, folder, has_wabt):
    status, output, told, seconds, peak = ran(program, data, folder)
    if status not in (0, 1) or seconds > 10:
        return f"FIND status {status}, {seconds:.1f} s", 0
    if peak > 64 * len(data) + 50 * 2**20:
        return f"FIND {peak >> 20} MB of {len(data)} bytes", seconds
    if status == 1:
        if output or told != INVALID:
            return f"FIND refused with {told!r}, {len(output)} bytes written", seconds
        return ("refused, wabt takes it" if has_wabt and is_valid(data, folder) else "refused"), seconds
    if told:
        return f"FIND told {told!r}", seconds
    again = ran(program, output, folder)
    if again[0] != 0 or again[1] != output:
        return f"FIND a second run: status {again[0]}, {'other' if again[0] == 0 else 'no'} bytes", seconds
    if has_wabt and is_valid(data, folder):
        return ("taken, valid before and behind" if is_valid(output, folder) else "FIND wabt takes the input and not the output"), seconds
    return "taken", seconds


def part(words):
    program, seed, begin, step, end, bases, keep = words
    folder = tempfile.mkdtemp(prefix="hostile-", dir="/dev/shm" if os.path.isdir("/dev/shm") else None)
    has_wabt = shutil.which("wasm-validate") is not None
    resource.setrlimit(resource.RLIMIT_CORE, (0, 0))
    counts, finds, slowest = collections.Counter(), [], 0
    for i in range(begin, end, step):
        data = mutated(random.Random(f"{seed}:{i}"), bases)
        told, seconds = look(program, data, folder, has_wabt)
        slowest = max(slowest, seconds)
        counts[told if not told.startswith("FIND") else "FIND"] += 1
        if told.startswith("FIND") or told == "refused, wabt takes it":
            if told.startswith("FIND"):
                finds.append(f"{i}: {told}")
            if keep:
                with open(f"{keep}/{'find' if told.startswith('FIND') else 'refused'}-{seed}-{i}.wasm", "wb") as out:
                    out.write(data)
    shutil.rmtree(folder)
    return counts, finds, slowest


def main():
    words = argparse.ArgumentParser()
    words.add_argument("--seed", type=int, default=1)
    words.add_argument("--jobs", type=int, default=1)
    words.add_argument("--keep")
    words.add_argument("--only", type=int)
    words.add_argument("count", type=int)
    words.add_argument("program")
    words.add_argument("base", nargs="+")
    it = words.parse_args()
    paths = [p for b in it.base for p in ([pathlib.Path(b)] if os.path.isfile(b) else sorted(pathlib.Path(b).glob("*.wasm")))]
    bases = [p.read_bytes() for p in paths if 8 < p.stat().st_size <= 100_000]
    bases = [b for b in bases if subprocess.run([it.program], input=b, capture_output=True, check=False).returncode == 0]
    if it.only is not None:
        sys.stdout.buffer.write(mutated(random.Random(f"{it.seed}:{it.only}"), bases))
        return
    if it.keep:
        os.makedirs(it.keep, exist_ok=True)
    begin = time.monotonic()
    with multiprocessing.Pool(it.jobs) as pool:
        parts = pool.map(part, [(it.program, it.seed, j, it.jobs, it.count, bases, it.keep) for j in range(it.jobs)])
    counts = sum((p[0] for p in parts), collections.Counter())
    for line in sorted(line for p in parts for line in p[1]):
        print(line)
    print(f"{it.count} inputs of {len(bases)} bases, seed {it.seed}, {time.monotonic() - begin:.0f} s, slowest {max(p[2] for p in parts):.2f} s: " + ", ".join(f"{n} {k}" for k, n in sorted(counts.items())))
    sys.exit(counts["FIND"] > 0)


if __name__ == "__main__":
    main()
