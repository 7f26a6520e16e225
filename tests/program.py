#!/usr/bin/env python3
"""Compares what mulkavesh writes with what walrus-gc writes and the library answers, and the files it leaves with those that have to be there:

    tests/program.py PROGRAM WALRUS_GC

It is what tests/program.sh runs, with the library of the environment's MULKAVESH_LIB. What is tried stands in program_parts, by topic: there a function whose name begins
with `try_` is one part. It calls `same` for each comparison, which counts it and prints a line where it fails.
"""
import pathlib
import sys
import tempfile

from program_parts import arguments, faults, files, functions, lists, manual, names, page, sections, streams
from program_parts.comparisons import counts

TOPICS = (lists, sections, functions, names, faults, page, files, streams, arguments, manual)


def main():
    for part in (part for topic in TOPICS for title, part in vars(topic).items() if title.startswith("try_")):
        with tempfile.TemporaryDirectory() as folder:
            part(pathlib.Path(folder))
    print(f"tests/program.sh: {counts['compared']} comparisons, {counts['finds']} finds")
    sys.exit(counts["finds"] > 0)


main()
