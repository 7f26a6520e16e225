#!/usr/bin/python3
"""Draws the table "Beside peers" of bench/README.md: bench/plot.py, as docs/pictures/times.svg, a group of bars a module, on a logarithmic scale.

The same table gives the same bytes. It needs Debian's python3-matplotlib, which stands by /usr/bin/python3.
"""
import itertools
import pathlib
import re

import matplotlib

matplotlib.use("svg")
from matplotlib import pyplot, ticker

TOP = pathlib.Path(__file__).resolve().parent.parent
PICTURE = TOP / "docs" / "pictures" / "times.svg"
COLOURS = {"walrus-gc": "#0b6b5f", "parity-wasm": "#c98a2b", "wasm-opt": "#7d8990", "wasm-strip": "#b9c2c6"}
SHORTEST = 0.005  # seconds where the bars begin, since a logarithmic scale has no zero
THICK = 0.2


def table():
    """The names of the programs, and of each module its name and their seconds as they are written, nothing where a cell is empty."""
    section = (TOP / "bench" / "README.md").read_text(encoding="utf-8").partition("\n## Beside peers\n")[2].partition("\n## ")[0]
    lines = section.split("\n")
    at = next(at for at, line in enumerate(lines) if line.startswith("| Module |"))
    cells = lambda line: [it.strip().replace("`", "") for it in line.strip("|").split("|")]
    rows = [cells(line) for line in itertools.takewhile(lambda it: it.startswith("|"), lines[at + 2:])]
    return cells(lines[at])[1:], [(name, [re.match(r"[\d.]*", it)[0] for it in times]) for name, *times in rows]


def draw(programs, rows):
    pyplot.rcParams.update({"svg.fonttype": "none", "svg.hashsalt": "mulkavesh", "font.family": "sans-serif", "font.size": 10})
    figure, axes = pyplot.subplots(figsize=(8, 0.6 * len(rows) + 0.8), facecolor="white", layout="constrained")
    for which, program in enumerate(programs):
        bars = [(at + (which - (len(programs) - 1) / 2) * THICK, times[which]) for at, (_, times) in enumerate(rows) if times[which]]
        widths = [float(seconds) - SHORTEST for _, seconds in bars]
        axes.barh([place for place, _ in bars], widths, THICK * 0.92, left=SHORTEST, color=COLOURS[program], label=program)
        for place, seconds in bars:
            axes.text(float(seconds) * 1.04, place, seconds, va="center", fontsize=7, color="#545f66")
    axes.set_xscale("log")
    axes.set_xlim(SHORTEST, 30)
    axes.xaxis.set_major_locator(ticker.FixedLocator([0.01, 0.1, 1, 10]))
    axes.xaxis.set_major_formatter(ticker.FormatStrFormatter("%g"))
    axes.set_xlabel("processor seconds, on a logarithmic scale (less is better)")
    axes.set_yticks(range(len(rows)), [name for name, _ in rows])
    axes.set_ylim(len(rows) - 0.45, -0.55)
    axes.tick_params(axis="y", length=0)
    axes.grid(axis="x", color="#d8dbd6", linewidth=0.7)
    axes.set_axisbelow(True)
    for side in ("top", "right", "left"):
        axes.spines[side].set_visible(False)
    axes.legend(loc="lower left", bbox_to_anchor=(0, 1), ncols=len(programs), frameon=False, borderaxespad=0)
    PICTURE.parent.mkdir(exist_ok=True)
    figure.savefig(PICTURE, metadata={"Date": None, "Creator": None, "Title": "Time beside parity-wasm, wasm-opt and wasm-strip"})


draw(*table())
