#!/usr/bin/env python3
"""Compares the table of operators, and the operators' names, with the lists of this folder, entry by entry. Prints what differs, and the
counts."""
import collections
import re
import sys
from pathlib import Path

HERE = Path(__file__).resolve().parent
CRATES = HERE.parent.parent / "crates"
TABLE = CRATES / "wasm_operators/specs/Table.antt"
NAMES = CRATES / "wasm_opcodes/src"
# What the standard names otherwise than wabt, or where wabt has one name for two.
OWN_NAMES = {
    (0x00, 0x1C): "SELECT_TYPED",
    (0xFD, 0x112): "I16X8_RELAXED_DOT_I8X16_I7X16_S",
    (0xFD, 0x113): "I32X4_RELAXED_DOT_I8X16_I7X16_ADD_S",
}
FREE = "left free by the standard"


def of_table():
    """The operators of the table, as pairs of a prefix byte, or 0, and a number; each stands in one row."""
    found = []
    for line in TABLE.read_text().splitlines():
        row = re.match(r"    (?:bytes|prefixed (0x\w+)) (0x\w+) (0x\w+) ", line)
        if row:
            lead, first, last = (int(part or "0", 16) for part in row.groups())
            found += [(lead, number) for number in range(first, last + 1)]
    return found


def of_wabt():
    """The operators of wabt, each with its name there."""
    parts = [line.split() for line in (HERE / "wabt.txt").read_text().splitlines()]
    return {(int(lead, 16), int(number, 16)): name for lead, number, name in parts}


def of_lacks():
    """The operators that wabt lacks, each with the reason."""
    found = {}
    for line in (HERE / "lacks.txt").read_text().splitlines():
        *numbers, why = line.split(maxsplit=3)
        lead, first, last = (int(part, 16) for part in numbers)
        found.update({(lead, number): why for number in range(first, last + 1)})
    return found


def constants(module):
    """The constants of a file of names, each with its number."""
    lines = (NAMES / f"{module}.rt").read_text().splitlines()
    rows = [re.fullmatch(r"pub const (\w+): u32 = (0x\w+);", line) for line in lines]
    return [(row[1], int(row[2], 16)) for row in rows if row]


def of_names():
    """What `opcodes` hands on: pairs of a name and an operator."""
    handed = re.findall(r"^pub use crate::(\w+)::(\w+);", (NAMES / "opcodes.rt").read_text(), re.M)
    numbers = {module: dict(constants(module)) for module in dict(handed)}
    return [(name, divmod(numbers[module][name], 0x10000)) for module, name in handed]


def wrong_names(names, operators, wabt):
    """What is wrong with the names: pairs of an operator and what is wrong with it."""
    counts = collections.Counter(operator for _, operator in names)
    named = collections.Counter(name for name, _ in names)
    faults = [(operator, f"{counts[operator]} names") for operator in operators if counts[operator] != 1]
    faults += [(operator, f"{name}, the name of two") for name, operator in names if named[name] > 1]
    for name, operator in names:
        wanted = OWN_NAMES.get(operator, wabt.get(operator, name).upper().replace(".", "_"))
        if operator not in set(operators):
            faults.append((operator, f"{name}, and no operator"))
        elif name != wanted:
            faults.append((operator, f"{name}, and not {wanted}"))
    for lead in (0xFB, 0xFC, 0xFD):
        for name, number in constants(f"behind_{lead:02x}"):
            if (name, (lead, number)) not in names:
                faults.append(((lead, number), f"{name} behind the prefix byte, and another name or none with it"))
    return faults


def main():
    table, wabt, lacks, names = of_table(), of_wabt(), of_lacks(), of_names()
    operators = [operator for operator in table if lacks.get(operator) != FREE]
    faults = [(operator, "twice in the table") for operator in set(table) if table.count(operator) > 1]
    faults += [(operator, "of wabt, and not in the table") for operator in wabt if operator not in set(table)]
    faults += [(operator, "said to be missing in wabt, and in it") for operator in lacks if operator in set(wabt)]
    faults += [(operator, "said to be missing in wabt, and not in the table") for operator in lacks if operator not in set(table)]
    faults += [(operator, "in the table, and in no list") for operator in table if operator not in set(wabt) | set(lacks)]
    faults += wrong_names(names, operators, wabt)
    for (lead, number), fault in faults:
        print(f"{lead:02X} {number:X}: {fault}")
    print(f"{len(table)} operators in the table, {len(wabt)} of wabt, {len(lacks)} that wabt lacks, {len(names)} names of "
          f"{len(operators)}, {len(faults)} faults")
    return 1 if faults else 0


if __name__ == "__main__":
    sys.exit(main())
