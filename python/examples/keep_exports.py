"""Keeps the exports that are named, and what they reach: python3 keep_exports.py IN OUT NAME.."""
import sys

from mulkavesh.module import Module


def main(source: str, target: str, *names: str) -> None:
    with open(source, "rb") as file:
        module = Module(file.read())
    for id_, it in module.exports.items():
        if it.name not in names:
            module.exports.delete(id_)
    with open(target, "wb") as file:
        file.write(module.emit_wasm(gc=True))


main(*sys.argv[1:])
