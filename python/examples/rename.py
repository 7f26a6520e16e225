"""Renames imports and exports by a map: python3 rename.py IN OUT MAP.json. The map has any of these:

    {"imports": {"env.a": "./b.js:c"}, "modules": {"env": "e"}, "exports": {"x": "y"}}
"""
import json
import sys

from mulkavesh.module import Module


def main(source: str, target: str, maps: str) -> None:
    with open(source, "rb") as file:
        module = Module(file.read())
    with open(maps, encoding="utf-8") as text:
        told = json.load(text)
    for import_ in module.imports.values():
        other = told.get("imports", {}).get(f"{import_.module}.{import_.name}")
        if other:
            import_.module, import_.name = other.split(":")
        import_.module = told.get("modules", {}).get(import_.module, import_.module)
    for export in module.exports.values():
        export.name = told.get("exports", {}).get(export.name, export.name)
    with open(target, "wb") as file:
        file.write(module.emit_wasm())


main(*sys.argv[1:])
