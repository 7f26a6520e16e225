"""Puts a build id into a module, in the place of one that is there: python3 build_id.py IN OUT ID, in hexadecimal digits."""
import sys

from mulkavesh.module import Module


def main(source: str, target: str, digits: str) -> None:
    with open(source, "rb") as file:
        module = Module(file.read())
    build_id = bytes.fromhex(digits)
    data = bytes([len(build_id)]) + build_id
    there = module.customs.where(lambda it: it.name == "build_id")
    if there:
        module.customs[there[0]].data = data
    else:
        module.customs.add("build_id", data)
    module.producers.add_processed_by("build_id.py", "1")
    with open(target, "wb") as file:
        file.write(module.emit_wasm())


main(*sys.argv[1:])
