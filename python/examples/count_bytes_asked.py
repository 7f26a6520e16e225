"""Counts the bytes that a program asks of its allocators: python3 count_bytes_asked.py IN OUT [NAME..]. Each function of one of these names that takes a number first
adds that to a global, which is exported as `bytes_asked`.
"""
import sys

from mulkavesh.module import GLOBAL, I32, I64, InstrSeqBuilder, Module
from mulkavesh.opcodes import I64_ADD, I64_EXTEND_I32_U

NAMES = ("malloc", "dlmalloc", "__rust_alloc", "__rdl_alloc", "sqlite3Malloc")


def main(source: str, target: str, *names: str) -> None:
    with open(source, "rb") as file:
        module = Module(file.read())
    asked = module.globals.add_local(I64, True, InstrSeqBuilder().i64_const(0).const_expr())
    add = InstrSeqBuilder().global_get(asked).local_get(0).op(I64_EXTEND_I32_U).op(I64_ADD).global_set(asked)
    count = 0
    for id_, it in module.funcs.items():
        if it.body and it.name in (names or NAMES) and (module.types[it.type].params or ())[:1] == (I32,):
            module.insert_front(id_, add)
            count += 1
    module.exports.add("bytes_asked", GLOBAL, asked)
    print(f"{count} functions count")
    with open(target, "wb") as file:
        file.write(module.emit_wasm())


main(*sys.argv[1:])
