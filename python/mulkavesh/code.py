"""Bodies of functions, and operators that are put together, in the binary format. Where that has an index, they have the item's id."""
import struct
from dataclasses import dataclass
from typing import Optional, Union

from mulkavesh._wire import Reader, TypeId, ValType, heap_type, number, signed, value_type, vector

_END, _EMPTY, _HAS_MEMORY = b"\x0B", b"\x40", 0x40


@dataclass(frozen=True)
class Body:
    """The body of a function without its size: `data` is its locals, its operators and `0B`; `front` is operators that stand in front of those.

    What stands in front of a body that was read leaves the names of its locals, which another body doesn't.
    """

    data: bytes
    front: bytes = b""

    def __bytes__(self) -> bytes:
        if not self.front:
            return self.data
        rest = Reader(self.data)
        for _ in range(rest.number()):
            rest.number()
            rest.value_type()
        return self.data[: rest.at] + self.front + self.data[rest.at :]

    def with_front(self, operators: "InstrSeqBuilder") -> "Body":
        """The body with these in front. Of locals they name the function's parameters alone, as the first ones."""
        return Body(self.data, operators.data + self.front)


def _opcode(number_of: int) -> bytes:
    """An opcode: a byte, or one in front times 65,536 and a number."""
    return bytes([number_of]) if number_of < 256 else bytes([number_of >> 16]) + number(number_of & 0xFFFF)


class InstrSeqBuilder:
    """Operators, one behind the other; each call answers the same builder. `mulkavesh.opcodes` has their numbers."""

    def __init__(self, data: bytes = b"") -> None:
        self._data = bytearray(data)

    @property
    def data(self) -> bytes:
        """The bytes of the operators."""
        return bytes(self._data)

    def raw(self, data: bytes) -> "InstrSeqBuilder":
        """Operators that these bytes are."""
        self._data += data
        return self

    def op(self, opcode: int, *arguments: int) -> "InstrSeqBuilder":
        """An operator with arguments that are indices, if any."""
        return self.raw(_opcode(opcode) + b"".join(map(number, arguments)))

    def load(self, opcode: int, memory: int, align: int, offset: int) -> "InstrSeqBuilder":
        """A load of a memory, at a constant offset: the alignment is an exponent of 2."""
        access = number(align | _HAS_MEMORY) + number(memory) if memory else number(align)
        return self.raw(_opcode(opcode) + access + number(offset))

    def store(self, opcode: int, memory: int, align: int, offset: int) -> "InstrSeqBuilder":
        """A store to a memory, as a load."""
        return self.load(opcode, memory, align, offset)

    def i32_const(self, value: int) -> "InstrSeqBuilder":
        return self.raw(b"\x41" + signed(value))

    def i64_const(self, value: int) -> "InstrSeqBuilder":
        return self.raw(b"\x42" + signed(value))

    def f32_const(self, value: float) -> "InstrSeqBuilder":
        return self.raw(b"\x43" + struct.pack("<f", value))

    def f64_const(self, value: float) -> "InstrSeqBuilder":
        return self.raw(b"\x44" + struct.pack("<d", value))

    def local_get(self, local: int) -> "InstrSeqBuilder":
        """Parameters are the first locals."""
        return self.op(0x20, local)

    def local_set(self, local: int) -> "InstrSeqBuilder":
        return self.op(0x21, local)

    def local_tee(self, local: int) -> "InstrSeqBuilder":
        return self.op(0x22, local)

    def global_get(self, id_: int) -> "InstrSeqBuilder":
        return self.op(0x23, id_)

    def global_set(self, id_: int) -> "InstrSeqBuilder":
        return self.op(0x24, id_)

    def call(self, function: int) -> "InstrSeqBuilder":
        return self.op(0x10, function)

    def call_indirect(self, type_: int, table: int) -> "InstrSeqBuilder":
        return self.op(0x11, type_, table)

    def ref_func(self, function: int) -> "InstrSeqBuilder":
        return self.op(0xD2, function)

    def ref_null(self, of: Union[str, TypeId]) -> "InstrSeqBuilder":
        return self.raw(b"\xD0" + heap_type(of))

    def _open(self, opcode: bytes, ty: Optional[ValType], of_type: Optional[int]) -> "InstrSeqBuilder":
        if of_type is not None:
            return self.raw(opcode + signed(of_type))
        return self.raw(opcode + (_EMPTY if ty is None else value_type(ty)))

    def block(self, ty: Optional[ValType] = None, of_type: Optional[int] = None) -> "InstrSeqBuilder":
        """A block that leaves nothing, a value of this type, or what functions of the type of an id do; `end` closes it."""
        return self._open(b"\x02", ty, of_type)

    def loop(self, ty: Optional[ValType] = None, of_type: Optional[int] = None) -> "InstrSeqBuilder":
        """A loop, as a block."""
        return self._open(b"\x03", ty, of_type)

    def if_(self, ty: Optional[ValType] = None, of_type: Optional[int] = None) -> "InstrSeqBuilder":
        """A block where the operand isn't 0, as a block."""
        return self._open(b"\x04", ty, of_type)

    def else_(self) -> "InstrSeqBuilder":
        return self.op(0x05)

    def end(self) -> "InstrSeqBuilder":
        """The end of a block. The one that closes the function comes with its body."""
        return self.op(0x0B)

    def br(self, label: int) -> "InstrSeqBuilder":
        """0 is the innermost block."""
        return self.op(0x0C, label)

    def br_if(self, label: int) -> "InstrSeqBuilder":
        return self.op(0x0D, label)

    def return_(self) -> "InstrSeqBuilder":
        return self.op(0x0F)

    def unreachable(self) -> "InstrSeqBuilder":
        return self.op(0x00)

    def drop(self) -> "InstrSeqBuilder":
        return self.op(0x1A)

    def select(self) -> "InstrSeqBuilder":
        return self.op(0x1B)

    def body(self, *locals_: ValType) -> Body:
        """The body of a function with these operators, and these locals behind its parameters."""
        return Body(vector([b"\x01" + value_type(ty) for ty in locals_]) + self.data + _END)

    def const_expr(self) -> bytes:
        """The constant expression that these operators are."""
        return self.data + _END
