"""Numbers, names, types and records, as the library tells them and as edits have them."""
from dataclasses import dataclass
from typing import Iterable, List, NewType, Sequence, Tuple, Union

TypeId = NewType("TypeId", int)

I32, I64, F32, F64, V128 = "i32", "i64", "f32", "f64", "v128"
_BYTES = {I32: 0x7F, I64: 0x7E, F32: 0x7D, F64: 0x7C, V128: 0x7B}
_ABSTRACT = {
    "func": 0x70, "extern": 0x6F, "any": 0x6E, "eq": 0x6D, "i31": 0x6C, "struct": 0x6B, "array": 0x6A, "exn": 0x69, "none": 0x71, "noextern": 0x72, "nofunc": 0x73,
    "noexn": 0x74,
}
_NULLABLE, _NON_NULL = 0x63, 0x64


@dataclass(frozen=True)
class RefType:
    """A type of references: what they lead to, as `func`, `extern` or the id of a type; and whether null is one."""

    heap_type: Union[str, TypeId]
    nullable: bool = True


FUNCREF, EXTERNREF = RefType("func"), RefType("extern")
# A type of values: `i32`, `i64`, `f32`, `f64`, `v128`, or one of references.
ValType = Union[str, RefType]

_VALUES = {byte: name for name, byte in _BYTES.items()}
_HEAPS = {byte: name for name, byte in _ABSTRACT.items()}


def number(value: int) -> bytes:
    """A number without a sign, in LEB128."""
    if value < 0:
        raise ValueError(f"{value} is below 0")
    out = bytearray()
    while value >= 0x80:
        out.append(value & 0x7F | 0x80)
        value >>= 7
    out.append(value)
    return bytes(out)


def signed(value: int) -> bytes:
    """A number with a sign, in LEB128."""
    out = bytearray()
    while not -0x40 <= value < 0x40:
        out.append(value & 0x7F | 0x80)
        value >>= 7
    out.append(value & 0x7F)
    return bytes(out)


def block(data: bytes) -> bytes:
    """Bytes behind their count."""
    return number(len(data)) + data


def name(text: str) -> bytes:
    """The bytes of a name behind their count."""
    return block(text.encode())


def heap_type(heap: Union[str, int]) -> bytes:
    return bytes([_ABSTRACT[heap]]) if isinstance(heap, str) else signed(heap)


def value_type(ty: ValType) -> bytes:
    if isinstance(ty, str):
        return bytes([_BYTES[ty]])
    if ty.nullable and isinstance(ty.heap_type, str):
        return heap_type(ty.heap_type)
    return bytes([_NULLABLE if ty.nullable else _NON_NULL]) + heap_type(ty.heap_type)


def vector(entries: Sequence[bytes]) -> bytes:
    """Entries behind their count."""
    return number(len(entries)) + b"".join(entries)


def value_types(types: Iterable[ValType]) -> bytes:
    return vector([value_type(ty) for ty in types])


class Reader:
    """Bytes that are read from the front. The library keeps to its forms, so that what is read is there."""

    def __init__(self, data: bytes, at: int = 0, end: int = -1) -> None:
        self.data, self.at, self.end = data, at, len(data) if end < 0 else end

    def __bool__(self) -> bool:
        return self.at < self.end

    def byte(self) -> int:
        self.at += 1
        return self.data[self.at - 1]

    def number(self) -> int:
        byte = self.byte()
        if byte < 0x80:
            return byte
        value, shift = byte & 0x7F, 7
        while byte >= 0x80:
            byte = self.byte()
            value |= (byte & 0x7F) << shift
            shift += 7
        return value

    def take(self, count: int) -> bytes:
        self.at += count
        return self.data[self.at - count : self.at]

    def block(self) -> bytes:
        return self.take(self.number())

    def rest(self) -> bytes:
        return self.take(self.end - self.at)

    def name(self) -> str:
        return self.block().decode()

    def heap_type(self) -> Union[str, TypeId]:
        # a number of 33 bits with a sign: below 0 it has one byte, of an abstract type
        if 0x40 <= self.data[self.at] < 0x80:
            return _HEAPS[self.byte()]
        return TypeId(self.number())

    def reference_type(self) -> RefType:
        byte = self.byte()
        if byte in (_NULLABLE, _NON_NULL):
            return RefType(self.heap_type(), byte == _NULLABLE)
        return RefType(_HEAPS[byte])

    def value_type(self) -> ValType:
        found = _VALUES.get(self.data[self.at])
        if found is None:
            return self.reference_type()
        self.at += 1
        return found

    def value_types(self) -> Tuple[ValType, ...]:
        return tuple([self.value_type() for _ in range(self.number())])

    def numbers(self) -> List[int]:
        return [self.number() for _ in range(self.number())]
