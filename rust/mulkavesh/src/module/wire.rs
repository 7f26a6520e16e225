//! Numbers, names, types and records, as the library tells them and as edits have them.

use super::{AbstractHeapType, HeapType, Id, RefType, ValType};

const I32: u8 = 0x7F;
const I64: u8 = 0x7E;
const F32: u8 = 0x7D;
const F64: u8 = 0x7C;
const V128: u8 = 0x7B;
/// In front of a heap type: references to it, and null.
const NULLABLE: u8 = 0x63;
/// In front of a heap type: references to it.
const NON_NULL: u8 = 0x64;

/// What is left of a list of the library, which keeps to its form: what is read is there.
pub(super) struct Reader<'a>(pub(super) &'a [u8]);

impl<'a> Reader<'a> {
    pub(super) fn is_empty(&self) -> bool {
        self.0.is_empty()
    }

    pub(super) fn byte(&mut self) -> u8 {
        let (first, rest) = self.0.split_first().expect("a byte");
        self.0 = rest;
        *first
    }

    /// A number without a sign.
    pub(super) fn number(&mut self) -> u64 {
        let (mut value, mut shift) = (0, 0);
        loop {
            let byte = self.byte();
            value |= u64::from(byte & 0x7F) << shift;
            if byte < 0x80 {
                return value;
            }
            shift += 7;
        }
    }

    /// A number of 32 bits.
    pub(super) fn index(&mut self) -> u32 {
        u32::try_from(self.number()).expect("a number of 32 bits")
    }

    pub(super) fn id<T>(&mut self) -> Id<T> {
        Id::at(self.index())
    }

    pub(super) fn take(&mut self, count: usize) -> &'a [u8] {
        let (front, rest) = self.0.split_at(count);
        self.0 = rest;
        front
    }

    /// The bytes behind their count.
    pub(super) fn block(&mut self) -> &'a [u8] {
        let count = self.index() as usize;
        self.take(count)
    }

    pub(super) fn name(&mut self) -> String {
        let name = std::str::from_utf8(self.block());
        name.expect("a name in a module is UTF-8").to_owned()
    }

    fn heap_type(&mut self) -> HeapType {
        // A number of 33 bits with a sign: below 0 it has one byte, of an abstract type.
        match self.0.first() {
            Some(byte @ 0x40..=0x7F) => {
                self.0 = &self.0[1..];
                HeapType::Abstract(AbstractHeapType::of(*byte))
            }
            _ => HeapType::Concrete(self.id()),
        }
    }

    pub(super) fn value_type(&mut self) -> ValType {
        let byte = self.byte();
        let nullable = byte != NON_NULL;
        let heap_type = match byte {
            I32 => return ValType::I32,
            I64 => return ValType::I64,
            F32 => return ValType::F32,
            F64 => return ValType::F64,
            V128 => return ValType::V128,
            NULLABLE | NON_NULL => self.heap_type(),
            short => HeapType::Abstract(AbstractHeapType::of(short)),
        };
        ValType::Ref(RefType {
            nullable,
            heap_type,
        })
    }

    pub(super) fn reference_type(&mut self) -> RefType {
        match self.value_type() {
            ValType::Ref(ty) => ty,
            other => unreachable!("the library tells {other:?} as a type of references"),
        }
    }

    pub(super) fn value_types(&mut self) -> Vec<ValType> {
        (0..self.index()).map(|_| self.value_type()).collect()
    }
}

/// Bytes that are written, one behind the other.
#[derive(Default)]
pub(super) struct Writer(pub(super) Vec<u8>);

/// Nothing as yet.
pub(super) fn nothing() -> Writer {
    Writer::default()
}

impl Writer {
    pub(super) fn byte(mut self, byte: u8) -> Self {
        self.0.push(byte);
        self
    }

    pub(super) fn bytes(mut self, bytes: &[u8]) -> Self {
        self.0.extend_from_slice(bytes);
        self
    }

    /// A number without a sign.
    pub(super) fn number(mut self, mut value: u64) -> Self {
        while value >= 0x80 {
            self.0.push(value as u8 | 0x80);
            value >>= 7;
        }
        self.byte(value as u8)
    }

    pub(super) fn count(self, count: usize) -> Self {
        self.number(count as u64)
    }

    pub(super) fn index(self, value: u32) -> Self {
        self.number(u64::from(value))
    }

    pub(super) fn id<T>(self, id: Id<T>) -> Self {
        self.index(id.index())
    }

    /// A number with a sign.
    pub(super) fn signed(mut self, mut value: i64) -> Self {
        while !(-0x40..0x40).contains(&value) {
            self.0.push(value as u8 | 0x80);
            value >>= 7;
        }
        self.byte(value as u8 & 0x7F)
    }

    /// The bytes behind their count.
    pub(super) fn block(self, bytes: &[u8]) -> Self {
        self.count(bytes.len()).bytes(bytes)
    }

    pub(super) fn name(self, name: &str) -> Self {
        self.block(name.as_bytes())
    }

    pub(super) fn heap_type(self, ty: HeapType) -> Self {
        match ty {
            HeapType::Abstract(ty) => self.byte(ty.byte()),
            HeapType::Concrete(id) => self.signed(i64::from(id.index())),
        }
    }

    pub(super) fn reference_type(self, ty: RefType) -> Self {
        match (ty.nullable, ty.heap_type) {
            (true, HeapType::Abstract(to)) => self.byte(to.byte()),
            (true, to) => self.byte(NULLABLE).heap_type(to),
            (false, to) => self.byte(NON_NULL).heap_type(to),
        }
    }

    pub(super) fn value_type(self, ty: ValType) -> Self {
        match ty {
            ValType::I32 => self.byte(I32),
            ValType::I64 => self.byte(I64),
            ValType::F32 => self.byte(F32),
            ValType::F64 => self.byte(F64),
            ValType::V128 => self.byte(V128),
            ValType::Ref(ty) => self.reference_type(ty),
        }
    }

    pub(super) fn value_types(self, types: &[ValType]) -> Self {
        let counted = self.count(types.len());
        types.iter().fold(counted, |to, ty| to.value_type(*ty))
    }
}

#[cfg(test)]
mod tests {
    use super::*;

    #[test]
    fn numbers_come_back() {
        for value in [0, 1, 127, 128, 300, u64::from(u32::MAX), u64::MAX] {
            let written = nothing().number(value).0;
            let mut rest = Reader(&written);
            assert_eq!((rest.number(), rest.is_empty()), (value, true));
        }
        assert_eq!(nothing().signed(-1).0, [0x7F]);
        assert_eq!(nothing().signed(64).0, [0xC0, 0]);
        assert_eq!(nothing().signed(-65).0, [0xBF, 0x7F]);
    }

    #[test]
    fn types_come_back() {
        let concrete = RefType {
            nullable: true,
            heap_type: HeapType::Concrete(Id::at(64)),
        };
        let of_any = RefType {
            nullable: false,
            heap_type: HeapType::Abstract(AbstractHeapType::Any),
        };
        let of_extern = ValType::Ref(RefType::EXTERNREF);
        let all = [
            ValType::I32,
            ValType::V128,
            of_extern,
            ValType::Ref(concrete),
            ValType::Ref(of_any),
        ];
        let written = nothing().value_types(&all).0;
        assert_eq!(written, [5, 0x7F, 0x7B, 0x6F, 0x63, 0xC0, 0, 0x64, 0x6E]);
        assert_eq!(Reader(&written).value_types(), all);
    }
}
