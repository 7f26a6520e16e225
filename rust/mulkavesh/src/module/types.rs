//! Types of values, and types.

use super::{Id, TypeId};

/// What a reference leads to, that isn't a type of the module.
#[derive(Debug, Clone, Copy, PartialEq, Eq, Hash)]
#[allow(missing_docs)]
pub enum AbstractHeapType {
    Func,
    Extern,
    Any,
    Eq,
    I31,
    Struct,
    Array,
    Exn,
    None,
    NoExtern,
    NoFunc,
    NoExn,
}

/// The abstract heap types with their bytes.
const ABSTRACT: [(AbstractHeapType, u8); 12] = [
    (AbstractHeapType::Func, 0x70),
    (AbstractHeapType::Extern, 0x6F),
    (AbstractHeapType::Any, 0x6E),
    (AbstractHeapType::Eq, 0x6D),
    (AbstractHeapType::I31, 0x6C),
    (AbstractHeapType::Struct, 0x6B),
    (AbstractHeapType::Array, 0x6A),
    (AbstractHeapType::Exn, 0x69),
    (AbstractHeapType::None, 0x71),
    (AbstractHeapType::NoExtern, 0x72),
    (AbstractHeapType::NoFunc, 0x73),
    (AbstractHeapType::NoExn, 0x74),
];

impl AbstractHeapType {
    pub(super) fn byte(self) -> u8 {
        let found = ABSTRACT.iter().find(|(ty, _)| *ty == self);
        found.expect("each has a byte").1
    }

    pub(super) fn of(byte: u8) -> Self {
        let found = ABSTRACT.iter().find(|(_, its)| *its == byte);
        found.expect("the byte of a heap type").0
    }
}

/// What a reference leads to.
#[derive(Debug, Clone, Copy, PartialEq, Eq, Hash)]
pub enum HeapType {
    /// What isn't a type of the module.
    Abstract(AbstractHeapType),
    /// A type of the module.
    Concrete(TypeId),
}

/// A type of references.
#[derive(Debug, Clone, Copy, PartialEq, Eq, Hash)]
pub struct RefType {
    /// Whether null is one.
    pub nullable: bool,
    /// What they lead to.
    pub heap_type: HeapType,
}

impl RefType {
    /// `funcref`.
    pub const FUNCREF: RefType = RefType::nullable(AbstractHeapType::Func);
    /// `externref`.
    pub const EXTERNREF: RefType = RefType::nullable(AbstractHeapType::Extern);

    const fn nullable(to: AbstractHeapType) -> RefType {
        RefType {
            nullable: true,
            heap_type: HeapType::Abstract(to),
        }
    }
}

/// A type of values.
#[derive(Debug, Clone, Copy, PartialEq, Eq, Hash)]
#[allow(missing_docs)]
pub enum ValType {
    I32,
    I64,
    F32,
    F64,
    V128,
    Ref(RefType),
}

/// What a type is of.
#[derive(Debug, Clone, PartialEq, Eq)]
pub(super) enum TypeKind {
    /// Functions that take and give these.
    Function(Vec<ValType>, Vec<ValType>),
    /// Anything else, or a member of a group. The first of a group has the bytes of it all.
    Other(Vec<u8>),
}

/// A type. Only its name can be written.
#[derive(Debug, Clone, PartialEq, Eq)]
pub struct Type {
    pub(super) kind: TypeKind,
    /// Its name.
    pub name: Option<String>,
}

impl Type {
    /// What its functions take and give, where it stands alone, is final and has no supertype.
    pub fn as_function(&self) -> Option<(&[ValType], &[ValType])> {
        match &self.kind {
            TypeKind::Function(params, results) => Some((params, results)),
            TypeKind::Other(_) => None,
        }
    }
}

/// The type of a block.
#[derive(Debug, Clone, Copy, PartialEq, Eq, Hash)]
pub enum BlockType {
    /// It takes and leaves nothing.
    NoResult,
    /// It takes nothing and leaves a value.
    OneResult(ValType),
    /// It takes and leaves what functions of this type do.
    OfType(Id<Type>),
}
