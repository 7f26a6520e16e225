//! Bodies and constant expressions, and operators that are put together.

use super::wire::{nothing, Reader, Writer};
use super::{BlockType, Function, Global, HeapType, Id, MemoryId, TableId, TypeId, ValType};
use std::borrow::Cow;
use std::ops::Range;
use std::sync::Arc;

const BLOCK: u8 = 0x02;
const LOOP: u8 = 0x03;
const IF: u8 = 0x04;
const BR: u8 = 0x0C;
const BR_IF: u8 = 0x0D;
const CALL: u8 = 0x10;
const CALL_INDIRECT: u8 = 0x11;
const LOCAL_GET: u8 = 0x20;
const LOCAL_SET: u8 = 0x21;
const LOCAL_TEE: u8 = 0x22;
const GLOBAL_GET: u8 = 0x23;
const GLOBAL_SET: u8 = 0x24;
const I32_CONST: u8 = 0x41;
const I64_CONST: u8 = 0x42;
const F32_CONST: u8 = 0x43;
const F64_CONST: u8 = 0x44;
const REF_NULL: u8 = 0xD0;
const REF_FUNC: u8 = 0xD2;
const END: u8 = 0x0B;
const EMPTY: u8 = 0x40;
/// Set in the flags of an access that names a memory.
const HAS_MEMORY: u32 = 0x40;

/// The body of a function in the binary format, without its size: locals, operators, and `0B`.
/// Where that has an index, it has the item's id.
#[derive(Debug, Clone)]
pub struct Body(Is);

#[derive(Debug, Clone)]
enum Is {
    /// It stands there in an input.
    Read(Arc<[u8]>, Range<usize>),
    /// These operators, and then the body that stands there.
    Front(Vec<u8>, Arc<[u8]>, Range<usize>),
    /// These bytes.
    Built(Vec<u8>),
}

impl Body {
    pub(super) fn read(input: Arc<[u8]>, range: Range<usize>) -> Self {
        Body(Is::Read(input, range))
    }

    /// The body that these bytes are.
    pub fn from_bytes(bytes: Vec<u8>) -> Self {
        Body(Is::Built(bytes))
    }

    /// Its bytes.
    pub fn bytes(&self) -> Cow<'_, [u8]> {
        match &self.0 {
            Is::Read(input, range) => Cow::Borrowed(&input[range.clone()]),
            Is::Front(front, input, range) => Cow::Owned(in_front(front, &input[range.clone()])),
            Is::Built(bytes) => Cow::Borrowed(bytes),
        }
    }

    /// Puts operators in front of its own. Of locals they name the function's parameters alone, as
    /// the first ones.
    ///
    /// # Panics
    ///
    /// Where it was made of bytes that don't begin with locals.
    pub fn insert_front(&mut self, operators: &InstrSeqBuilder) {
        let new = operators.bytes();
        self.0 = match &self.0 {
            Is::Read(input, range) => Is::Front(new.to_vec(), Arc::clone(input), range.clone()),
            Is::Front(old, input, range) => {
                Is::Front([new, old].concat(), Arc::clone(input), range.clone())
            }
            Is::Built(bytes) => Is::Built(in_front(new, bytes)),
        };
    }

    /// Whether it is the other one, which was read, as it stands.
    pub(super) fn is_still(&self, was: &Body) -> bool {
        match (&self.0, &was.0) {
            (Is::Read(input, range), Is::Read(of, its)) => Arc::ptr_eq(input, of) && range == its,
            _ => false,
        }
    }

    /// The operators that stand in front of the other one, which was read, where nothing else does.
    pub(super) fn in_front_of(&self, was: &Body) -> Option<&[u8]> {
        match (&self.0, &was.0) {
            (Is::Front(front, input, range), Is::Read(of, its))
                if Arc::ptr_eq(input, of) && range == its =>
            {
                Some(front)
            }
            _ => None,
        }
    }
}

impl PartialEq for Body {
    fn eq(&self, other: &Self) -> bool {
        self.bytes() == other.bytes()
    }
}

impl Eq for Body {}

/// The bytes of a body with these operators in front of its own.
fn in_front(front: &[u8], body: &[u8]) -> Vec<u8> {
    let mut rest = Reader(body);
    for _ in 0..rest.index() {
        rest.index();
        rest.value_type();
    }
    let declared = &body[..body.len() - rest.0.len()];
    [declared, front, rest.0].concat()
}

/// A constant expression in the binary format, its last `0B` among the bytes. Where that has an
/// index, it has the item's id.
#[derive(Debug, Clone, PartialEq, Eq)]
pub struct ConstExpr(pub Vec<u8>);

impl ConstExpr {
    fn of(operator: Writer) -> Self {
        ConstExpr(operator.byte(END).0)
    }

    /// `i32.const`.
    pub fn i32(value: i32) -> Self {
        ConstExpr::of(nothing().byte(I32_CONST).signed(value.into()))
    }

    /// `i64.const`.
    pub fn i64(value: i64) -> Self {
        ConstExpr::of(nothing().byte(I64_CONST).signed(value))
    }

    /// `f32.const` of this pattern of bits.
    pub fn f32(bits: u32) -> Self {
        ConstExpr::of(nothing().byte(F32_CONST).bytes(&bits.to_le_bytes()))
    }

    /// `f64.const` of this pattern of bits.
    pub fn f64(bits: u64) -> Self {
        ConstExpr::of(nothing().byte(F64_CONST).bytes(&bits.to_le_bytes()))
    }

    /// `global.get`.
    pub fn global(id: Id<Global>) -> Self {
        ConstExpr::of(nothing().byte(GLOBAL_GET).id(id))
    }

    /// `ref.func`.
    pub fn ref_func(id: Id<Function>) -> Self {
        ConstExpr::of(nothing().byte(REF_FUNC).id(id))
    }

    /// `ref.null`.
    pub fn ref_null(of: HeapType) -> Self {
        ConstExpr::of(nothing().byte(REF_NULL).heap_type(of))
    }
}

/// Operators, one behind the other, in the binary format. Where that has an index, they have the
/// item's id.
#[derive(Debug, Clone, Default)]
pub struct InstrSeqBuilder(Vec<u8>);

impl InstrSeqBuilder {
    /// None as yet.
    pub fn new() -> Self {
        InstrSeqBuilder::default()
    }

    /// The bytes of the operators.
    pub fn bytes(&self) -> &[u8] {
        &self.0
    }

    /// Operators that these bytes are.
    pub fn raw(&mut self, bytes: &[u8]) -> &mut Self {
        self.0.extend_from_slice(bytes);
        self
    }

    /// Operators that are written behind the ones so far.
    fn put(&mut self, write: impl FnOnce(Writer) -> Writer) -> &mut Self {
        self.0 = write(Writer(std::mem::take(&mut self.0))).0;
        self
    }

    /// An operator without arguments, of [`opcodes`](super::opcodes).
    pub fn op(&mut self, opcode: u32) -> &mut Self {
        self.put(|to| opcode_behind(to, opcode))
    }

    /// A load of a memory, at a constant offset: the alignment is an exponent of 2.
    pub fn load(&mut self, opcode: u32, memory: MemoryId, align: u32, offset: u64) -> &mut Self {
        let with_memory = memory.index() != 0;
        let flags = if with_memory {
            align | HAS_MEMORY
        } else {
            align
        };
        self.put(|to| {
            let to = opcode_behind(to, opcode).index(flags);
            let to = if with_memory { to.id(memory) } else { to };
            to.number(offset)
        })
    }

    /// A store to a memory, as a load.
    pub fn store(&mut self, opcode: u32, memory: MemoryId, align: u32, offset: u64) -> &mut Self {
        self.load(opcode, memory, align, offset)
    }

    /// `i32.const`.
    pub fn i32_const(&mut self, value: i32) -> &mut Self {
        self.put(|to| to.byte(I32_CONST).signed(value.into()))
    }

    /// `i64.const`.
    pub fn i64_const(&mut self, value: i64) -> &mut Self {
        self.put(|to| to.byte(I64_CONST).signed(value))
    }

    /// `f32.const` of this pattern of bits.
    pub fn f32_const(&mut self, bits: u32) -> &mut Self {
        self.put(|to| to.byte(F32_CONST).bytes(&bits.to_le_bytes()))
    }

    /// `f64.const` of this pattern of bits.
    pub fn f64_const(&mut self, bits: u64) -> &mut Self {
        self.put(|to| to.byte(F64_CONST).bytes(&bits.to_le_bytes()))
    }

    /// `local.get`; parameters are the first locals.
    pub fn local_get(&mut self, local: u32) -> &mut Self {
        self.put(|to| to.byte(LOCAL_GET).index(local))
    }

    /// `local.set`.
    pub fn local_set(&mut self, local: u32) -> &mut Self {
        self.put(|to| to.byte(LOCAL_SET).index(local))
    }

    /// `local.tee`.
    pub fn local_tee(&mut self, local: u32) -> &mut Self {
        self.put(|to| to.byte(LOCAL_TEE).index(local))
    }

    /// `global.get`.
    pub fn global_get(&mut self, global: Id<Global>) -> &mut Self {
        self.put(|to| to.byte(GLOBAL_GET).id(global))
    }

    /// `global.set`.
    pub fn global_set(&mut self, global: Id<Global>) -> &mut Self {
        self.put(|to| to.byte(GLOBAL_SET).id(global))
    }

    /// `call`.
    pub fn call(&mut self, function: Id<Function>) -> &mut Self {
        self.put(|to| to.byte(CALL).id(function))
    }

    /// `call_indirect`.
    pub fn call_indirect(&mut self, ty: TypeId, table: TableId) -> &mut Self {
        self.put(|to| to.byte(CALL_INDIRECT).id(ty).id(table))
    }

    /// `ref.func`.
    pub fn ref_func(&mut self, function: Id<Function>) -> &mut Self {
        self.put(|to| to.byte(REF_FUNC).id(function))
    }

    fn open(&mut self, opcode: u8, ty: BlockType) -> &mut Self {
        self.put(|to| match ty {
            BlockType::NoResult => to.byte(opcode).byte(EMPTY),
            BlockType::OneResult(ty) => to.byte(opcode).value_type(ty),
            BlockType::OfType(ty) => to.byte(opcode).signed(i64::from(ty.index())),
        })
    }

    /// `block`, which an `end` closes.
    pub fn block(&mut self, ty: BlockType) -> &mut Self {
        self.open(BLOCK, ty)
    }

    /// `loop`, which an `end` closes.
    pub fn loop_(&mut self, ty: BlockType) -> &mut Self {
        self.open(LOOP, ty)
    }

    /// `if`, which an `end` closes.
    pub fn if_(&mut self, ty: BlockType) -> &mut Self {
        self.open(IF, ty)
    }

    /// `br`; 0 is the innermost block.
    pub fn br(&mut self, label: u32) -> &mut Self {
        self.put(|to| to.byte(BR).index(label))
    }

    /// `br_if`; 0 is the innermost block.
    pub fn br_if(&mut self, label: u32) -> &mut Self {
        self.put(|to| to.byte(BR_IF).index(label))
    }

    /// The body of a function with these operators, and these locals behind its parameters.
    pub fn body(&self, locals: &[ValType]) -> Body {
        let counted = nothing().count(locals.len());
        let declared = locals
            .iter()
            .fold(counted, |to, ty| to.index(1).value_type(*ty));
        Body::from_bytes(declared.bytes(&self.0).byte(END).0)
    }
}

macro_rules! plain {
    ($($(#[$doc:meta])* $name:ident $byte:literal;)*) => {
        impl InstrSeqBuilder {$(
            $(#[$doc])*
            pub fn $name(&mut self) -> &mut Self {
                self.raw(&[$byte])
            }
        )*}
    };
}

plain! {
    /// `unreachable`.
    unreachable 0x00;
    /// `else`.
    else_ 0x05;
    /// `end`. The one that closes the function comes with its body.
    end 0x0B;
    /// `return`.
    return_ 0x0F;
    /// `drop`.
    drop_ 0x1A;
    /// `select`.
    select 0x1B;
}

/// An opcode: a byte, or one in front times 65,536 and a number.
fn opcode_behind(to: Writer, opcode: u32) -> Writer {
    match opcode >> 16 {
        0 => to.byte(opcode as u8),
        front => to.byte(front as u8).index(opcode & 0xFFFF),
    }
}
