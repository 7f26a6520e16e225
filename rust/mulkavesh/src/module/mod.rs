//! A module that a program looks at and changes by typed ids, in the names of the crate `walrus`.
//!
//! Items are plain values. [`Module::from_buffer`] reads them, and [`Module::emit_wasm`] makes a module
//! of the input and of what differs by then: so items may be written through `get_mut` and `iter_mut`,
//! and public fields as any. What can't be changed is told by methods, or refused by `emit_wasm`, with
//! the item; nothing is passed over. What is written keeps the rules that are asked of an input: no
//! other is checked, so that operands of wrong types, say, are found by an engine or a validator.
//!
//! ```
//! use mulkavesh::module::{InstrSeqBuilder, Module};
//!
//! // Two functions, of which the second is exported as `f`.
//! let input = [
//!     b"\0asm\x01\0\0\0".as_slice(),
//!     b"\x01\x04\x01\x60\0\0\x03\x03\x02\0\0\x07\x05\x01\x01f\0\x01",
//!     b"\x0A\x08\x02\x03\0\x01\x0B\x02\0\x0B",
//! ].concat();
//! let mut module = Module::from_buffer(&input)?;
//! let f = module.exports.get_func("f").expect("an exported function");
//! // Another export, of a new function that calls the one of `f` and is called `g`.
//! let body = InstrSeqBuilder::new().call(f).body(&[]);
//! let g = module.funcs.add_local(module.funcs.get(f).ty(), body);
//! module.funcs.get_mut(g).name = Some("g".to_string());
//! module.exports.add("g", g);
//! // What nothing reaches goes.
//! module.collects = true;
//! let output = Module::from_buffer(&module.emit_wasm()?)?;
//! assert_eq!((output.funcs.len(), output.exports.len()), (2, 2));
//! // Ids end with the reading: an item of the output is found by its export.
//! let g = output.exports.get_func("g").expect("an exported function");
//! assert_eq!(output.funcs.get(g).name.as_deref(), Some("g"));
//! # Ok::<(), mulkavesh::module::Error>(())
//! ```

mod arena;
mod body;
mod calls;
mod differ;
mod error;
mod items;
mod list;
pub mod opcodes;
mod read;
mod types;
mod wire;

pub use arena::{Arena, Id};
pub use body::{Body, ConstExpr, InstrSeqBuilder};
pub use error::{Cause, Error, Item};
pub use items::{
    Data, DataKind, Element, ElementItems, ElementKind, Export, ExportItem, Function, FunctionKind,
    Global, GlobalKind, Import, ImportKind, Memory, ModuleProducers, Producer, RawCustomSection,
    Table, Tag,
};
pub use types::{AbstractHeapType, BlockType, HeapType, RefType, Type, ValType};

use crate::call::{Call, Refused};
use crate::{Error as CallError, Flags, Rule, MORE};
use std::sync::Arc;

/// The id of a type.
pub type TypeId = Id<Type>;
/// The id of a function.
pub type FunctionId = Id<Function>;
/// The id of a table.
pub type TableId = Id<Table>;
/// The id of a memory.
pub type MemoryId = Id<Memory>;
/// The id of a global.
pub type GlobalId = Id<Global>;
/// The id of a tag.
pub type TagId = Id<Tag>;
/// The id of an import.
pub type ImportId = Id<Import>;
/// The id of an export.
pub type ExportId = Id<Export>;
/// The id of an element segment.
pub type ElementId = Id<Element>;
/// The id of a data segment.
pub type DataId = Id<Data>;
/// The id of a custom section.
pub type CustomId = Id<RawCustomSection>;

/// A module.
#[derive(Debug, Clone)]
pub struct Module {
    /// Its types. Those that legacy exceptions need stand behind those of the input.
    pub types: Arena<Type>,
    /// Its imports.
    pub imports: Arena<Import>,
    /// Its functions.
    pub funcs: Arena<Function>,
    /// Its tables.
    pub tables: Arena<Table>,
    /// Its memories.
    pub memories: Arena<Memory>,
    /// Its globals.
    pub globals: Arena<Global>,
    /// Its tags.
    pub tags: Arena<Tag>,
    /// Its exports.
    pub exports: Arena<Export>,
    /// The function that is called first.
    pub start: Option<FunctionId>,
    /// Its element segments.
    pub elements: Arena<Element>,
    /// Its data segments.
    pub data: Arena<Data>,
    /// Its custom sections, but names, producers and debug information.
    pub customs: Arena<RawCustomSection>,
    /// What had a part in making it.
    pub producers: ModuleProducers,
    /// Its name.
    pub name: Option<String>,
    /// What is written and what is refused, by [`Module::emit_wasm`].
    pub flags: Flags,
    /// Whether what nothing reaches goes as it is written.
    pub collects: bool,
    input: Arc<[u8]>,
    told: Arc<[u8]>,
}

impl Module {
    /// One of this input without items as yet.
    fn of(input: Arc<[u8]>, told: Arc<[u8]>) -> Self {
        Module {
            types: Arena::default(),
            imports: Arena::default(),
            funcs: Arena::default(),
            tables: Arena::default(),
            memories: Arena::default(),
            globals: Arena::default(),
            tags: Arena::default(),
            exports: Arena::default(),
            start: None,
            elements: Arena::default(),
            data: Arena::default(),
            customs: Arena::default(),
            producers: ModuleProducers::default(),
            name: None,
            flags: Flags::default(),
            collects: false,
            input,
            told,
        }
    }

    /// The module as it was read.
    fn as_read(input: &Arc<[u8]>, told: &Arc<[u8]>) -> Self {
        let module = Module::of(Arc::clone(input), Arc::clone(told));
        read::filled(module, told)
    }

    /// The module that the bytes are.
    ///
    /// # Errors
    ///
    /// [`CallError::Invalid`] where the bytes are no module that keeps the rules, with what is wrong
    /// with them, [`CallError::TooLarge`] where what is told has a size past 32 bits, and
    /// [`CallError::NoMemory`].
    pub fn from_buffer(input: &[u8]) -> Result<Module, CallError> {
        let told = Call::read().answer(input, input.len() + MORE)?;
        Ok(Module::as_read(&input.into(), &told.into()))
    }

    /// The bytes of the module as it is now. The one that was read last stays as it is, so it may be
    /// changed further and written again.
    ///
    /// # Errors
    ///
    /// [`Error::Item`] with the first item that is refused: it has what can't be changed, or isn't well
    /// formed, or names what isn't there; [`Error::Whole`] where all of them break a rule; and
    /// [`Error::Call`] where memory ran out, a count or a size passes 32 bits, or the flags refuse the
    /// input.
    pub fn emit_wasm(&self) -> Result<Vec<u8>, Error> {
        let was = Module::as_read(&self.input, &self.told);
        let list = differ::between(&was, self)?;
        drop(was);
        let guess = self.input.len() + list.bytes().len() + MORE;
        let call = Call::edit(self.flags, self.collects, list.bytes());
        call.edited(&self.input, guess)
            .map_err(|refused| match refused {
                Refused::Call(error) => Error::Call(error),
                Refused::Edit(made) => list.refusal(made),
                Refused::Whole(cause) => Error::Whole(Cause::of(cause)),
            })
    }

    /// The list of edits that [`Module::emit_wasm`] hands to the library, as docs/FORMATS.md has it.
    ///
    /// # Errors
    ///
    /// [`Error::Item`] with the first item that has what can't be changed.
    pub fn edits(&self) -> Result<Vec<u8>, Error> {
        let was = Module::as_read(&self.input, &self.told);
        let list = differ::between(&was, self)?;
        Ok(list.bytes().to_vec())
    }
}

impl Cause {
    /// The cause of a number of the library.
    fn of(number: u32) -> Cause {
        use mulkavesh_sys as library;
        match number {
            library::MULKAVESH_CAUSE_GONE => Cause::Gone,
            library::MULKAVESH_CAUSE_TWO_INDICES => Cause::TwoIndices,
            library::MULKAVESH_CAUSE_NO_INDEX => Cause::NoIndex,
            library::MULKAVESH_CAUSE_NO_SPELLING => Cause::NoSpelling,
            rule => Cause::Rule(Rule::of(rule)),
        }
    }
}
