//! What items are. A field that is public may be written; what can't be changed is told by a method.

use super::{
    Body, ConstExpr, FunctionId, GlobalId, Id, ImportId, MemoryId, RefType, TableId, TypeId,
    ValType,
};
use std::collections::BTreeMap;

/// What an export exports.
#[derive(Debug, Clone, Copy, PartialEq, Eq, Hash)]
pub enum ExportItem {
    /// A function.
    Function(FunctionId),
    /// A table.
    Table(TableId),
    /// A memory.
    Memory(MemoryId),
    /// A global.
    Global(GlobalId),
    /// A tag.
    Tag(Id<Tag>),
}

/// What an import brings.
pub type ImportKind = ExportItem;

impl ExportItem {
    /// Its kind, as imports and exports spell it, and its index.
    pub(super) fn parts(self) -> (u8, u32) {
        match self {
            ExportItem::Function(id) => (0, id.index()),
            ExportItem::Table(id) => (1, id.index()),
            ExportItem::Memory(id) => (2, id.index()),
            ExportItem::Global(id) => (3, id.index()),
            ExportItem::Tag(id) => (4, id.index()),
        }
    }

    pub(super) fn of(kind: u8, index: u32) -> Self {
        match kind {
            0 => ExportItem::Function(Id::at(index)),
            1 => ExportItem::Table(Id::at(index)),
            2 => ExportItem::Memory(Id::at(index)),
            3 => ExportItem::Global(Id::at(index)),
            4 => ExportItem::Tag(Id::at(index)),
            other => unreachable!("the library tells the kind {other}"),
        }
    }
}

macro_rules! from_ids {
    ($($kind:ident)*) => {$(
        impl From<Id<$kind>> for ExportItem {
            fn from(id: Id<$kind>) -> Self {
                ExportItem::$kind(id)
            }
        }
    )*};
}

from_ids! { Function Table Memory Global Tag }

/// An import.
#[derive(Debug, Clone, PartialEq, Eq)]
pub struct Import {
    /// The module that it comes from.
    pub module: String,
    /// Its name there.
    pub name: String,
    pub(super) kind: ImportKind,
}

impl Import {
    /// What it brings.
    pub fn kind(&self) -> ImportKind {
        self.kind
    }
}

/// An export.
#[derive(Debug, Clone, PartialEq, Eq)]
pub struct Export {
    /// Its name.
    pub name: String,
    /// What it exports.
    pub item: ExportItem,
}

/// Where a function comes from.
#[derive(Debug, Clone, PartialEq, Eq)]
pub enum FunctionKind {
    /// An import brings it.
    Import(ImportId),
    /// It has a body. Where an import brought it, that goes.
    Local(Body),
}

/// A function.
#[derive(Debug, Clone, PartialEq, Eq)]
pub struct Function {
    pub(super) ty: TypeId,
    /// Where it comes from.
    pub kind: FunctionKind,
    /// Its name.
    pub name: Option<String>,
    pub(super) locals: BTreeMap<u32, String>,
}

impl Function {
    pub(super) fn new(ty: TypeId, kind: FunctionKind) -> Self {
        Function {
            ty,
            kind,
            name: None,
            locals: BTreeMap::new(),
        }
    }

    /// Its type.
    pub fn ty(&self) -> TypeId {
        self.ty
    }

    /// Its body, where it has one.
    pub fn body(&self) -> Option<&Body> {
        match &self.kind {
            FunctionKind::Local(body) => Some(body),
            FunctionKind::Import(_) => None,
        }
    }

    /// The names of its locals by their indices, as the input has them. Where its body is set
    /// anew, they go; what is put in front of it leaves them.
    pub fn local_names(&self) -> &BTreeMap<u32, String> {
        &self.locals
    }
}

/// A table. Only its name can be written.
#[derive(Debug, Clone, PartialEq, Eq)]
pub struct Table {
    pub(super) element_ty: RefType,
    pub(super) table64: bool,
    pub(super) initial: u64,
    pub(super) maximum: Option<u64>,
    pub(super) init: Option<ConstExpr>,
    pub(super) import: Option<ImportId>,
    /// Its name.
    pub name: Option<String>,
}

impl Table {
    /// The type of its elements.
    pub fn element_ty(&self) -> RefType {
        self.element_ty
    }

    /// Whether its indices have 64 bits.
    pub fn table64(&self) -> bool {
        self.table64
    }

    /// How many elements it has at first.
    pub fn initial(&self) -> u64 {
        self.initial
    }

    /// How many it may have.
    pub fn maximum(&self) -> Option<u64> {
        self.maximum
    }

    /// What its elements are at first, where that is said.
    pub fn init(&self) -> Option<&ConstExpr> {
        self.init.as_ref()
    }

    /// The import that brings it.
    pub fn import(&self) -> Option<ImportId> {
        self.import
    }

    /// Whether the other one differs by its name at most.
    pub(super) fn is_but_for_its_name(&self, other: &Table) -> bool {
        let name = self.name.clone();
        *self
            == Table {
                name,
                ..other.clone()
            }
    }
}

/// A memory.
#[derive(Debug, Clone, PartialEq, Eq)]
pub struct Memory {
    /// Whether threads share it.
    pub shared: bool,
    /// Whether its addresses have 64 bits.
    pub memory64: bool,
    /// How many pages it has at first.
    pub initial: u64,
    /// How many it may have.
    pub maximum: Option<u64>,
    /// The bytes of a page, as an exponent of 2; else they are 65,536.
    pub page_size_log2: Option<u32>,
    pub(super) import: Option<ImportId>,
    /// Its name.
    pub name: Option<String>,
}

impl Memory {
    /// The import that brings it.
    pub fn import(&self) -> Option<ImportId> {
        self.import
    }

    /// Whether the other one has the same limits.
    pub(super) fn has_limits_of(&self, other: &Memory) -> bool {
        let of = |it: &Memory| {
            (
                it.shared,
                it.memory64,
                it.initial,
                it.maximum,
                it.page_size_log2,
            )
        };
        of(self) == of(other)
    }
}

/// Where a global comes from.
#[derive(Debug, Clone, PartialEq, Eq)]
pub enum GlobalKind {
    /// An import brings it.
    Import(ImportId),
    /// It begins with this value. Where an import brought it, that goes.
    Local(ConstExpr),
}

/// A global. Where an import brings it, only its name can be written, and its kind.
#[derive(Debug, Clone, PartialEq, Eq)]
pub struct Global {
    /// The type of its value.
    pub ty: ValType,
    /// Whether it can be written.
    pub mutable: bool,
    /// Whether threads share it.
    pub shared: bool,
    /// Where it comes from.
    pub kind: GlobalKind,
    /// Its name.
    pub name: Option<String>,
}

impl Global {
    /// Why the other one can't come in its place where an import brings both: the first field of
    /// its type that differs.
    pub(super) fn differs_in(&self, other: &Global) -> Option<&'static str> {
        if self.ty != other.ty {
            Some("its `ty` can't be changed, since an import brings it")
        } else if self.mutable != other.mutable {
            Some("its `mutable` can't be changed, since an import brings it")
        } else if self.shared != other.shared {
            Some("its `shared` can't be changed, since an import brings it")
        } else {
            None
        }
    }
}

/// A tag. Only its name can be written.
#[derive(Debug, Clone, PartialEq, Eq)]
pub struct Tag {
    pub(super) ty: TypeId,
    pub(super) import: Option<ImportId>,
    /// Its name.
    pub name: Option<String>,
}

impl Tag {
    /// Its type.
    pub fn ty(&self) -> TypeId {
        self.ty
    }

    /// The import that brings it.
    pub fn import(&self) -> Option<ImportId> {
        self.import
    }
}

/// How an element segment is used.
#[derive(Debug, Clone, PartialEq, Eq)]
pub enum ElementKind {
    /// By operators alone.
    Passive,
    /// It declares functions.
    Declared,
    /// It is written to a table at first.
    Active {
        /// The table.
        table: TableId,
        /// Where in it.
        offset: ConstExpr,
    },
}

/// What an element segment lists.
#[derive(Debug, Clone, PartialEq, Eq)]
pub enum ElementItems {
    /// Functions.
    Functions(Vec<FunctionId>),
    /// The values of expressions, of this type.
    Expressions(RefType, Vec<ConstExpr>),
}

/// An element segment. Only its name can be written; another one can be added in its place.
#[derive(Debug, Clone, PartialEq, Eq)]
pub struct Element {
    pub(super) kind: ElementKind,
    pub(super) items: ElementItems,
    /// Its name.
    pub name: Option<String>,
}

impl Element {
    /// A segment that lists nothing.
    pub(super) fn empty() -> Self {
        Element {
            kind: ElementKind::Passive,
            items: ElementItems::Functions(Vec::new()),
            name: None,
        }
    }

    /// How it is used.
    pub fn kind(&self) -> &ElementKind {
        &self.kind
    }

    /// What it lists.
    pub fn items(&self) -> &ElementItems {
        &self.items
    }
}

/// How a data segment is used.
#[derive(Debug, Clone, PartialEq, Eq)]
pub enum DataKind {
    /// It is written to a memory at first.
    Active {
        /// The memory.
        memory: MemoryId,
        /// Where in it.
        offset: ConstExpr,
    },
    /// By operators alone.
    Passive,
}

/// A data segment.
#[derive(Debug, Clone, PartialEq, Eq)]
pub struct Data {
    /// How it is used.
    pub kind: DataKind,
    /// Its bytes.
    pub value: Vec<u8>,
    /// Its name.
    pub name: Option<String>,
}

impl Data {
    /// A segment without bytes.
    pub(super) fn empty() -> Self {
        Data {
            kind: DataKind::Passive,
            value: Vec::new(),
            name: None,
        }
    }
}

/// A custom section that the library keeps as it is: not names, producers and debug information.
#[derive(Debug, Clone, PartialEq, Eq)]
pub struct RawCustomSection {
    pub(super) name: String,
    /// Its bytes behind the name.
    pub data: Vec<u8>,
}

impl RawCustomSection {
    /// Its name.
    pub fn name(&self) -> &str {
        &self.name
    }
}

/// What had a part in making the module.
#[derive(Debug, Clone, PartialEq, Eq, Hash)]
pub struct Producer {
    /// Under which field it stands: `language`, `processed-by` or `sdk`, where it is written.
    pub field: String,
    /// Its name.
    pub name: String,
    /// Its version.
    pub version: String,
}

/// What had a part in making the module, in the order of its section.
#[derive(Debug, Clone, Default, PartialEq, Eq)]
pub struct ModuleProducers(pub Vec<Producer>);

impl ModuleProducers {
    /// Puts this version in the place of one of this name in the field, or behind all.
    fn add(&mut self, field: &str, name: &str, version: &str) {
        let same = |it: &&mut Producer| it.field == field && it.name == name;
        match self.0.iter_mut().find(same) {
            Some(it) => it.version = version.to_owned(),
            None => self.0.push(Producer {
                field: field.to_owned(),
                name: name.to_owned(),
                version: version.to_owned(),
            }),
        }
    }

    /// A language in which it was written. One of this name gets the version.
    pub fn add_language(&mut self, name: &str, version: &str) {
        self.add("language", name, version);
    }

    /// A tool that made or changed it. One of this name gets the version.
    pub fn add_processed_by(&mut self, name: &str, version: &str) {
        self.add("processed-by", name, version);
    }

    /// A kit that it was made for. One of this name gets the version.
    pub fn add_sdk(&mut self, name: &str, version: &str) {
        self.add("sdk", name, version);
    }

    /// Takes all away.
    pub fn clear(&mut self) {
        self.0.clear();
    }
}
