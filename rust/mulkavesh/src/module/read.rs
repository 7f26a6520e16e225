//! What the library tells of a module, as items.

use super::types::TypeKind;
use super::wire::Reader;
use super::{
    Arena, Body, ConstExpr, Data, DataKind, Element, ElementItems, ElementKind, Export, ExportItem,
    Function, FunctionKind, Global, GlobalKind, Id, Import, ImportId, Memory, Module, Producer,
    RawCustomSection, Table, Tag, Type,
};

// The bytes of records: sections, and what else is told.
pub(super) const CUSTOM: u8 = 0;
pub(super) const TYPE: u8 = 1;
pub(super) const IMPORT: u8 = 2;
pub(super) const TABLE: u8 = 4;
pub(super) const MEMORY: u8 = 5;
pub(super) const GLOBAL: u8 = 6;
pub(super) const EXPORT: u8 = 7;
pub(super) const START: u8 = 8;
pub(super) const ELEMENT: u8 = 9;
pub(super) const FUNCTION: u8 = 10;
pub(super) const DATA: u8 = 11;
pub(super) const TAG: u8 = 13;
pub(super) const NAME: u8 = 20;
pub(super) const PRODUCER: u8 = 21;
const LOCAL: u8 = 24;
/// What a name is of, where it is the module's.
pub(super) const MODULE: u8 = 255;

// Bits of the flags of limits and of global types.
pub(super) const HAS_MAXIMUM: u8 = 1;
pub(super) const LIMITS_SHARED: u8 = 2;
pub(super) const WIDE: u8 = 4;
pub(super) const HAS_PAGE: u8 = 8;
pub(super) const MUTABLE: u8 = 1;
pub(super) const GLOBAL_SHARED: u8 = 2;

// What groups of types begin with.
pub(super) const OF_FUNCTIONS: u8 = 0x60;
const GROUP: u8 = 0x4E;

/// Limits as they are told, of a table or a memory.
struct Limits {
    flags: u8,
    initial: u64,
    maximum: Option<u64>,
    page: Option<u32>,
}

impl Limits {
    fn of(from: &mut Reader<'_>) -> Self {
        let flags = from.byte();
        let has = |bit: u8| flags & bit != 0;
        let initial = from.number();
        let maximum = has(HAS_MAXIMUM).then(|| from.number());
        let page = has(HAS_PAGE).then(|| from.index());
        Limits {
            flags,
            initial,
            maximum,
            page,
        }
    }

    fn has(&self, bit: u8) -> bool {
        self.flags & bit != 0
    }
}

fn expression(from: &mut Reader<'_>) -> ConstExpr {
    ConstExpr(from.block().to_vec())
}

/// The types of a group.
fn put_types(from: &mut Reader<'_>, all: &mut Arena<Type>) {
    let group = from.0;
    let mut put = |kind| {
        all.put(Type { kind, name: None });
    };
    match from.byte() {
        OF_FUNCTIONS => put(TypeKind::Function(from.value_types(), from.value_types())),
        GROUP => {
            let count = from.index();
            (0..count.min(1)).for_each(|_| put(TypeKind::Other(group.to_vec())));
            (1..count).for_each(|_| put(TypeKind::Other(Vec::new())));
        }
        _ => put(TypeKind::Other(group.to_vec())),
    }
}

fn table(from: &mut Reader<'_>, import: Option<ImportId>) -> Table {
    let element_ty = from.reference_type();
    let limits = Limits::of(from);
    Table {
        element_ty,
        table64: limits.has(WIDE),
        initial: limits.initial,
        maximum: limits.maximum,
        init: (!from.is_empty()).then(|| expression(from)),
        import,
        name: None,
    }
}

fn memory(from: &mut Reader<'_>, import: Option<ImportId>) -> Memory {
    let limits = Limits::of(from);
    Memory {
        shared: limits.has(LIMITS_SHARED),
        memory64: limits.has(WIDE),
        initial: limits.initial,
        maximum: limits.maximum,
        page_size_log2: limits.page,
        import,
        name: None,
    }
}

fn global(from: &mut Reader<'_>, import: Option<ImportId>) -> Global {
    let ty = from.value_type();
    let flags = from.byte();
    let kind = match import {
        Some(import) => GlobalKind::Import(import),
        None => GlobalKind::Local(expression(from)),
    };
    Global {
        ty,
        mutable: flags & MUTABLE != 0,
        shared: flags & GLOBAL_SHARED != 0,
        kind,
        name: None,
    }
}

fn element(from: &mut Reader<'_>) -> Element {
    let kind = match from.byte() {
        0 => ElementKind::Active {
            table: from.id(),
            offset: expression(from),
        },
        1 => ElementKind::Passive,
        _ => ElementKind::Declared,
    };
    let items = match from.byte() {
        0 => ElementItems::Functions((0..from.index()).map(|_| from.id()).collect()),
        _ => {
            let ty = from.reference_type();
            let all = (0..from.index()).map(|_| expression(from)).collect();
            ElementItems::Expressions(ty, all)
        }
    };
    Element {
        kind,
        items,
        name: None,
    }
}

fn data(from: &mut Reader<'_>) -> Data {
    let kind = match from.byte() {
        0 => DataKind::Active {
            memory: from.id(),
            offset: expression(from),
        },
        _ => DataKind::Passive,
    };
    Data {
        kind,
        value: from.block().to_vec(),
        name: None,
    }
}

/// What is told, as it is read.
struct Told {
    module: Module,
    /// The names of an import, whose item is told next.
    import: Option<(String, String)>,
}

impl Told {
    /// The import that brings the item of this record, where one does: the next item of its kind.
    fn import(&mut self, section: u8, from: &mut Reader<'_>) -> Option<ImportId> {
        if from.byte() == 0 {
            return None;
        }
        let all = &mut self.module;
        let (module, name) = self.import.take().expect("the names of an import");
        let kind = match section {
            FUNCTION => all.funcs.next_id().into(),
            TABLE => all.tables.next_id().into(),
            MEMORY => all.memories.next_id().into(),
            GLOBAL => all.globals.next_id().into(),
            _ => ExportItem::Tag(all.tags.next_id()),
        };
        Some(all.imports.put(Import { module, name, kind }))
    }

    fn function(&mut self, from: &mut Reader<'_>) {
        let import = self.import(FUNCTION, from);
        let ty = from.id();
        let kind = match import {
            Some(import) => FunctionKind::Import(import),
            None => {
                let (start, size) = (from.index() as usize, from.index() as usize);
                let input = self.module.input.clone();
                FunctionKind::Local(Body::read(input, start..start + size))
            }
        };
        self.module.funcs.put(Function::new(ty, kind));
    }

    fn name(&mut self, from: &mut Reader<'_>) {
        let (kind, at) = (from.byte(), from.index());
        let name = Some(from.name());
        let all = &mut self.module;
        match kind {
            TYPE => all.types.get_mut(Id::at(at)).name = name,
            TABLE => all.tables.get_mut(Id::at(at)).name = name,
            MEMORY => all.memories.get_mut(Id::at(at)).name = name,
            GLOBAL => all.globals.get_mut(Id::at(at)).name = name,
            ELEMENT => all.elements.get_mut(Id::at(at)).name = name,
            FUNCTION => all.funcs.get_mut(Id::at(at)).name = name,
            DATA => all.data.get_mut(Id::at(at)).name = name,
            TAG => all.tags.get_mut(Id::at(at)).name = name,
            MODULE => all.name = name,
            other => unreachable!("the library tells the name of {other}"),
        }
    }

    fn export(&mut self, from: &mut Reader<'_>) {
        let name = from.name();
        let item = ExportItem::of(from.byte(), from.index());
        self.module.exports.put(Export { name, item });
    }

    fn custom(&mut self, from: &mut Reader<'_>) {
        let id: Id<RawCustomSection> = from.id();
        let (name, data) = (from.name(), from.0.to_vec());
        let put = self.module.customs.put(RawCustomSection { name, data });
        assert_eq!(put, id, "custom sections are told in order");
    }

    fn producer(&mut self, from: &mut Reader<'_>) {
        self.module.producers.0.push(Producer {
            field: from.name(),
            name: from.name(),
            version: from.name(),
        });
    }

    fn local(&mut self, from: &mut Reader<'_>) {
        let function = self.module.funcs.get_mut(from.id());
        function.locals.insert(from.index(), from.name());
    }

    /// An item that an import may bring.
    fn item(&mut self, section: u8, from: &mut Reader<'_>) {
        let import = self.import(section, from);
        let all = &mut self.module;
        match section {
            TABLE => {
                all.tables.put(table(from, import));
            }
            MEMORY => {
                all.memories.put(memory(from, import));
            }
            GLOBAL => {
                all.globals.put(global(from, import));
            }
            _ => {
                let (ty, name) = (from.id(), None);
                all.tags.put(Tag { ty, import, name });
            }
        }
    }

    fn record(&mut self, section: u8, from: &mut Reader<'_>) {
        match section {
            CUSTOM => self.custom(from),
            TYPE => put_types(from, &mut self.module.types),
            IMPORT => self.import = Some((from.name(), from.name())),
            TABLE | MEMORY | GLOBAL | TAG => self.item(section, from),
            EXPORT => self.export(from),
            START => self.module.start = Some(from.id()),
            ELEMENT => {
                self.module.elements.put(element(from));
            }
            FUNCTION => self.function(from),
            DATA => {
                self.module.data.put(data(from));
            }
            NAME => self.name(from),
            PRODUCER => self.producer(from),
            LOCAL => self.local(from),
            other => unreachable!("the library tells a record {other}"),
        }
    }
}

/// Puts what the library told of its input into this module, which has nothing else as yet.
pub(super) fn filled(module: Module, told: &[u8]) -> Module {
    let import = None;
    let mut so_far = Told { module, import };
    let mut rest = Reader(told);
    while !rest.is_empty() {
        let section = rest.byte();
        so_far.record(section, &mut Reader(rest.block()));
    }
    so_far.module
}
