//! The list of edits that the library is given (docs/FORMATS.md, "A list of edits"), and of which
//! item each edit came.

use super::read::{
    CUSTOM, DATA, ELEMENT, EXPORT, FUNCTION, GLOBAL, GLOBAL_SHARED, HAS_MAXIMUM, HAS_PAGE, IMPORT,
    LIMITS_SHARED, MEMORY, MUTABLE, NAME, OF_FUNCTIONS, PRODUCER, START, TYPE, WIDE,
};
use super::wire::{nothing, Writer};
use super::{
    Data, DataKind, Element, ElementItems, ElementKind, Error, Export, FunctionId, Global,
    GlobalKind, Id, Import, Item, Memory, Producer, RawCustomSection, TypeId, ValType,
};

const ADD_FUNCTION: u8 = 16;
const SET: u8 = 17;
const DELETE: u8 = 18;
const BRING: u8 = 19;
const NO_PRODUCERS: u8 = 22;
const FRONT: u8 = 23;

/// No locals, `unreachable` and `end`.
const TRAP: [u8; 3] = [0x00, 0x00, 0x0B];

/// The flag of a segment that names its memory or its table.
const ACTIVE: u8 = 2;
/// That of one that operators use.
const PASSIVE: u8 = 1;
/// That of one that declares.
const DECLARED: u8 = 3;
/// Beside these, that of one that lists expressions.
const EXPRESSIONS: u8 = 4;

/// The edits so far.
#[derive(Default)]
pub(super) struct EditList {
    bytes: Writer,
    /// The item of each, and what is wrong with it where the library refuses the edit.
    of: Vec<(Item, &'static str)>,
}

impl EditList {
    pub(super) fn bytes(&self) -> &[u8] {
        &self.bytes.0
    }

    /// What is to be said where so many edits were made and the next one is refused.
    pub(super) fn refusal(&self, made: usize) -> Error {
        let (item, why) = self.of[made];
        Error::Item(item, why)
    }

    /// An edit of an item, with what is wrong where it is refused.
    fn put(&mut self, number: u8, payload: Writer, item: Item, why: &'static str) {
        let so_far = std::mem::take(&mut self.bytes);
        self.bytes = so_far.byte(number).block(&payload.0);
        self.of.push((item, why));
    }

    /// A section that lists this entry alone.
    fn add(&mut self, section: u8, entry: Writer, item: Item, why: &'static str) {
        self.put(section, nothing().count(1).bytes(&entry.0), item, why);
    }

    fn set(&mut self, section: u8, id: u32, entry: Writer, item: Item, why: &'static str) {
        let payload = nothing().byte(section).index(id).bytes(&entry.0);
        self.put(SET, payload, item, why);
    }

    fn delete(&mut self, section: u8, id: u32, item: Item) {
        let payload = nothing().byte(section).index(id);
        self.put(DELETE, payload, item, "it can't go");
    }

    pub(super) fn add_type(&mut self, id: u32, params: &[ValType], results: &[ValType]) {
        let entry = nothing().byte(OF_FUNCTIONS);
        let entry = entry.value_types(params).value_types(results);
        let why = "it names a type that isn't there";
        self.add(TYPE, entry, Item::Type(id), why);
    }

    pub(super) fn import_function(&mut self, id: FunctionId, ty: TypeId, import: &Import) {
        let why = "its type isn't there, or isn't one of functions";
        let entry = spelled_import(import, nothing().id(ty));
        self.add(IMPORT, entry, Item::Function(id.index()), why);
    }

    /// A function that traps, until its body is set.
    pub(super) fn add_function(&mut self, id: FunctionId, ty: TypeId) {
        let why = "its type isn't there, or isn't one of functions";
        let payload = nothing().id(ty).bytes(&TRAP);
        self.put(ADD_FUNCTION, payload, Item::Function(id.index()), why);
    }

    pub(super) fn set_body(&mut self, id: FunctionId, body: &[u8]) {
        let why = "its body isn't well formed, or names what isn't there";
        let (id, entry) = (id.index(), nothing().bytes(body));
        self.set(FUNCTION, id, entry, Item::Function(id), why);
    }

    pub(super) fn put_in_front(&mut self, id: FunctionId, operators: &[u8]) {
        let why = "what stands in front of its body isn't well formed, or names what isn't there";
        let payload = nothing().id(id).bytes(operators);
        self.put(FRONT, payload, Item::Function(id.index()), why);
    }

    pub(super) fn bring_function(&mut self, id: FunctionId, import: &Import) {
        let payload = nothing().byte(0).id(id);
        let payload = payload.name(&import.module).name(&import.name);
        let why = "it can't come to be imported";
        self.put(BRING, payload, Item::Function(id.index()), why);
    }

    pub(super) fn import_global(&mut self, id: u32, global: &Global, import: &Import) {
        let entry = spelled_import(import, global_type(global));
        self.add(IMPORT, entry, Item::Global(id), WHY_GLOBAL);
    }

    pub(super) fn add_global(&mut self, id: u32, global: &Global) {
        self.add(GLOBAL, spelled_global(global), Item::Global(id), WHY_GLOBAL);
    }

    pub(super) fn set_global(&mut self, id: u32, global: &Global) {
        let item = Item::Global(id);
        self.set(GLOBAL, id, spelled_global(global), item, WHY_GLOBAL);
    }

    pub(super) fn set_memory(&mut self, id: u32, memory: &Memory) {
        let why = "its limits can't be spelled";
        self.set(MEMORY, id, limits(memory), Item::Memory(id), why);
    }

    pub(super) fn add_element(&mut self, id: u32, element: &Element) {
        let why = "its table, its offset or what it lists isn't there, or isn't well formed";
        self.add(ELEMENT, spelled_element(element), Item::Element(id), why);
    }

    pub(super) fn delete_element(&mut self, id: u32) {
        self.delete(ELEMENT, id, Item::Element(id));
    }

    pub(super) fn add_data(&mut self, id: u32, data: &Data) {
        self.add(DATA, spelled_data(data), Item::Data(id), WHY_DATA);
    }

    pub(super) fn set_data(&mut self, id: u32, data: &Data) {
        self.set(DATA, id, spelled_data(data), Item::Data(id), WHY_DATA);
    }

    pub(super) fn delete_data(&mut self, id: u32) {
        self.delete(DATA, id, Item::Data(id));
    }

    pub(super) fn set_import(&mut self, id: u32, import: &Import) {
        let entry = nothing().name(&import.module).name(&import.name);
        self.set(IMPORT, id, entry, Item::Import(id), "it isn't there");
    }

    pub(super) fn add_export(&mut self, id: u32, export: &Export) {
        self.add(EXPORT, spelled_export(export), Item::Export(id), WHY_EXPORT);
    }

    pub(super) fn set_export(&mut self, id: u32, export: &Export) {
        let item = Item::Export(id);
        self.set(EXPORT, id, spelled_export(export), item, WHY_EXPORT);
    }

    pub(super) fn delete_export(&mut self, id: u32) {
        self.delete(EXPORT, id, Item::Export(id));
    }

    pub(super) fn set_start(&mut self, id: FunctionId) {
        self.put(START, nothing().id(id), Item::Start, "it isn't there");
    }

    pub(super) fn delete_start(&mut self) {
        let payload = nothing().byte(START);
        self.put(DELETE, payload, Item::Start, "it can't go");
    }

    pub(super) fn add_custom(&mut self, id: u32, section: &RawCustomSection) {
        let why = "the library writes sections of its name itself, or none";
        let payload = nothing().name(&section.name).bytes(&section.data);
        self.put(CUSTOM, payload, Item::Custom(id), why);
    }

    pub(super) fn set_custom(&mut self, id: u32, section: &RawCustomSection) {
        let entry = nothing().bytes(&section.data);
        self.set(CUSTOM, id, entry, Item::Custom(id), "it isn't there");
    }

    pub(super) fn delete_custom(&mut self, id: u32) {
        self.delete(CUSTOM, id, Item::Custom(id));
    }

    pub(super) fn clear_producers(&mut self) {
        self.put(NO_PRODUCERS, nothing(), Item::Producer(0), "it can't go");
    }

    pub(super) fn add_producer(&mut self, at: usize, it: &Producer) {
        let why = "its field isn't `language`, `processed-by` or `sdk`";
        let payload = nothing().name(&it.field).name(&it.name);
        let payload = payload.name(&it.version);
        self.put(PRODUCER, payload, Item::Producer(at as u32), why);
    }

    pub(super) fn name(&mut self, what: u8, id: u32, name: Option<&str>, item: Item) {
        let front = nothing().byte(what).index(id);
        let payload = name.into_iter().fold(front, Writer::name);
        self.put(NAME, payload, item, "its name can't be written");
    }
}

const WHY_GLOBAL: &str = "its type or its initialiser isn't well formed, or names what isn't there";
const WHY_DATA: &str = "its memory isn't there, or its offset isn't well formed";
const WHY_EXPORT: &str = "what it exports isn't there";

fn spelled_import(it: &Import, brought: Writer) -> Writer {
    let (kind, _) = it.kind.parts();
    let names = nothing().name(&it.module).name(&it.name);
    names.byte(kind).bytes(&brought.0)
}

fn spelled_export(it: &Export) -> Writer {
    let (kind, index) = it.item.parts();
    nothing().name(&it.name).byte(kind).index(index)
}

fn flag(is: bool, bit: u8) -> u8 {
    u8::from(is) * bit
}

fn limits(it: &Memory) -> Writer {
    let flags = flag(it.maximum.is_some(), HAS_MAXIMUM)
        | flag(it.shared, LIMITS_SHARED)
        | flag(it.memory64, WIDE)
        | flag(it.page_size_log2.is_some(), HAS_PAGE);
    let to = nothing().byte(flags).number(it.initial);
    let to = it.maximum.into_iter().fold(to, Writer::number);
    it.page_size_log2.into_iter().fold(to, Writer::index)
}

fn global_type(it: &Global) -> Writer {
    let flags = flag(it.mutable, MUTABLE) | flag(it.shared, GLOBAL_SHARED);
    nothing().value_type(it.ty).byte(flags)
}

fn spelled_global(it: &Global) -> Writer {
    match &it.kind {
        GlobalKind::Local(init) => global_type(it).bytes(&init.0),
        GlobalKind::Import(_) => global_type(it),
    }
}

fn ids<T>(all: &[Id<T>]) -> Writer {
    let counted = nothing().count(all.len());
    all.iter().fold(counted, |to, id| to.id(*id))
}

/// The flag of a segment, and where it is written at first, if it is.
fn element_front(kind: &ElementKind, more: u8) -> Writer {
    match kind {
        ElementKind::Active { table, offset } => {
            let to = nothing().byte(ACTIVE | more).id(*table);
            to.bytes(&offset.0)
        }
        ElementKind::Passive => nothing().byte(PASSIVE | more),
        ElementKind::Declared => nothing().byte(DECLARED | more),
    }
}

fn spelled_element(it: &Element) -> Writer {
    match &it.items {
        ElementItems::Functions(all) => {
            let to = element_front(&it.kind, 0).byte(0);
            to.bytes(&ids(all).0)
        }
        ElementItems::Expressions(ty, all) => {
            let to = element_front(&it.kind, EXPRESSIONS).reference_type(*ty);
            let counted = to.count(all.len());
            all.iter().fold(counted, |to, one| to.bytes(&one.0))
        }
    }
}

fn spelled_data(it: &Data) -> Writer {
    let front = match &it.kind {
        DataKind::Active { memory, offset } => {
            let to = nothing().byte(ACTIVE).id(*memory);
            to.bytes(&offset.0)
        }
        DataKind::Passive => nothing().byte(PASSIVE),
    };
    front.block(&it.value)
}
