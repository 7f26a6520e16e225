//! Each public field of each item gets another value, once and by itself: what is written, read again,
//! has it, or `emit_wasm` refuses it by the item and by what of it. Fields that can't be changed are
//! private. So with items that are the module's own, with imported ones, and with such as come.

#[path = "support/made.rs"]
mod made;

use made::module_of;
use mulkavesh::module::{
    Body, ConstExpr, DataKind, ElementItems, ElementKind, ExportItem, Function, FunctionId,
    FunctionKind, Global, GlobalId, GlobalKind, Id, MemoryId, Module, RefType, TableId, TypeId,
    ValType,
};

/// The sources that declare items.
const SOURCES: [&str; 2] = [
    include_str!("../src/module/items.rs"),
    include_str!("../src/module/types.rs"),
];

/// An item of each kind, each but the type, the import and the export with a name. Function 0 is imported.
fn own() -> Module {
    let input = module_of(&[
        (1, b"\x02\x60\0\0\x60\x01\x7F\x01\x7F"),
        (2, b"\x01\x03env\x01f\0\0"),
        (3, b"\x01\x01"),
        (4, b"\x01\x70\0\x02"),
        (5, b"\x01\0\x01"),
        (13, b"\x01\0\0"),
        (6, b"\x01\x7E\0\x42\x05\x0B"),
        (7, b"\x02\x03run\0\x01\x05value\x03\0"),
        (9, b"\x01\0\x41\0\x0B\x01\x01"),
        (10, b"\x01\x04\0\x20\0\x0B"),
        (11, b"\x01\0\x41\x03\x0B\x02ab"),
        (0, b"\x04note\x01\x02"),
        (0, b"\x09producers\x01\x08language\x01\x01C\x02\x31\x31"),
    ]);
    Module::from_buffer(&input).expect("a module")
}

/// A table, a memory, a global, a tag and a function, imported and exported.
fn brought() -> Module {
    let input = module_of(&[
        (1, b"\x02\x60\0\0\x60\x01\x7F\0"),
        (
            2,
            b"\x05\x01m\x01t\x01\x70\0\0\x01m\x01e\x02\0\0\x01m\x01g\x03\x7F\0\x01m\x01x\x04\0\0\x01m\x01f\0\0",
        ),
        (7, b"\x05\x01T\x01\0\x01E\x02\0\x01G\x03\0\x01X\x04\0\x01F\0\0"),
    ]);
    Module::from_buffer(&input).expect("a module")
}

/// An item more of each kind that can be added. The function is exported as `new`, the global as `g`.
fn added() -> Module {
    let mut module = own();
    let ty = module.types.add(&[], &[ValType::I32]);
    let function = module.funcs.add_local(ty, trap());
    module.exports.add("new", function);
    let nothing = module.types.add(&[], &[]);
    let (imported, _) = module.add_import_func("m", "n", nothing);
    module.exports.add("n", imported);
    let value = ConstExpr::i64(1);
    let global = module.globals.add_local(ValType::I64, true, false, value);
    module.exports.add("g", global);
    let (imported, _) = module.add_import_global("m", "g", ValType::I64, true, false);
    module.exports.add("brought", imported);
    let (table, offset) = (TableId::at(0), ConstExpr::i32(1));
    let items = ElementItems::Functions(vec![function]);
    module
        .elements
        .add(ElementKind::Active { table, offset }, items);
    module.data.add(DataKind::Passive, b"abc".to_vec());
    module.customs.add("new", vec![1]);
    module
}

fn trap() -> Body {
    Body::from_bytes(b"\0\0\x0B".to_vec())
}

fn other_body() -> Body {
    Body::from_bytes(b"\0\x01\x0B".to_vec())
}

fn name() -> Option<String> {
    Some("other".to_string())
}

fn function<'a>(module: &'a Module, export: &str) -> &'a Function {
    let id = module.exports.get_func(export).expect("a function");
    module.funcs.get(id)
}

fn global<'a>(module: &'a Module, export: &str) -> &'a Global {
    let id = module.exports.by_name(export).expect("an export");
    match module.exports.get(id).item {
        ExportItem::Global(id) => module.globals.get(id),
        other => panic!("{other:?} is no global"),
    }
}

/// The module that comes out where this is changed, which has what it hadn't.
fn comes(mut module: Module, change: impl Fn(&mut Module), holds: impl Fn(&Module) -> bool) {
    assert!(!holds(&module), "it is so before");
    change(&mut module);
    let output = module.emit_wasm().expect("a changed module");
    let output = Module::from_buffer(&output).expect("a module that is accepted");
    assert!(holds(&output), "it comes out otherwise: {output:?}");
}

fn refused(mut module: Module, change: impl Fn(&mut Module), why: &str) {
    change(&mut module);
    let error = module.emit_wasm().expect_err("a refusal");
    assert_eq!(error.to_string(), why);
}

/// Changes a field of one item, and looks for that at one of the output, by the name of an export or
/// by its id; or is refused.
macro_rules! field {
    ($module:ident $arena:ident $id:literal $field:ident = $value:expr) => {
        comes(
            $module(),
            |module| module.$arena.get_mut(Id::at($id)).$field = $value,
            |module| {
                module
                    .$arena
                    .iter()
                    .any(|(id, it)| id.index() == $id && it.$field == $value)
            },
        )
    };
    ($module:ident $arena:ident $id:literal $field:ident = $value:expr, of $of:ident $export:literal) => {
        comes(
            $module(),
            |module| module.$arena.get_mut(Id::at($id)).$field = $value,
            |module| $of(module, $export).$field == $value,
        )
    };
    ($module:ident $arena:ident $id:literal $field:ident = $value:expr, refused $why:literal) => {
        refused(
            $module(),
            |module| module.$arena.get_mut(Id::at($id)).$field = $value,
            $why,
        )
    };
}

/// All that the tests below change, each as its type and its field.
const TRIED: &[&str] = &[
    "Import.module",
    "Import.name",
    "Export.name",
    "Export.item",
    "Function.kind",
    "Function.name",
    "Table.name",
    "Memory.shared",
    "Memory.memory64",
    "Memory.initial",
    "Memory.maximum",
    "Memory.page_size_log2",
    "Memory.name",
    "Global.ty",
    "Global.mutable",
    "Global.shared",
    "Global.kind",
    "Global.name",
    "Tag.name",
    "Element.name",
    "Data.kind",
    "Data.value",
    "Data.name",
    "RawCustomSection.data",
    "Producer.field",
    "Producer.name",
    "Producer.version",
    "Type.name",
];

/// Fields of values, which an item has whole.
const OF_VALUES: &[&str] = &["RefType.nullable", "RefType.heap_type"];

#[test]
fn no_field_is_left_out() {
    let mut found = Vec::new();
    for line in SOURCES.iter().flat_map(|source| source.lines()) {
        if let Some(rest) = line.strip_prefix("pub struct ") {
            let end = rest.find([' ', '(']).expect("an end of the name");
            found.push((rest[..end].to_string(), Vec::new()));
        } else if let Some(rest) = line.strip_prefix("    pub ") {
            if let (Some((field, _)), Some((_, fields))) = (rest.split_once(": "), found.last_mut())
            {
                if !field.contains(['(', ' ']) {
                    fields.push(field.to_string());
                }
            }
        }
    }
    let each = found
        .iter()
        .flat_map(|(of, fields)| fields.iter().map(move |it| format!("{of}.{it}")));
    let each: Vec<String> = each
        .filter(|it| !OF_VALUES.contains(&it.as_str()))
        .collect();
    assert_eq!(each, TRIED);
}

#[test]
fn own_items() {
    field!(own types 1 name = name());
    field!(own imports 0 module = "other".to_string());
    field!(own imports 0 name = "other".to_string());
    field!(own exports 0 name = "other".to_string());
    field!(own exports 0 item = ExportItem::Table(TableId::at(0)));
    field!(own funcs 1 kind = FunctionKind::Local(trap()), of function "run");
    field!(own funcs 1 kind = FunctionKind::Import(Id::at(0)), refused "function 1: its import can't be changed");
    field!(own funcs 1 name = name(), of function "run");
    field!(own tables 0 name = name());
    field!(own memories 0 initial = 2);
    field!(own memories 0 maximum = Some(3));
    field!(own memories 0 page_size_log2 = Some(0));
    field!(own memories 0 name = name());
    field!(own globals 0 ty = ValType::Ref(RefType::FUNCREF), of global "value");
    field!(own globals 0 mutable = true, of global "value");
    field!(own globals 0 shared = true, of global "value");
    field!(own globals 0 kind = GlobalKind::Local(ConstExpr::i64(7)), of global "value");
    field!(own globals 0 kind = GlobalKind::Import(Id::at(0)), refused "global 0: it can't come to be imported");
    field!(own globals 0 name = name(), of global "value");
    field!(own tags 0 name = name());
    field!(own elements 0 name = name());
    field!(own data 0 kind = DataKind::Passive);
    field!(own data 0 value = b"longer".to_vec());
    field!(own data 0 name = name());
    field!(own customs 0 data = vec![7]);
    let share = |module: &mut Module| {
        let memory = module.memories.get_mut(MemoryId::at(0));
        (memory.shared, memory.maximum) = (true, Some(3));
    };
    comes(own(), share, |module| {
        module.memories.get(MemoryId::at(0)).shared
    });
    // The offset of a segment has the type of the memory's addresses.
    let widen = |module: &mut Module| {
        module.memories.get_mut(MemoryId::at(0)).memory64 = true;
        module.data.delete(Id::at(0));
    };
    comes(own(), widen, |module| {
        module.memories.get(MemoryId::at(0)).memory64
    });
}

#[test]
fn imported_items() {
    field!(brought tables 0 name = name());
    field!(brought memories 0 initial = 2);
    field!(brought memories 0 maximum = Some(3));
    field!(brought memories 0 memory64 = true);
    field!(brought memories 0 page_size_log2 = Some(0));
    field!(brought memories 0 name = name());
    let share = |module: &mut Module| {
        let memory = module.memories.get_mut(MemoryId::at(0));
        (memory.shared, memory.maximum) = (true, Some(3));
    };
    comes(brought(), share, |module| {
        module.memories.get(MemoryId::at(0)).shared
    });
    field!(brought globals 0 ty = ValType::I64, refused "global 0: its `ty` can't be changed, since an import brings it");
    field!(brought globals 0 mutable = true, refused "global 0: its `mutable` can't be changed, since an import brings it");
    field!(brought globals 0 shared = true, refused "global 0: its `shared` can't be changed, since an import brings it");
    field!(brought globals 0 kind = GlobalKind::Import(Id::at(1)), refused "global 0: its import can't be changed");
    field!(brought globals 0 kind = GlobalKind::Local(ConstExpr::i32(7)), of global "G");
    field!(brought globals 0 name = name(), of global "G");
    field!(brought tags 0 name = name());
    field!(brought funcs 0 kind = FunctionKind::Local(trap()), of function "F");
    field!(brought funcs 0 kind = FunctionKind::Import(Id::at(0)), refused "function 0: its import can't be changed");
    field!(brought funcs 0 name = name(), of function "F");
}

/// Of the module with more, function 2 and global 1 are its own, and those behind them imported.
#[test]
fn items_that_come() {
    field!(added types 2 name = name());
    field!(added imports 1 module = "other".to_string());
    field!(added imports 1 name = "other".to_string());
    field!(added exports 2 name = "other".to_string());
    field!(added exports 2 item = ExportItem::Table(TableId::at(0)));
    field!(added funcs 2 kind = FunctionKind::Local(other_body()), of function "new");
    field!(added funcs 2 kind = FunctionKind::Import(Id::at(0)), refused "function 2: its import can't be changed");
    field!(added funcs 2 name = name(), of function "new");
    field!(added funcs 3 kind = FunctionKind::Local(trap()), of function "n");
    field!(added funcs 3 kind = FunctionKind::Import(Id::at(0)), refused "function 3: its import can't be changed");
    field!(added funcs 3 name = name(), of function "n");
    field!(added globals 1 ty = ValType::Ref(RefType::FUNCREF), of global "g");
    field!(added globals 1 mutable = false, of global "g");
    field!(added globals 1 shared = true, of global "g");
    field!(added globals 1 kind = GlobalKind::Local(ConstExpr::i64(7)), of global "g");
    field!(added globals 1 name = name(), of global "g");
    field!(added globals 2 ty = ValType::F64, of global "brought");
    field!(added globals 2 mutable = false, of global "brought");
    field!(added globals 2 shared = true, of global "brought");
    field!(added globals 2 kind = GlobalKind::Local(ConstExpr::i64(7)), of global "brought");
    field!(added globals 2 name = name(), of global "brought");
    field!(added elements 1 name = name());
    field!(added data 1 kind = DataKind::Active { memory: MemoryId::at(0), offset: ConstExpr::i32(9) });
    field!(added data 1 value = b"longer".to_vec());
    field!(added data 1 name = name());
    field!(added customs 1 data = vec![7]);
}

#[test]
fn producers_and_the_module() {
    let has = |field: &'static str, name: &'static str, version: &'static str| {
        move |module: &Module| {
            let mut all = module.producers.0.iter();
            all.any(|it| (&it.field[..], &it.name[..], &it.version[..]) == (field, name, version))
        }
    };
    let set = |module: &mut Module, field: &str| module.producers.0[0].field = field.to_string();
    comes(own(), |module| set(module, "sdk"), has("sdk", "C", "11"));
    let why = "producer 0: its field isn't `language`, `processed-by` or `sdk`";
    refused(own(), |module| set(module, "other"), why);
    comes(
        own(),
        |module| module.producers.0[0].name = "D".to_string(),
        has("language", "D", "11"),
    );
    comes(
        own(),
        |module| module.producers.0[0].version = "17".to_string(),
        has("language", "C", "17"),
    );
    comes(own(), |module| module.name = name(), |it| it.name == name());
    let start = |module: &mut Module| module.start = Some(FunctionId::at(0));
    comes(own(), start, |it| it.start == Some(FunctionId::at(0)));
}

/// A function that is another one's copy, but for its body, has that one's names of locals.
#[test]
fn names_of_locals_stay_with_a_body() {
    let input = module_of(&[
        (1, b"\x01\x60\x01\x7F\0"),
        (3, b"\x02\0\0"),
        (10, b"\x02\x02\0\x0B\x02\0\x0B"),
        (0, b"\x04name\x02\x06\x01\0\x01\0\x01x"),
    ]);
    let module = Module::from_buffer(&input).expect("a module");
    let copy = |module: &mut Module| {
        let mut other = module.funcs.get(FunctionId::at(0)).clone();
        other.kind = module.funcs.get(FunctionId::at(1)).kind.clone();
        *module.funcs.get_mut(FunctionId::at(1)) = other;
    };
    let why = "function 1: the names of its locals can't be changed";
    refused(module, copy, why);
}

/// Ids are what the calls answer.
#[test]
fn items_have_the_next_ids() {
    let module = added();
    assert_eq!(module.exports.get_func("new"), Some(FunctionId::at(2)));
    assert!(module.types.try_get(TypeId::at(2)).is_some());
    assert!(module.globals.try_get(GlobalId::at(3)).is_none());
}
