//! Each field of each item of a small module is written, and comes out so or is refused by name.

#[path = "support/made.rs"]
mod made;

use made::module_of;
use mulkavesh::module::{
    opcodes::{DATA_DROP, I32_ADD, I32_LOAD},
    AbstractHeapType, BlockType, Body, Cause, ConstExpr, Data, DataKind, ElementItems, ElementKind,
    Error, ExportItem, FunctionId, FunctionKind, GlobalId, GlobalKind, HeapType, Id, ImportKind,
    InstrSeqBuilder, Item, MemoryId, Module, Producer, RefType, TableId, TypeId, ValType,
};
use mulkavesh::{gc, Beginning, Error as CallError, Fault, Flags, Roots, Rule};

/// A module with an item of each kind, or two. Function 0 and global 0 are imported.
fn input() -> Vec<u8> {
    module_of(&[
        (1, b"\x03\x60\0\0\x60\x01\x7F\x01\x7F\x60\0\x01\x7E"),
        (2, b"\x02\x03env\x01f\0\x01\x03env\x01g\x03\x7F\0"),
        (3, b"\x02\x01\0"),
        (4, b"\x02\x70\x01\x01\x02\x6F\0\0"),
        (5, b"\x01\0\x01"),
        (13, b"\x01\0\0"),
        (6, b"\x02\x7E\x01\x42\x05\x0B\x7F\0\x41\x01\x0B"),
        (7, b"\x02\x03run\0\x01\x03mem\x02\0"),
        (8, b"\x02"),
        (9, b"\x02\0\x41\0\x0B\x01\x01\x01\0\x01\x02"),
        (12, b"\x02"),
        (10, b"\x02\x08\x01\x01\x7F\x20\0\x10\0\x0B\x02\0\x0B"),
        (11, b"\x02\0\x41\x03\x0B\x02ab\x01\x01c"),
        (0, b"\x04note\x01\x02"),
        (0, b"\x05other"),
        (
            0,
            b"\x04name\0\x02\x01m\x01\x07\x01\x01\x04work\x02\x09\x01\x01\x02\0\x01x\x01\x01y",
        ),
        (
            0,
            b"\x09producers\x02\x08language\x01\x01C\x02\x31\x31\x05other\x01\x01t\0",
        ),
    ])
}

fn read() -> Module {
    Module::from_buffer(&input()).expect("a module")
}

/// What comes out of a module, read again.
fn again(module: &Module) -> Module {
    let output = module.emit_wasm().expect("a changed module");
    Module::from_buffer(&output).expect("a module that is accepted")
}

/// What comes out where this is changed.
fn changed(change: impl FnOnce(&mut Module)) -> Module {
    let mut module = read();
    change(&mut module);
    again(&module)
}

/// Why it isn't written where this is changed.
fn refused(change: impl FnOnce(&mut Module)) -> String {
    let mut module = read();
    change(&mut module);
    module.emit_wasm().expect_err("a refusal").to_string()
}

/// The list of edits where this is changed.
fn edits(change: impl FnOnce(&mut Module)) -> Vec<u8> {
    let mut module = read();
    change(&mut module);
    module.edits().expect("a list of edits")
}

fn function(index: u32) -> FunctionId {
    FunctionId::at(index)
}

fn global(index: u32) -> GlobalId {
    GlobalId::at(index)
}

fn global_of(item: ExportItem) -> GlobalId {
    match item {
        ExportItem::Global(id) => id,
        other => panic!("{other:?} is no global"),
    }
}

const TRAP: &[u8] = b"\0\0\x0B";

fn trap() -> Body {
    Body::from_bytes(TRAP.to_vec())
}

// ---- what is read

#[test]
fn all_is_read() {
    let module = read();
    let work = module.funcs.get(function(1));
    assert_eq!(work.name.as_deref(), Some("work"));
    assert_eq!(work.ty(), TypeId::at(1));
    let body = work.body().expect("a body").bytes().into_owned();
    assert_eq!(body, b"\x01\x01\x7F\x20\0\x10\0\x0B");
    let names: Vec<_> = work.local_names().iter().collect();
    assert_eq!(names, [(&0, &"x".to_string()), (&1, &"y".to_string())]);
    let ty = module.types.get(work.ty()).as_function();
    assert_eq!(ty, Some((&[ValType::I32][..], &[ValType::I32][..])));
    let import = module.imports.find("env", "g").expect("an import");
    assert_eq!(
        module.imports.get(import).kind(),
        ImportKind::Global(global(0))
    );
    assert_eq!(
        module.funcs.get(function(0)).kind,
        FunctionKind::Import(Id::at(0))
    );
    let table = module.tables.get(TableId::at(0));
    assert_eq!(
        (table.initial(), table.maximum(), table.table64()),
        (1, Some(2), false)
    );
    assert_eq!(
        (table.element_ty(), table.import()),
        (RefType::FUNCREF, None)
    );
    assert_eq!(
        module.tables.get(TableId::at(1)).element_ty(),
        RefType::EXTERNREF
    );
    assert_eq!(module.memories.get(MemoryId::at(0)).maximum, None);
    assert_eq!(
        module.globals.get(global(1)).kind,
        GlobalKind::Local(ConstExpr::i64(5))
    );
    assert_eq!(module.tags.get(Id::at(0)).ty(), TypeId::at(0));
    assert_eq!(module.exports.get_func("run"), Some(function(1)));
    assert_eq!(module.exports.get_func("mem"), None);
    assert_eq!(module.start, Some(function(2)));
    let listed = module.elements.get(Id::at(0)).items();
    assert_eq!(*listed, ElementItems::Functions(vec![function(1)]));
    assert_eq!(*module.elements.get(Id::at(1)).kind(), ElementKind::Passive);
    assert_eq!(module.data.get(Id::at(0)).value, b"ab");
    let names: Vec<_> = module.customs.iter().map(|(_, it)| it.name()).collect();
    assert_eq!(names, ["note", "other"]);
    assert_eq!(module.producers.0[0].version, "11");
    assert_eq!(module.name.as_deref(), Some("m"));
}

#[test]
fn what_is_no_module_is_refused() {
    let refused = Module::from_buffer(b"").map(drop);
    let fault = Fault::Header(Beginning::Empty);
    assert_eq!(refused, Err(CallError::Invalid(fault)));
}

#[test]
fn nothing_changed_is_no_edit() {
    assert_eq!(edits(|_| {}), b"");
    let mut module = read();
    module.collects = true;
    let collected = gc(&input(), Flags::default(), Roots::default());
    assert_eq!(
        module.emit_wasm().as_ref(),
        collected.as_ref().map_err(|_| &Error::Whole(Cause::Gone))
    );
    // The same value again is no change.
    assert_eq!(
        edits(|module| module.exports.get_mut(Id::at(0)).name = "run".to_string()),
        b""
    );
}

#[test]
fn flags_are_asked_for() {
    let mut module = read();
    module.flags = Flags {
        no_names: true,
        no_producers: true,
        ..Flags::default()
    };
    let bare = module.emit_wasm().expect("a module");
    let holds = |text: &[u8]| bare.windows(text.len()).any(|part| part == text);
    assert!(holds(b"note") && !holds(b"name") && !holds(b"producers"));
}

// ---- each list of edits, byte by byte

#[test]
fn edits_are_as_the_form_says() {
    let export = |module: &mut Module| {
        module.exports.add("f", function(0));
    };
    assert_eq!(edits(export), b"\x07\x05\x01\x01f\0\0");
    let add = |module: &mut Module| {
        let body = InstrSeqBuilder::new().i64_const(42).return_().body(&[]);
        module.funcs.add_local(TypeId::at(2), body);
    };
    let added = b"\x10\x04\x02\0\0\x0B\x11\x07\x0A\x03\0\x42\x2A\x0F\x0B";
    assert_eq!(edits(add), added);
    let set =
        |module: &mut Module| module.funcs.get_mut(function(2)).kind = FunctionKind::Local(trap());
    assert_eq!(edits(set), b"\x11\x05\x0A\x02\0\0\x0B");
    let delete = |module: &mut Module| {
        module.exports.delete(Id::at(0));
    };
    assert_eq!(edits(delete), b"\x12\x02\x07\0");
    assert_eq!(edits(|module| module.start = None), b"\x12\x01\x08");
    let bring = |module: &mut Module| {
        module
            .import_func(function(2), "env", "f5")
            .expect("a body");
    };
    assert_eq!(edits(bring), b"\x13\x09\0\x02\x03env\x02f5");
    let name = |module: &mut Module| module.funcs.get_mut(function(2)).name = Some("f".to_string());
    assert_eq!(edits(name), b"\x14\x04\x0A\x02\x01f");
    let nameless = |module: &mut Module| module.funcs.get_mut(function(1)).name = None;
    assert_eq!(edits(nameless), b"\x14\x02\x0A\x01");
    let front = |module: &mut Module| {
        let mut call = InstrSeqBuilder::new();
        call.call(function(2));
        module
            .funcs
            .iter_local_mut()
            .next()
            .expect("a body")
            .1
            .insert_front(&call);
    };
    assert_eq!(edits(front), b"\x17\x03\x01\x10\x02");
}

// ---- types

#[test]
fn types_have_names_and_come() {
    let named =
        changed(|module| module.types.get_mut(TypeId::at(1)).name = Some("unary".to_string()));
    let names: Vec<_> = named
        .types
        .iter()
        .filter_map(|(_, it)| it.name.as_deref())
        .collect();
    assert_eq!(names, ["unary"]);
    let output = changed(|module| {
        assert_eq!(
            module.types.add(&[ValType::I32], &[ValType::I32]),
            TypeId::at(1)
        );
        let of_any = RefType {
            nullable: false,
            heap_type: HeapType::Abstract(AbstractHeapType::Any),
        };
        let of_type = RefType {
            nullable: true,
            heap_type: HeapType::Concrete(TypeId::at(0)),
        };
        let params = [ValType::Ref(of_any), ValType::Ref(of_type), ValType::V128];
        let ty = module.types.add(&params, &[]);
        let id = module.funcs.add_local(ty, trap());
        module.exports.add("typed", id);
    });
    let typed = output.exports.get_func("typed").expect("an export");
    let ty = output.types.get(output.funcs.get(typed).ty());
    assert_eq!(ty.as_function().expect("a type of functions").0.len(), 3);
    let other = refused(|module| {
        let other = module.types.get(TypeId::at(0)).clone();
        *module.types.get_mut(TypeId::at(1)) = other;
    });
    assert_eq!(other, "type 1: nothing but its name can be changed");
}

// ---- imports and exports

#[test]
fn imports_have_other_names() {
    let output = changed(|module| {
        for (_, import) in module.imports.iter_mut() {
            import.module = "./env.js".to_string();
            import.name.push('2');
        }
    });
    assert!(output.imports.find("./env.js", "f2").is_some());
    assert!(output.imports.find("./env.js", "g2").is_some());
    let other = refused(|module| {
        let other = module.imports.get(Id::at(1)).clone();
        *module.imports.get_mut(Id::at(0)) = other;
    });
    assert_eq!(other, "import 0: what it brings can't be changed");
    let gone = refused(|module| module.imports = Default::default());
    assert_eq!(gone, "import 0: an item of its kind can't go");
}

#[test]
fn exports_are_written() {
    let output = changed(|module| {
        let export = module.exports.get_mut(Id::at(0));
        export.name = "start".to_string();
        export.item = TableId::at(1).into();
        module.exports.add("é", global(0));
        module.exports.delete(Id::at(1));
    });
    let found: Vec<_> = output
        .exports
        .iter()
        .map(|(_, it)| (it.name.as_str(), it.item))
        .collect();
    let table = ExportItem::Table(TableId::at(1));
    assert_eq!(
        found,
        [("start", table), ("é", ExportItem::Global(global(0)))]
    );
    assert!(changed(|module| drop(module.exports.remove("run")))
        .exports
        .get_func("run")
        .is_none());
    let nothing = refused(|module| {
        module.exports.add("g", function(9));
    });
    assert_eq!(nothing, "export 2: what it exports isn't there");
    let twice = refused(|module| {
        module.exports.add("run", function(0));
    });
    let text = "the changed module is invalid: two exports have the same name";
    assert_eq!(twice, text);
}

// ---- functions

#[test]
fn a_body_is_set() {
    let output = changed(|module| {
        let mut operators = InstrSeqBuilder::new();
        operators.local_get(0).local_get(1).op(I32_ADD);
        let body = operators.body(&[ValType::I32]);
        module.funcs.get_mut(function(1)).kind = FunctionKind::Local(body);
    });
    let run = output.exports.get_func("run").expect("an export");
    let body = output
        .funcs
        .get(run)
        .body()
        .expect("a body")
        .bytes()
        .into_owned();
    assert_eq!(body, b"\x01\x01\x7F\x20\0\x20\x01\x6A\x0B");
    // Its name stays, and those of its locals are gone.
    assert_eq!(output.funcs.get(run).name.as_deref(), Some("work"));
    assert!(output.funcs.get(run).local_names().is_empty());
    let open = refused(|module| {
        let body = InstrSeqBuilder::new().block(BlockType::NoResult).body(&[]);
        module.funcs.get_mut(function(1)).kind = FunctionKind::Local(body);
    });
    let text = "function 1: its body isn't well formed, or names what isn't there";
    assert_eq!(open, text);
    let many = refused(|module| {
        let body = Body::from_bytes(b"\x01\xFF\xFF\xFF\xFF\x0F\x7F\0\x0B".to_vec());
        module.funcs.add_local(TypeId::at(0), body);
    });
    assert_eq!(
        many,
        "function 3: its body isn't well formed, or names what isn't there"
    );
}

#[test]
fn operators_stand_in_front() {
    let output = changed(|module| {
        for (id, body) in module.funcs.iter_local_mut() {
            let mut first = InstrSeqBuilder::new();
            first.i32_const(id.index() as i32).drop_();
            body.insert_front(&first);
            // What is put later stands before it.
            body.insert_front(InstrSeqBuilder::new().block(BlockType::NoResult).end());
        }
    });
    let run = output.exports.get_func("run").expect("an export");
    let body = output
        .funcs
        .get(run)
        .body()
        .expect("a body")
        .bytes()
        .into_owned();
    assert_eq!(body, b"\0\x02\x40\x0B\x41\x01\x1A\x20\0\x10\0\x0B");
    // Names of locals stay, but a local that isn't used goes.
    assert_eq!(
        output
            .funcs
            .get(run)
            .local_names()
            .get(&0)
            .map(String::as_str),
        Some("x")
    );
    let wrong = refused(|module| {
        let (_, body) = module.funcs.iter_local_mut().last().expect("a body");
        body.insert_front(InstrSeqBuilder::new().call(function(7)));
    });
    let text =
        "function 2: what stands in front of its body isn't well formed, or names what isn't there";
    assert_eq!(wrong, text);
    // A local of its own isn't one of those that operators in front may name.
    let local = refused(|module| {
        let (_, body) = module.funcs.iter_local_mut().next().expect("a body");
        body.insert_front(InstrSeqBuilder::new().local_get(1).drop_());
    });
    assert!(
        local.starts_with("function 1: what stands in front"),
        "{local}"
    );
}

#[test]
fn functions_come_and_call_one_another() {
    let output = changed(|module| {
        let ty = module.types.add(&[], &[]);
        let (from, _) = module.add_import_func("env", "more", ty);
        let first = module.funcs.add_local(ty, trap());
        let second = module
            .funcs
            .add_local(ty, InstrSeqBuilder::new().call(first).call(from).body(&[]));
        let body = InstrSeqBuilder::new().call(second).body(&[]);
        module.funcs.get_mut(first).kind = FunctionKind::Local(body);
        module.exports.add("first", first);
        assert_eq!(module.called(from), "more");
        assert_eq!(module.called(first), format!("function[{}]", first.index()));
    });
    let first = output.exports.get_func("first").expect("an export");
    let called = output
        .funcs
        .get(first)
        .body()
        .expect("a body")
        .bytes()
        .into_owned();
    let second = function(u32::from(called[2]));
    let body = output
        .funcs
        .get(second)
        .body()
        .expect("a body")
        .bytes()
        .into_owned();
    assert_eq!(body, [0, 0x10, first.index() as u8, 0x10, 1, 0x0B]);
    let nothing = refused(|module| {
        module.funcs.add_local(TypeId::at(9), trap());
    });
    assert_eq!(
        nothing,
        "function 3: its type isn't there, or isn't one of functions"
    );
}

#[test]
fn an_import_becomes_a_function() {
    let by_call = changed(|module| {
        module
            .replace_imported_func(function(0), trap())
            .expect("an import");
    });
    let by_field =
        changed(|module| module.funcs.get_mut(function(0)).kind = FunctionKind::Local(trap()));
    for output in [by_call, by_field] {
        assert_eq!((output.imports.len(), output.funcs.len()), (1, 3));
    }
    let mut module = read();
    let error = module
        .replace_imported_func(function(1), trap())
        .expect_err("a refusal");
    assert_eq!(error, Error::Item(Item::Function(1), "it isn't imported"));
    // Its import is gone, so that its names can't be other ones.
    let renamed = refused(|module| {
        module.funcs.get_mut(function(0)).kind = FunctionKind::Local(trap());
        module.imports.get_mut(Id::at(0)).name = "h".to_string();
    });
    assert_eq!(
        renamed,
        "import 0: it is gone, since what it brought is the module's own"
    );
}

#[test]
fn a_function_becomes_an_import() {
    let output = changed(|module| {
        module
            .import_func(function(2), "later", "b")
            .expect("a body");
        module
            .import_func(function(1), "later", "a")
            .expect("a body");
        let error = module
            .import_func(function(1), "x", "y")
            .expect_err("a refusal");
        assert_eq!(error.to_string(), "function 1: it has no body");
    });
    let names: Vec<_> = output
        .imports
        .iter()
        .map(|(_, it)| it.name.as_str())
        .collect();
    // Imports stand in the order in which they came.
    assert_eq!(names, ["f", "g", "b", "a"]);
    let run = output.exports.get_func("run").expect("an export");
    assert_eq!(output.funcs.get(run).kind, FunctionKind::Import(Id::at(3)));
    assert_eq!(output.funcs.get(run).name.as_deref(), Some("work"));
    let other =
        refused(|module| module.funcs.get_mut(function(2)).kind = FunctionKind::Import(Id::at(0)));
    assert_eq!(other, "function 2: its import can't be changed");
    let other =
        refused(|module| module.funcs.get_mut(function(0)).kind = FunctionKind::Import(Id::at(1)));
    assert_eq!(other, "function 0: its import can't be changed");
}

#[test]
fn an_exported_function_is_replaced() {
    let output = changed(|module| {
        let new = module
            .replace_exported_func(function(1), trap())
            .expect("an export");
        assert_eq!(new, function(3));
        let error = module
            .replace_exported_func(function(0), trap())
            .expect_err("a refusal");
        assert_eq!(error.to_string(), "function 0: it isn't exported");
    });
    let run = output.exports.get_func("run").expect("an export");
    assert_eq!(output.funcs.get(run).body().expect("a body").bytes(), TRAP);
    assert_eq!(output.funcs.len(), 4);
}

#[test]
fn a_type_of_a_function_is_refused() {
    let other = refused(|module| {
        let other = module.funcs.get(function(2)).clone();
        *module.funcs.get_mut(function(1)) = other;
    });
    assert_eq!(other, "function 1: its type can't be changed");
    let gone = refused(|module| module.funcs = Default::default());
    assert_eq!(gone, "function 0: an item of its kind can't go");
}

#[test]
fn a_body_of_another_module_is_its_bytes() {
    let other = module_of(&[
        (1, b"\x01\x60\0\0"),
        (3, b"\x01\0"),
        (10, b"\x01\x05\0\x01\x01\x01\x0B"),
    ]);
    let other = Module::from_buffer(&other).expect("a module");
    let body = other.funcs.get(function(0)).body().expect("a body").clone();
    let output =
        changed(|module| module.funcs.get_mut(function(2)).kind = FunctionKind::Local(body));
    let start = output.start.expect("a start function");
    let body = output
        .funcs
        .get(start)
        .body()
        .expect("a body")
        .bytes()
        .into_owned();
    assert_eq!(body, b"\0\x01\x01\x01\x0B");
}

// ---- tables, memories, globals and tags

#[test]
fn tables_and_tags_have_names_alone() {
    let output = changed(|module| {
        module.tables.get_mut(TableId::at(1)).name = Some("t".to_string());
        module.tags.get_mut(Id::at(0)).name = Some("e".to_string());
    });
    assert_eq!(output.tables.get(TableId::at(1)).name.as_deref(), Some("t"));
    assert_eq!(output.tags.get(Id::at(0)).name.as_deref(), Some("e"));
    let other = refused(|module| {
        let other = module.tables.get(TableId::at(0)).clone();
        *module.tables.get_mut(TableId::at(1)) = other;
    });
    assert_eq!(other, "table 1: nothing but its name can be changed");
    let gone = refused(|module| module.tags = Default::default());
    assert_eq!(gone, "tag 0: an item of its kind can't go");
}

#[test]
fn a_memory_has_other_limits() {
    let set = |change: fn(&mut mulkavesh::module::Memory)| {
        let output = changed(|module| change(module.memories.get_mut(MemoryId::at(0))));
        output.memories.get(MemoryId::at(0)).clone()
    };
    assert_eq!(set(|memory| memory.initial = 2).initial, 2);
    assert_eq!(set(|memory| memory.maximum = Some(9)).maximum, Some(9));
    let shared = set(|memory| {
        memory.shared = true;
        memory.maximum = Some(3);
    });
    assert!(shared.shared);
    assert_eq!(
        set(|memory| memory.page_size_log2 = Some(0)).page_size_log2,
        Some(0)
    );
    assert_eq!(
        set(|memory| memory.name = Some("m".to_string()))
            .name
            .as_deref(),
        Some("m")
    );
    let output = changed(|module| {
        module.memories.get_mut(MemoryId::at(0)).memory64 = true;
        module.data.delete(Id::at(0));
    });
    assert!(output.memories.get(MemoryId::at(0)).memory64);
    let mut module = read();
    module.memories.get_mut(MemoryId::at(0)).maximum = Some(0);
    let wrong = Err(Error::Whole(Cause::Rule(Rule::Limits)));
    assert_eq!(module.emit_wasm(), wrong);
    let more = refused(|module| {
        let other = module.memories.clone();
        module.memories = Default::default();
        drop(other);
    });
    assert_eq!(more, "memory 0: an item of its kind can't go");
}

#[test]
fn a_global_is_written() {
    let output = changed(|module| {
        let global = module.globals.get_mut(global(1));
        global.ty = ValType::F64;
        global.mutable = false;
        global.kind = GlobalKind::Local(ConstExpr::f64(1.5_f64.to_bits()));
        global.name = Some("x".to_string());
    });
    let found = output.globals.get(global(1));
    assert_eq!(
        (found.ty, found.mutable, found.shared),
        (ValType::F64, false, false)
    );
    let bits = ConstExpr::f64(0x3FF8_0000_0000_0000);
    assert_eq!(found.kind, GlobalKind::Local(bits));
    assert_eq!(found.name.as_deref(), Some("x"));
    let shared = changed(|module| module.globals.get_mut(global(2)).shared = true);
    assert!(shared.globals.get(global(2)).shared);
    let none = refused(|module| {
        module.globals.get_mut(global(1)).kind = GlobalKind::Local(ConstExpr::global(global(7)));
    });
    let text = "global 1: its type or its initialiser isn't well formed, or names what isn't there";
    assert_eq!(none, text);
    let other =
        refused(|module| module.globals.get_mut(global(1)).kind = GlobalKind::Import(Id::at(1)));
    assert_eq!(other, "global 1: it can't come to be imported");
}

#[test]
fn an_imported_global_becomes_the_modules_own() {
    let output = changed(|module| {
        let global = module.globals.get_mut(global(0));
        global.kind = GlobalKind::Local(ConstExpr::i32(-7));
        module
            .exports
            .add("g", Id::<mulkavesh::module::Global>::at(0));
    });
    assert_eq!(output.imports.len(), 1);
    let export = output.exports.by_name("g").expect("an export");
    let id = global_of(output.exports.get(export).item);
    assert_eq!(
        output.globals.get(id).kind,
        GlobalKind::Local(ConstExpr::i32(-7))
    );
    let wider = refused(|module| module.globals.get_mut(global(0)).ty = ValType::I64);
    assert_eq!(
        wider,
        "global 0: its `ty` can't be changed, since an import brings it"
    );
}

#[test]
fn globals_come() {
    let output = changed(|module| {
        let (brought, _) = module.add_import_global("env", "h", ValType::F32, false, false);
        let null = ConstExpr::ref_null(HeapType::Abstract(AbstractHeapType::Extern));
        let of_extern = ValType::Ref(RefType::EXTERNREF);
        let own = module.globals.add_local(of_extern, true, false, null);
        let copy = module
            .globals
            .add_local(ValType::F32, false, false, ConstExpr::global(brought));
        module.exports.add("own", own);
        module.exports.add("copy", copy);
        module.globals.get_mut(copy).name = Some("copy".to_string());
        let of_func = ConstExpr::ref_func(function(1));
        module
            .globals
            .add_local(ValType::Ref(RefType::FUNCREF), false, false, of_func);
    });
    assert_eq!(output.globals.len(), 7);
    let copy = output.exports.by_name("copy").expect("an export");
    let copy = global_of(output.exports.get(copy).item);
    assert_eq!(output.globals.get(copy).name.as_deref(), Some("copy"));
    assert_eq!(
        output.globals.get(copy).kind,
        GlobalKind::Local(ConstExpr::global(global(1)))
    );
}

// ---- the start function, segments and custom sections

#[test]
fn the_start_function_is_set() {
    assert_eq!(changed(|module| module.start = None).start, None);
    let other = changed(|module| {
        let ty = module.types.add(&[], &[]);
        let id = module.funcs.add_local(ty, trap());
        module.start = Some(id);
    });
    let start = other.start.expect("a start function");
    assert_eq!(other.funcs.get(start).body().expect("a body").bytes(), TRAP);
    assert_eq!(
        refused(|module| module.start = Some(function(9))),
        "the start function: it isn't there"
    );
    let mut module = read();
    module.start = Some(function(1));
    assert_eq!(
        module.emit_wasm(),
        Err(Error::Whole(Cause::Rule(Rule::Start)))
    );
}

#[test]
fn element_segments_come_and_go() {
    let output = changed(|module| {
        module.elements.delete(Id::at(0));
        module.elements.get_mut(Id::at(1)).name = Some("passive".to_string());
        let table = TableId::at(0);
        let offset = ConstExpr::i32(1);
        let all = vec![
            ConstExpr::ref_func(function(0)),
            ConstExpr::ref_func(function(2)),
        ];
        let items = ElementItems::Expressions(RefType::FUNCREF, all);
        module
            .elements
            .add(ElementKind::Active { table, offset }, items);
        let declared = ElementItems::Functions(vec![function(1)]);
        module.elements.add(ElementKind::Declared, declared);
    });
    let kinds: Vec<_> = output
        .elements
        .iter()
        .map(|(_, it)| it.kind().clone())
        .collect();
    let (table, offset) = (TableId::at(0), ConstExpr::i32(1));
    assert_eq!(
        kinds,
        [
            ElementKind::Passive,
            ElementKind::Active { table, offset },
            ElementKind::Declared
        ]
    );
    let named = output.elements.get(Id::at(0));
    assert_eq!(named.name.as_deref(), Some("passive"));
    let other = refused(|module| {
        let other = module.elements.get(Id::at(0)).clone();
        *module.elements.get_mut(Id::at(1)) = other;
    });
    assert_eq!(
        other,
        "element segment 1: nothing but its name can be changed"
    );
    let nothing = refused(|module| {
        let (table, offset) = (TableId::at(7), ConstExpr::i32(0));
        let items = ElementItems::Functions(Vec::new());
        module
            .elements
            .add(ElementKind::Active { table, offset }, items);
    });
    let text = "element segment 2: its table, its offset or what it lists isn't there, or isn't well formed";
    assert_eq!(nothing, text);
}

#[test]
fn data_segments_are_written() {
    let output = changed(|module| {
        let first = module.data.get_mut(Id::at(0));
        first.value = b"longer".to_vec();
        first.kind = DataKind::Active {
            memory: MemoryId::at(0),
            offset: ConstExpr::global(global(0)),
        };
        first.name = Some("d".to_string());
        module.data.delete(Id::at(1));
        module.data.add(DataKind::Passive, b"new".to_vec());
    });
    let all: Vec<&Data> = output.data.iter().map(|(_, it)| it).collect();
    assert_eq!(
        (all[0].value.as_slice(), all[1].value.as_slice()),
        (&b"longer"[..], &b"new"[..])
    );
    assert_eq!(
        (all[0].name.as_deref(), &all[1].kind),
        (Some("d"), &DataKind::Passive)
    );
    assert_eq!(all.len(), 2);
    let nothing = refused(|module| {
        let (memory, offset) = (MemoryId::at(1), ConstExpr::i32(0));
        module.data.get_mut(Id::at(1)).kind = DataKind::Active { memory, offset };
    });
    let text = "data segment 1: its memory isn't there, or its offset isn't well formed";
    assert_eq!(nothing, text);
}

#[test]
fn a_segment_that_came_and_went_has_an_id() {
    let output = changed(|module| {
        let gone = module.data.add(DataKind::Passive, b"gone".to_vec());
        let stays = module.data.add(DataKind::Passive, b"stays".to_vec());
        module.data.delete(gone);
        let empty = ElementItems::Functions(Vec::new());
        let gone = module.elements.add(ElementKind::Passive, empty);
        module.elements.delete(gone);
        let mut operators = InstrSeqBuilder::new();
        operators.op(DATA_DROP).raw(&[stays.index() as u8]);
        let body = operators.body(&[]);
        module.funcs.get_mut(function(2)).kind = FunctionKind::Local(body);
    });
    let values: Vec<_> = output
        .data
        .iter()
        .map(|(_, it)| it.value.as_slice())
        .collect();
    assert_eq!(values, [&b"ab"[..], b"c", b"stays"]);
    let start = output.start.expect("a start function");
    let body = output
        .funcs
        .get(start)
        .body()
        .expect("a body")
        .bytes()
        .into_owned();
    assert_eq!(body, b"\0\xFC\x09\x02\x0B");
}

#[test]
fn custom_sections_are_written() {
    let output = changed(|module| {
        module.customs.get_mut(Id::at(0)).data = b"new".to_vec();
        module.customs.remove_raw("other");
        module.customs.add("more", b"123".to_vec());
    });
    let found: Vec<_> = output
        .customs
        .iter()
        .map(|(_, it)| (it.name(), it.data.as_slice()))
        .collect();
    assert_eq!(found, [("note", &b"new"[..]), ("more", &b"123"[..])]);
    let other = refused(|module| {
        let other = module.customs.get(Id::at(1)).clone();
        *module.customs.get_mut(Id::at(0)) = other;
    });
    assert_eq!(other, "custom section 0: its name can't be changed");
    for name in ["name", "producers", ".debug_info"] {
        let own = refused(|module| {
            module.customs.add(name, Vec::new());
        });
        let text = "custom section 2: the library writes sections of its name itself, or none";
        assert_eq!(own, text);
    }
}

#[test]
fn producers_are_written() {
    let found = |module: Module| -> Vec<String> {
        let all = module.producers.0.into_iter();
        all.map(|it| format!("{} {} {}", it.field, it.name, it.version))
            .collect()
    };
    let ours = "processed-by walrus 0.28.0";
    let output = changed(|module| {
        module.producers.add_language("C", "17");
        module.producers.add_language("D", "2");
        module.producers.add_sdk("kit", "");
        module.producers.add_processed_by("tool", "1.0");
    });
    let tool = "processed-by tool 1.0";
    let wanted = [
        "language C 17",
        "language D 2",
        "other t ",
        ours,
        tool,
        "sdk kit ",
    ];
    assert_eq!(found(output), wanted);
    assert_eq!(found(changed(|module| module.producers.clear())), [ours]);
    let fewer = changed(|module| {
        module.producers.0.remove(1);
    });
    assert_eq!(found(fewer), ["language C 11", ours]);
    let other = refused(|module| {
        module.producers.0.remove(0);
    });
    assert_eq!(
        other,
        "producer 0: its field isn't `language`, `processed-by` or `sdk`"
    );
    let twice = refused(|module| {
        let same = module.producers.0[0].clone();
        module.producers.0.push(Producer {
            version: "3".to_string(),
            ..same
        });
    });
    assert_eq!(
        twice,
        "producer 3: one of its name stands before it in its field"
    );
}

#[test]
fn the_module_has_another_name() {
    let named = changed(|module| module.name = Some("other".to_string()));
    assert_eq!(named.name.as_deref(), Some("other"));
    assert_eq!(changed(|module| module.name = None).name, None);
}

// ---- operators

#[test]
fn operators_are_spelled() {
    let mut all = InstrSeqBuilder::new();
    all.block(BlockType::OneResult(ValType::I32))
        .loop_(BlockType::OfType(TypeId::at(64)));
    all.if_(BlockType::NoResult).else_().br(1).br_if(0).end();
    all.load(I32_LOAD, MemoryId::at(0), 2, 300)
        .store(0x36, MemoryId::at(1), 0, 1);
    all.f32_const(1)
        .f64_const(2)
        .local_set(3)
        .local_tee(128)
        .select()
        .ref_func(function(4));
    all.call_indirect(TypeId::at(1), TableId::at(2))
        .op(0xFD_00AE);
    let wanted: &[&[u8]] = &[
        b"\x02\x7F\x03\xC0\0\x04\x40\x05\x0C\x01\x0D\0\x0B",
        b"\x28\x02\xAC\x02\x36\x40\x01\x01",
        b"\x43\x01\0\0\0\x44\x02\0\0\0\0\0\0\0\x21\x03\x22\x80\x01\x1B\xD2\x04",
        b"\x11\x01\x02\xFD\xAE\x01",
    ];
    assert_eq!(all.bytes(), wanted.concat());
}
