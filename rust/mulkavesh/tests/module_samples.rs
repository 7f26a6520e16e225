//! Modules that are changed by typed ids, beside what the proved calls make of them, over the modules
//! of other tools.

mod support;

use mulkavesh::module::{
    Body, ExportItem, FunctionId, FunctionKind, ImportKind, InstrSeqBuilder, Module,
};
use mulkavesh::{gc, list, sections, snip, strip, stub, Error, Flags, Roots};
use support::{samples, say, Sample};

/// Of larger modules not all is tried.
const MOST_BYTES: usize = 100_000;

const NO_NAMES: Flags = Flags {
    no_names: true,
    no_producers: false,
    no_legacy: false,
};

fn read(sample: &Sample) -> Module {
    let mut module = Module::from_buffer(&sample.bytes).expect("a module");
    module.collects = true;
    module
}

fn written(module: &Module) -> Vec<u8> {
    module.emit_wasm().expect("a changed module")
}

fn trap() -> Body {
    InstrSeqBuilder::new().unreachable().body(&[])
}

/// The samples that are modules.
fn modules() -> Vec<Sample> {
    let mut found = samples();
    found.retain(|it| !matches!(gc_of(it), Err(Error::Invalid(_))));
    found
}

fn gc_of(sample: &Sample) -> Result<Vec<u8>, Error> {
    gc(&sample.bytes, Flags::default(), Roots::default())
}

#[test]
fn nothing_changed_is_what_gc_writes() {
    let all = modules();
    for sample in &all {
        let module = read(sample);
        assert_eq!(module.edits().as_deref(), Ok(&[][..]), "{:?}", sample.path);
        let wanted = gc_of(sample).expect("a module");
        assert!(written(&module) == wanted, "{:?}", sample.path);
    }
    say(&format!("compared: {} modules as they are", all.len()));
}

/// Each body set anew as its bytes are; names of locals go with that.
#[test]
fn bodies_set_as_they_are_change_nothing() {
    let all = modules();
    for sample in &all {
        let mut module = read(sample);
        module.flags = NO_NAMES;
        for (_, body) in module.funcs.iter_local_mut() {
            *body = Body::from_bytes(body.bytes().into_owned());
        }
        let wanted = gc(&sample.bytes, NO_NAMES, Roots::default()).expect("a module");
        assert!(written(&module) == wanted, "{:?}", sample.path);
    }
    say(&format!("compared: {} modules with bodies set", all.len()));
}

/// The first functions with a body.
fn some_functions(module: &Module) -> Vec<FunctionId> {
    let all = module.funcs.iter_local().map(|(id, _)| id);
    all.take(5).collect()
}

#[test]
fn a_trap_is_what_snip_writes() {
    let mut count = 0;
    for sample in modules() {
        for id in some_functions(&read(&sample)) {
            let mut module = read(&sample);
            module.funcs.get_mut(id).kind = FunctionKind::Local(trap());
            let index = id.index().to_string();
            let wanted = snip(&sample.bytes, &[&index], Flags::default()).expect("a function");
            // Names of locals of the function are gone in the one, and told of nothing in the other.
            assert!(written(&module) == wanted, "{:?}: {index}", sample.path);
            count += 1;
        }
    }
    say(&format!("compared: {count} functions that trap"));
}

#[test]
fn imports_that_trap_are_what_stub_writes() {
    let mut count = 0;
    for sample in modules() {
        let all = read(&sample);
        let mut froms: Vec<&str> = all.imports.iter().map(|(_, it)| &it.module[..]).collect();
        froms.sort_unstable();
        froms.dedup();
        for from in froms {
            let mut module = read(&sample);
            let brought: Vec<FunctionId> = functions_from(&module, from);
            for id in &brought {
                module
                    .replace_imported_func(*id, trap())
                    .expect("an import");
            }
            let stubbed = stub(&sample.bytes, &[from], &[], Flags::default());
            let is_one = !from.contains(['*', '\\']) && !brought.is_empty();
            if is_one {
                assert!(Ok(written(&module)) == stubbed, "{:?}: {from}", sample.path);
                count += 1;
            }
        }
    }
    say(&format!(
        "compared: {count} modules that were imported from"
    ));
}

/// The functions that are imported from this module.
fn functions_from(module: &Module, from: &str) -> Vec<FunctionId> {
    let all = module.imports.iter().filter(|(_, it)| it.module == from);
    all.filter_map(|(_, it)| match it.kind() {
        ImportKind::Function(id) => Some(id),
        _ => None,
    })
    .collect()
}

#[test]
fn fewer_exports_are_what_gc_writes_of_them() {
    let mut count = 0;
    for sample in modules() {
        let names: Vec<String> = read(&sample)
            .exports
            .iter()
            .map(|(_, it)| it.name.clone())
            .collect();
        for name in names
            .iter()
            .take(3)
            .filter(|name| !name.contains(['*', '\\']))
        {
            let mut module = read(&sample);
            for id in module.exports.ids_where(|it| it.name != *name) {
                module.exports.delete(id);
            }
            let keep = [name.as_str()];
            let roots = Roots {
                keep: &keep,
                drop: &[],
            };
            let wanted = gc(&sample.bytes, Flags::default(), roots).expect("a module");
            assert!(written(&module) == wanted, "{:?}: {name}", sample.path);
            count += 1;
        }
    }
    say(&format!("compared: {count} exports alone"));
}

#[test]
fn a_section_that_goes_is_what_strip_leaves() {
    let mut count = 0;
    for sample in modules() {
        let names: Vec<String> = read(&sample)
            .customs
            .iter()
            .map(|(_, it)| it.name().to_owned())
            .collect();
        for name in names.iter().filter(|name| !name.contains(['*', '\\'])) {
            let mut module = read(&sample);
            for id in module.customs.ids_where(|it| it.name() == name) {
                module.customs.delete(id);
            }
            let stripped = strip(&sample.bytes, &[name], &[]).expect("a section");
            let wanted = gc(&stripped, Flags::default(), Roots::default()).expect("a module");
            assert!(written(&module) == wanted, "{:?}: {name}", sample.path);
            count += 1;
        }
    }
    say(&format!("compared: {count} custom sections that go"));
}

/// What stands in front of each body is there, and all else is as it was.
#[test]
fn a_call_at_each_start_is_written() {
    let mut count = 0;
    for sample in modules() {
        let mut module = Module::from_buffer(&sample.bytes).expect("a module");
        let mut first = InstrSeqBuilder::new();
        first.i32_const(123_456).drop_();
        let before = module.funcs.iter_local().count();
        for (_, body) in module.funcs.iter_local_mut() {
            body.insert_front(&first);
        }
        let output = Module::from_buffer(&written(&module)).expect("a module that is accepted");
        for (id, body) in output.funcs.iter_local() {
            let bytes = body.bytes();
            let has = bytes
                .windows(first.bytes().len())
                .any(|part| part == first.bytes());
            assert!(has, "{:?}: {id:?}", sample.path);
            count += 1;
        }
        assert_eq!(
            output.funcs.iter_local().count(),
            before,
            "{:?}",
            sample.path
        );
        let names = |of: &Module| of.funcs.iter().filter(|(_, it)| it.name.is_some()).count();
        assert_eq!(names(&module), names(&output), "{:?}", sample.path);
    }
    say(&format!(
        "compared: {count} functions with operators in front"
    ));
}

/// What is read says what the other calls do.
#[test]
fn what_is_read_is_what_other_calls_tell() {
    for sample in modules() {
        let module = read(&sample);
        let told = mulkavesh::exports(&sample.bytes, Flags::default(), Roots::default());
        let told: Vec<String> = told
            .expect("exports")
            .into_iter()
            .map(|it| it.name)
            .collect();
        let read: Vec<&str> = module.exports.iter().map(|(_, it)| &it.name[..]).collect();
        assert_eq!(told, read, "{:?}", sample.path);
        let found = sections(&sample.bytes).expect("sections").sections;
        let customs = found.iter().filter_map(|it| it.name.as_deref());
        let kept =
            |name: &&str| !["name", "producers"].contains(name) && !name.starts_with(".debug");
        let customs: Vec<&str> = customs.filter(kept).collect();
        let read: Vec<&str> = module.customs.iter().map(|(_, it)| it.name()).collect();
        assert_eq!(customs, read, "{:?}", sample.path);
        for listed in list(&sample.bytes, Flags::default(), Roots::default()).expect("functions") {
            let function = module.funcs.get(FunctionId::at(listed.index));
            assert_eq!(function.name, listed.name, "{:?}", sample.path);
        }
    }
}

/// One edit of each kind, one behind the other, in one module.
#[test]
fn edits_of_all_kinds_go_together() {
    let mut count = 0;
    for sample in modules().iter().filter(|it| it.bytes.len() < MOST_BYTES) {
        let mut module = Module::from_buffer(&sample.bytes).expect("a module");
        let ty = module.types.add(&[], &[]);
        let (from, _) = module.add_import_func("added", "f", ty);
        let own = module
            .funcs
            .add_local(ty, InstrSeqBuilder::new().call(from).body(&[]));
        for (_, import) in module.imports.iter_mut() {
            import.name.insert(0, '_');
        }
        for (_, export) in module.exports.iter_mut() {
            export.name.insert(0, '_');
        }
        module.exports.add("added", own);
        module.customs.add("added", b"1".to_vec());
        module.producers.add_sdk("added", "1");
        module.name = Some("added".to_string());
        let last = module.funcs.iter_local().map(|(id, _)| id).next();
        if let Some(id) = last.filter(|id| *id != own) {
            module.import_func(id, "added", "g").expect("a body");
        }
        let output = Module::from_buffer(&written(&module)).expect("a module that is accepted");
        let export = output.exports.by_name("added").expect("an export");
        assert!(matches!(
            output.exports.get(export).item,
            ExportItem::Function(_)
        ));
        assert_eq!(
            output.exports.len(),
            module.exports.len(),
            "{:?}",
            sample.path
        );
        assert_eq!(
            output.imports.len(),
            module.imports.len(),
            "{:?}",
            sample.path
        );
        assert_eq!(output.funcs.len(), module.funcs.len(), "{:?}", sample.path);
        count += 1;
    }
    say(&format!(
        "compared: {count} modules with edits of all kinds"
    ));
}
