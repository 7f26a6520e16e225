//! The programs in the folder `examples` that change modules, each over a module in a file.

#[path = "support/made.rs"]
mod made;
mod support;

use made::module_of;
use mulkavesh::module::{ExportItem, FunctionId, FunctionKind, Module};
use std::env::{current_exe, temp_dir};
use std::fs;
use std::path::PathBuf;
use std::process::{id, Command};
use support::{samples, say};

/// Where cargo leaves the examples, beside the folder of the tests.
fn example(name: &str) -> PathBuf {
    let test = current_exe().expect("a path");
    let built = test.parent().and_then(|deps| deps.parent());
    built.expect("a folder").join("examples").join(name)
}

/// What an example leaves of a module.
fn left(name: &str, input: &[u8], words: &[&str]) -> Vec<u8> {
    let at = |end: &str| temp_dir().join(format!("mulkavesh-{}-{name}.{end}", id()));
    let (source, target) = (at("in"), at("out"));
    fs::write(&source, input).expect("a file is written");
    let mut command = Command::new(example(name));
    let ended = command.arg(&source).arg(&target).args(words).output();
    let ended = ended.expect("the example runs");
    let told = String::from_utf8_lossy(&ended.stderr);
    assert!(ended.status.success(), "{name}: {told}");
    let output = fs::read(&target).expect("a file is left");
    fs::remove_file(source)
        .and(fs::remove_file(target))
        .expect("files go");
    output
}

fn changed(name: &str, input: &[u8], words: &[&str]) -> Module {
    let output = left(name, input, words);
    Module::from_buffer(&output).expect("a module that is accepted")
}

fn body(module: &Module, id: FunctionId) -> Vec<u8> {
    let body = module.funcs.get(id).body().expect("a body");
    body.bytes().into_owned()
}

fn exported(module: &Module, name: &str) -> FunctionId {
    module.exports.get_func(name).expect("an exported function")
}

/// The exported `a` calls `dead_one`, which calls `dead_two`.
fn three() -> Vec<u8> {
    module_of(&[
        (1, b"\x01\x60\0\0"),
        (3, b"\x03\0\0\0"),
        (7, b"\x01\x01a\0\0"),
        (10, b"\x03\x04\0\x10\x01\x0B\x04\0\x10\x02\x0B\x02\0\x0B"),
        (0, b"\x04name\x01\x15\x02\x01\x08dead_one\x02\x08dead_two"),
    ])
}

#[test]
fn snip_pattern_has_functions_trap() {
    let module = changed("snip_pattern", &three(), &["two", "ead_o"]);
    assert_eq!(module.funcs.len(), 2);
    let dead = module.funcs.by_name("dead_one").expect("a function");
    assert_eq!(body(&module, dead), b"\0\0\x0B");
}

#[test]
fn split_has_functions_imported() {
    let module = changed("split", &three(), &["dead_one"]);
    let import = module.imports.find("deferred", "dead_one");
    let dead = module.funcs.by_name("dead_one").expect("a function");
    let brought = FunctionKind::Import(import.expect("an import"));
    assert_eq!(
        (module.funcs.len(), &module.funcs.get(dead).kind),
        (2, &brought)
    );
}

#[test]
fn stub_wasi_gives_imports_bodies() {
    let input = module_of(&[
        (1, b"\x03\x60\x01\x7F\0\x60\x02\x7F\x7F\x01\x7F\x60\0\0"),
        (
            2,
            b"\x03\x04wasi\x09proc_exit\0\0\x04wasi\x05write\0\x01\x04wasi\x05yield\0\x02",
        ),
        (7, b"\x03\x01a\0\0\x01b\0\x01\x01c\0\x02"),
    ]);
    let module = changed("stub_wasi", &input, &["wasi"]);
    assert!(module.imports.is_empty());
    assert_eq!(body(&module, exported(&module, "a")), b"\0\0\x0B");
    assert_eq!(body(&module, exported(&module, "b")), b"\0\x41\x34\x0B");
    assert_eq!(body(&module, exported(&module, "c")), b"\0\x0B");
}

#[test]
fn call_at_start_puts_calls_in_front() {
    let module = changed("call_at_start", &three(), &[]);
    let enter = module.imports.find("env", "enter");
    assert!(enter.is_some() && module.funcs.len() == 4);
    // Function 0 of the input, which calls function 1 of it.
    let front = body(&module, exported(&module, "a"));
    assert_eq!(front[..6], *b"\0\x41\0\x10\0\x10");
}

#[test]
fn bind_does_a_step_of_a_generator() {
    let input = module_of(&[
        (1, b"\x02\x60\x01\x7F\0\x60\0\0"),
        (2, b"\x01\x0F__placeholder__\x03log\0\0"),
        (3, b"\x03\x01\x01\x01"),
        (7, b"\x02\x05greet\0\x01\x10__describe_greet\0\x02"),
        (10, b"\x03\x06\0\x41\x05\x10\0\x0B\x02\0\x0B\x03\0\x01\x0B"),
        (0, b"\x0Bdescriptors\x03\0\0\0"),
    ]);
    let module = changed("bind", &input, &[]);
    let names: Vec<&str> = module.exports.iter().map(|(_, it)| &it.name[..]).collect();
    assert_eq!(names, ["greet", "closure_0"]);
    let import = module.imports.find("./bindings.js", "log_with_level");
    assert_eq!((import.is_some(), module.imports.len()), (true, 1));
    let customs: Vec<&str> = module.customs.iter().map(|(_, it)| it.name()).collect();
    assert_eq!(customs, ["bindings"]);
    // The body that `log` has now.
    let log = body(&module, exported(&module, "greet"))[4];
    let log = FunctionId::at(u32::from(log));
    assert_eq!(body(&module, log), b"\0\x20\0\x41\x07\x10\0\x0B");
    let ours = module.producers.0.iter().any(|it| it.name == "bind");
    assert!(ours);
    assert!(matches!(
        module.exports.get(mulkavesh::module::Id::at(1)).item,
        ExportItem::Function(_)
    ));
}

#[test]
fn roundtrip_takes_modules_of_other_tools() {
    let mut count = 0;
    for sample in samples() {
        if Module::from_buffer(&sample.bytes).is_ok() {
            let module = changed("roundtrip", &sample.bytes, &[]);
            assert!(
                module.exports.by_name("count").is_some(),
                "{:?}",
                sample.path
            );
            count += 1;
        }
    }
    say(&format!(
        "compared: {count} modules by the example roundtrip"
    ));
}
