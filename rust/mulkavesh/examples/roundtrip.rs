//! Reads a module and writes it, first as it is, and then with an item more of each kind that can be
//! added; and reads that again.
//!
//!     cargo run --release --example roundtrip -- IN OUT

use mulkavesh::module::{
    opcodes::I64_ADD, ConstExpr, DataKind, ElementItems, ElementKind, FunctionId, GlobalId,
    InstrSeqBuilder, Module, ValType,
};
use std::{env, error::Error, fs};

/// A function of two parameters and two locals of its own.
fn add_function(module: &mut Module) -> FunctionId {
    let ty = module
        .types
        .add(&[ValType::I64, ValType::F32], &[ValType::I64]);
    let mut operators = InstrSeqBuilder::new();
    operators.local_get(0).i64_const(-5).op(I64_ADD);
    let body = operators.body(&[ValType::F64, ValType::I32]);
    let id = module.funcs.add_local(ty, body);
    module.funcs.get_mut(id).name = Some("less_five".to_string());
    id
}

/// A function that counts its calls in a global.
fn add_counter(module: &mut Module) -> (FunctionId, GlobalId) {
    let count = module
        .globals
        .add_local(ValType::I64, true, false, ConstExpr::i64(0));
    let mut operators = InstrSeqBuilder::new();
    operators
        .global_get(count)
        .i64_const(1)
        .op(I64_ADD)
        .global_set(count);
    let ty = module.types.add(&[], &[]);
    (module.funcs.add_local(ty, operators.body(&[])), count)
}

fn main() -> Result<(), Box<dyn Error>> {
    let words: Vec<String> = env::args().skip(1).collect();
    let (input, output) = match &words[..] {
        [input, output] => (input, output),
        _ => return Err("usage: roundtrip IN OUT".into()),
    };
    let mut module = Module::from_buffer(&fs::read(input)?)?;
    assert!(module.edits()?.is_empty(), "nothing has changed");
    let plain = module.emit_wasm()?;
    let function = add_function(&mut module);
    let (counter, count) = add_counter(&mut module);
    module.exports.add("less_five", function);
    module.exports.add("counter", counter);
    module.exports.add("count", count);
    let listed = ElementItems::Functions(vec![function, counter]);
    module.elements.add(ElementKind::Declared, listed);
    module.data.add(DataKind::Passive, b"passive".to_vec());
    module.customs.add("note", b"hello".to_vec());
    module.name = Some("more".to_string());
    let more = module.emit_wasm()?;
    let again = Module::from_buffer(&more)?;
    assert_eq!(again.name.as_deref(), Some("more"));
    assert_eq!(again.funcs.len(), module.funcs.len());
    assert!(again.exports.get_func("less_five").is_some());
    println!("{} bytes, and {} with more", plain.len(), more.len());
    fs::write(output, more)?;
    Ok(())
}
