//! Gives the functions that are imported from WASI bodies, so that a module runs where there is none:
//! those with a result answer `ENOSYS`, those with none do nothing, and `proc_exit` traps.
//!
//!     cargo run --release --example stub_wasi -- IN OUT [MODULE]

use mulkavesh::module::{Body, FunctionId, ImportKind, InstrSeqBuilder, Module, TypeId, ValType};
use std::{env, error::Error, fs};

const ENOSYS: i32 = 52;

/// The functions that come from this module, with their names there.
fn imported(module: &Module, from: &str) -> Vec<(FunctionId, String)> {
    let all = module.imports.iter().filter(|(_, it)| it.module == from);
    all.filter_map(|(_, it)| match it.kind() {
        ImportKind::Function(id) => Some((id, it.name.clone())),
        _ => None,
    })
    .collect()
}

/// What such a function does.
fn stub(module: &Module, ty: TypeId, name: &str) -> Body {
    let mut operators = InstrSeqBuilder::new();
    match module.types.get(ty).as_function() {
        Some((_, [])) if name != "proc_exit" => {}
        Some((_, [ValType::I32])) => {
            operators.i32_const(ENOSYS);
        }
        _ => {
            operators.unreachable();
        }
    }
    operators.body(&[])
}

fn main() -> Result<(), Box<dyn Error>> {
    let words: Vec<String> = env::args().skip(1).collect();
    let (input, output, from) = match &words[..] {
        [input, output] => (input, output, "wasi_snapshot_preview1"),
        [input, output, from] => (input, output, from.as_str()),
        _ => return Err("usage: stub_wasi IN OUT [MODULE]".into()),
    };
    let mut module = Module::from_buffer(&fs::read(input)?)?;
    let found = imported(&module, from);
    for (id, name) in &found {
        let body = stub(&module, module.funcs.get(*id).ty(), name);
        module.replace_imported_func(*id, body)?;
    }
    println!("{} functions have a body now", found.len());
    fs::write(output, module.emit_wasm()?)?;
    Ok(())
}
