//! A step of a generator of bindings, as that of wasm-bindgen: it takes the section `descriptors` out,
//! which lists functions, and exports these as `closure_0`, `closure_1` and so on; drops the exports
//! `__describe_..`; has imports come from `./bindings.js`; gives the import `log` a body that hands a
//! new import one argument more; and notes what it did in a section and among the producers.
//!
//!     cargo run --release --example bind -- IN OUT

use mulkavesh::module::{FunctionId, ImportKind, InstrSeqBuilder, Module, ValType};
use std::{env, error::Error, fs};

const FROM: &str = "__placeholder__";

const TO: &str = "./bindings.js";

/// How much a function logs at once.
const LEVEL: i32 = 7;

/// Exports the functions that the section lists, four bytes each.
fn export_closures(module: &mut Module) {
    let section = module.customs.remove_raw("descriptors");
    let listed = section.map_or_else(Vec::new, |it| it.data);
    for (at, index) in listed.chunks_exact(4).enumerate() {
        let index = u32::from_le_bytes(index.try_into().expect("four bytes"));
        module
            .exports
            .add(&format!("closure_{at}"), FunctionId::at(index));
    }
}

fn drop_descriptions(module: &mut Module) {
    let descriptions = module
        .exports
        .ids_where(|it| it.name.starts_with("__describe_"));
    for id in descriptions {
        module.exports.delete(id);
    }
}

/// The imported function `log` comes to call another one, with a number behind its argument.
fn replace_log(module: &mut Module) -> Result<(), Box<dyn Error>> {
    let import = match module.imports.find(TO, "log") {
        Some(import) => module.imports.get(import).kind(),
        None => return Ok(()),
    };
    if let ImportKind::Function(log) = import {
        let ty = module.types.add(&[ValType::I32, ValType::I32], &[]);
        let (with_level, _) = module.add_import_func(TO, "log_with_level", ty);
        let mut call = InstrSeqBuilder::new();
        call.local_get(0).i32_const(LEVEL).call(with_level);
        module.replace_imported_func(log, call.body(&[]))?;
    }
    Ok(())
}

fn main() -> Result<(), Box<dyn Error>> {
    let words: Vec<String> = env::args().skip(1).collect();
    let (input, output) = match &words[..] {
        [input, output] => (input, output),
        _ => return Err("usage: bind IN OUT".into()),
    };
    let mut module = Module::from_buffer(&fs::read(input)?)?;
    export_closures(&mut module);
    drop_descriptions(&mut module);
    for (_, import) in module.imports.iter_mut() {
        if import.module == FROM {
            import.module = TO.to_owned();
        }
    }
    replace_log(&mut module)?;
    module.customs.add("bindings", b"{\"version\":1}".to_vec());
    module.producers.add_processed_by("bind", "1.0");
    module.collects = true;
    fs::write(output, module.emit_wasm()?)?;
    Ok(())
}
