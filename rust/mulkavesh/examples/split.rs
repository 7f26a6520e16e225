//! Splits functions off, to be loaded later: those of these names come to be imported from `deferred`,
//! what only they reached goes, and each memory is exported for the other half.
//!
//!     cargo run --release --example split -- IN OUT NAME..

use mulkavesh::module::{FunctionId, MemoryId, Module};
use std::{env, error::Error, fs};

/// The functions with a body that are called so.
fn meant(module: &Module, names: &[String]) -> Vec<FunctionId> {
    let all = module.funcs.iter_local().map(|(id, _)| id);
    all.filter(|id| names.contains(&module.called(*id)))
        .collect()
}

fn main() -> Result<(), Box<dyn Error>> {
    let words: Vec<String> = env::args().skip(1).collect();
    let (input, output) = match &words[..] {
        [input, output, _, ..] => (input, output),
        _ => return Err("usage: split IN OUT NAME..".into()),
    };
    let mut module = Module::from_buffer(&fs::read(input)?)?;
    let found = meant(&module, &words[2..]);
    for id in &found {
        let name = module.called(*id);
        module.import_func(*id, "deferred", &name)?;
    }
    let memories: Vec<MemoryId> = module.memories.iter().map(|(id, _)| id).collect();
    for id in memories {
        module.exports.add(&format!("%memory{}", id.index()), id);
    }
    module.collects = true;
    println!("{} functions come from elsewhere", found.len());
    fs::write(output, module.emit_wasm()?)?;
    Ok(())
}
