//! Has each function trap whose name has one of these words in it, and drops what nothing reaches then.
//!
//!     cargo run --release --example snip_pattern -- IN OUT WORD..

use mulkavesh::module::{FunctionKind, InstrSeqBuilder, Module};
use std::{env, error::Error, fs};

/// How many functions trap now.
fn snip(module: &mut Module, words: &[String]) -> usize {
    let trap = InstrSeqBuilder::new().unreachable().body(&[]);
    let mut count = 0;
    for (_, function) in module.funcs.iter_mut() {
        let name = function.name.as_deref().unwrap_or("");
        let fits = words.iter().any(|word| name.contains(word.as_str()));
        if fits && function.body().is_some() {
            function.kind = FunctionKind::Local(trap.clone());
            count += 1;
        }
    }
    count
}

fn main() -> Result<(), Box<dyn Error>> {
    let words: Vec<String> = env::args().skip(1).collect();
    let (input, output) = match &words[..] {
        [input, output, _, ..] => (input, output),
        _ => return Err("usage: snip_pattern IN OUT WORD..".into()),
    };
    let mut module = Module::from_buffer(&fs::read(input)?)?;
    println!("{} functions trap", snip(&mut module, &words[2..]));
    module.collects = true;
    fs::write(output, module.emit_wasm()?)?;
    Ok(())
}
