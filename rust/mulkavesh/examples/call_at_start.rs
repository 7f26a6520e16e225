//! Has each function begin with a call of the import `env` `enter`, which is handed the function's index
//! in the input, as a profiler does.
//!
//!     cargo run --release --example call_at_start -- IN OUT

use mulkavesh::module::{InstrSeqBuilder, Module, ValType};
use std::{env, error::Error, fs};

fn main() -> Result<(), Box<dyn Error>> {
    let words: Vec<String> = env::args().skip(1).collect();
    let (input, output) = match &words[..] {
        [input, output] => (input, output),
        _ => return Err("usage: call_at_start IN OUT".into()),
    };
    let mut module = Module::from_buffer(&fs::read(input)?)?;
    let ty = module.types.add(&[ValType::I32], &[]);
    let (enter, _) = module.add_import_func("env", "enter", ty);
    let mut count = 0;
    for (id, body) in module.funcs.iter_local_mut() {
        let mut call = InstrSeqBuilder::new();
        call.i32_const(id.index() as i32).call(enter);
        body.insert_front(&call);
        count += 1;
    }
    println!("{count} functions call it");
    fs::write(output, module.emit_wasm()?)?;
    Ok(())
}
