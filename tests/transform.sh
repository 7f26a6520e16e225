#!/usr/bin/env bash
# Compares the code transform of real modules with what wabt's wasm-objdump finds in the same bytes.
# tests/transform.sh [FOLDER..], where none is given tests/samples and, where it is there, ../shared/samples.
# transform.py says in what. The program that tells the transform is made in a copy of the crates, with nothing proved (tools/unproved.sh), since it is
# for this script alone. No part of the gate; where wabt (Debian's package of that name, which tools/install.sh puts in) isn't there, nothing is run,
# and the status is 2.
set -eu
top=$(cd "$(dirname "$0")/.." && pwd)
command -v wasm-objdump > /dev/null || { echo "tests/transform.sh: there is no wasm-objdump, so nothing is run" >&2; exit 2; }
if [ $# = 0 ]; then
  set -- "$top/tests/samples"
  [ ! -d "$top/../shared/samples" ] || set -- "$@" "$top/../shared/samples"
fi
work=$(mktemp -d)
trap 'rm -rf "$work"' EXIT
mkdir "$work/top"
tar -C "$top" --exclude=out -c crates crates.txt HANDLES tools/build.sh tools/heartbeat.sh tools/unproved.sh | tar -C "$work/top" -x
mkdir -p "$work/top/crates/moved/src"
echo "moved: walrus" >> "$work/top/crates.txt"
printf '\0asm\1\0\0\0' > "$work/top/crates/moved/stdin"
printf 'count 0\nbytes 8\n\0asm\1\0\0\0' > "$work/top/crates/moved/stdout"
cat > "$work/top/crates/moved/src/main.rt" << 'RATTLE'
//! A module on standard input is parsed and written; its code transform comes out as lines of text, and then the bytes.
#![tactic(auto)]

use std::alloc::Global;
use std::io::{Read, Write};
use std::process::ExitCode;
use walrus::{CodeTransform, Module, ModuleConfig, Result};

fn written(alloc: Global, bytes: &[u8]) -> Result<(Vec<u8>, CodeTransform)> {
    let mut config = ModuleConfig::new();
    config.preserve_code_transform(true);
    config.generate_producers_section(false);
    let mut module = config.parse(alloc, bytes)?;
    module.emit_wasm_with_transform(alloc)
}

fn main(rt: HostRuntime) -> ExitCode {
    let mut bytes = Vec::new(rt.alloc());
    let _read = rt.stdin().read_to_end(&mut bytes);
    match written(rt.alloc(), bytes.as_slice()) {
        Ok((output, transform)) => {
            for (id, range) in transform.function_ranges.iter() {
                let _told = println!(rt; "range {} {} {}", id.index(), range.start, range.end);
            }
            let _told = println!(rt; "count {}", transform.code_section_start);
            for (location, place) in transform.instruction_map.iter() {
                let _told = println!(rt; "place {} {}", location.value(), place);
            }
            let _told = println!(rt; "bytes {}", output.len());
            let _written = rt.stdout().write_all(output.as_slice());
            ExitCode::SUCCESS
        }
        Err(error) => {
            let _told = eprintln!(rt; "{error}");
            ExitCode::from(1)
        }
    }
}
RATTLE
"$work/top/tools/unproved.sh" "$work/moved" moved
find "$@" -maxdepth 1 -name '*.wasm' -printf '%f\t%p\n' | sort -u -t "$(printf '\t')" -k 1,1 | cut -f 2 > "$work/modules"
mapfile -t modules < "$work/modules"
python3 "$top/tests/transform.py" "$work/moved" "${modules[@]}"
