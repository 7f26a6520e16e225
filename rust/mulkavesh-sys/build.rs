//! Tells the linker where the static library is: in the folder that MULKAVESH_LIB names, or else
//! where `tools/build.sh mulkavesh_c` leaves it in this repository.

use std::env;
use std::path::PathBuf;
use std::process::exit;

const VARIABLE: &str = "MULKAVESH_LIB";

const ARCHIVE: &str = "libmulkavesh.a";

/// The folder that the variable names, where it names one.
fn named() -> Option<PathBuf> {
    let folder = env::var_os(VARIABLE)?;
    if folder.is_empty() {
        return None;
    }
    Some(PathBuf::from(folder))
}

/// The folder that the repository builds into.
fn built() -> PathBuf {
    let package = env::var_os("CARGO_MANIFEST_DIR").expect("cargo names the folder of the package");
    PathBuf::from(package).join("../../crates/mulkavesh_c/out/lib")
}

fn main() {
    println!("cargo:rerun-if-env-changed={VARIABLE}");
    let folder = named().unwrap_or_else(built);
    let archive = folder.join(ARCHIVE);
    println!("cargo:rerun-if-changed={}", archive.display());
    if !archive.is_file() {
        eprintln!("mulkavesh-sys: there is no {}", archive.display());
        eprintln!("mulkavesh-sys: let {VARIABLE} name, by its full path, the folder of {ARCHIVE},");
        eprintln!("mulkavesh-sys: or run tools/build.sh mulkavesh_c in the repository");
        exit(1);
    }
    println!("cargo:rustc-link-search=native={}", folder.display());
    println!("cargo:rustc-link-lib=static=mulkavesh");
}
