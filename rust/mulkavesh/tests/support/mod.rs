//! The modules of other tools that tests run over.

use std::fs;
use std::io::{self, Write};
use std::path::{Path, PathBuf};

/// A file, and the bytes in it.
pub struct Sample {
    pub path: PathBuf,
    pub bytes: Vec<u8>,
}

/// The folder of the repository.
pub fn repository() -> PathBuf {
    Path::new(env!("CARGO_MANIFEST_DIR")).join("../..")
}

/// Says a line past what the test harness catches.
pub fn say(line: &str) {
    writeln!(io::stderr(), "{line}").expect("a line is said");
}

/// The modules of a folder by their names, none where there is no folder.
fn samples_in(folder: &Path) -> Vec<Sample> {
    let entries = match fs::read_dir(folder) {
        Ok(entries) => entries,
        Err(error) => {
            say(&format!("not compared: {}: {error}", folder.display()));
            return Vec::new();
        }
    };
    let mut paths: Vec<PathBuf> = entries
        .map(|entry| entry.expect("the folder is read").path())
        .filter(|path| path.extension().map_or(false, |end| end == "wasm"))
        .collect();
    paths.sort();
    let read = |path: PathBuf| Sample {
        bytes: fs::read(&path).expect("the module is read"),
        path,
    };
    paths.into_iter().map(read).collect()
}

/// The modules of the repository, and those that are kept beside it.
pub fn samples() -> Vec<Sample> {
    let mut found = samples_in(&repository().join("tests/samples"));
    found.extend(samples_in(&repository().join("../shared/samples")));
    found
}
