//! The last step of a build: makes a module smaller in its place.
//!
//!     cargo run --release --example shrink_last -- --no-names FILE
//!
//! The words are those of `walrus-gc`: `--no-names`, `--no-producers`, `--no-legacy`. The smaller
//! module is written beside the file and then takes its name, so that whoever looks finds the one
//! or the other. Prints both sizes; where anything fails, the file is as it was, and what is wrong
//! with it is told.

use mulkavesh::{gc, Flags, Roots};
use std::error::Error;
use std::fs::{self, OpenOptions};
use std::io::{self, Write};
use std::path::{Path, PathBuf};
use std::process::{id, ExitCode};

const USAGE: &str = "usage: shrink_last [--no-names] [--no-producers] [--no-legacy] FILE";

/// What the words ask for, or none where they are others.
fn asked(words: impl Iterator<Item = std::ffi::OsString>) -> Option<(Flags, PathBuf)> {
    let mut flags = Flags::default();
    let mut file = None;
    for word in words {
        match word.to_str() {
            Some("--no-names") => flags.no_names = true,
            Some("--no-producers") => flags.no_producers = true,
            Some("--no-legacy") => flags.no_legacy = true,
            Some(other) if other.starts_with('-') => return None,
            _ if file.is_some() => return None,
            _ => file = Some(PathBuf::from(word)),
        }
    }
    Some((flags, file?))
}

/// A name for a file beside this one.
fn beside(file: &Path) -> PathBuf {
    let mut name = file.as_os_str().to_owned();
    name.push(format!(".{}.smaller", id()));
    PathBuf::from(name)
}

/// Writes a new file that may be read and written as the other one may.
fn write_like(new: &Path, like: &Path, bytes: &[u8]) -> io::Result<()> {
    let mut to = OpenOptions::new().write(true).create_new(true).open(new)?;
    to.set_permissions(fs::metadata(like)?.permissions())?;
    to.write_all(bytes)
}

/// Puts the bytes in the place of the file's.
fn replace(file: &Path, bytes: &[u8]) -> io::Result<()> {
    let new = beside(file);
    let replaced = write_like(&new, file, bytes).and_then(|()| fs::rename(&new, file));
    if replaced.is_err() {
        // There may be none; what went wrong is told anyhow.
        let _ = fs::remove_file(&new);
    }
    replaced
}

/// Makes the module in the file smaller, and gives both sizes.
fn shrink(file: &Path, flags: Flags) -> Result<(usize, usize), Box<dyn Error>> {
    // What a link leads to is replaced, and not the link.
    let file = fs::canonicalize(file)?;
    let input = fs::read(&file)?;
    let output = gc(&input, flags, Roots::default())?;
    replace(&file, &output)?;
    Ok((input.len(), output.len()))
}

fn main() -> ExitCode {
    let (flags, file) = match asked(std::env::args_os().skip(1)) {
        Some(asked) => asked,
        None => {
            eprintln!("{USAGE}");
            return ExitCode::from(2);
        }
    };
    match shrink(&file, flags) {
        Ok((old, new)) => {
            println!("{}: {old} bytes, now {new}", file.display());
            ExitCode::SUCCESS
        }
        Err(error) => {
            eprintln!("shrink_last: {}: {error}", file.display());
            ExitCode::FAILURE
        }
    }
}
