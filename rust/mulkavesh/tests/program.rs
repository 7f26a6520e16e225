//! Holds the library against the program `walrus-gc`: the same bytes, and the same refusals. The
//! program is the one that MULKAVESH_PROGRAM names, or else the one that `tools/build.sh walrus_gc`
//! leaves in the repository; where there is none, nothing is compared.

mod support;

use mulkavesh::{diagnose, gc, report, Counts, Error, Fault, Flags, Report, Roots};
use std::env;
use std::io::Write;
use std::path::{Path, PathBuf};
use std::process::{Command, Output, Stdio};
use std::thread;

const VARIABLE: &str = "MULKAVESH_PROGRAM";

/// What the program tells where the input is no module.
const INVALID: &str = "walrus-gc: The input WebAssembly is invalid\n";

/// Of larger modules no mutants are made.
const MOST_BYTES_OF_A_MUTANT: usize = 3_000;

const MUTANTS_OF_A_MODULE: usize = 32;

/// The program, where there is one.
fn program() -> Option<PathBuf> {
    if let Some(named) = env::var_os(VARIABLE).filter(|name| !name.is_empty()) {
        let named = PathBuf::from(named);
        assert!(named.is_file(), "{VARIABLE} names {}", named.display());
        return Some(named);
    }
    let built = support::repository().join("crates/walrus_gc/out/walrus_gc");
    if built.is_file() {
        return Some(built);
    }
    support::say(&format!(
        "not compared: the program, since there is no {}, and {VARIABLE} names none",
        built.display()
    ));
    None
}

/// The flags whose bits are set in the number.
fn flags(bits: u32) -> Flags {
    Flags {
        no_names: bits & 1 != 0,
        no_producers: bits & 2 != 0,
        no_legacy: bits & 4 != 0,
    }
}

/// The words by which the program is told the flags.
fn words(flags: Flags) -> Vec<&'static str> {
    let words = [
        (flags.no_names, "--no-names"),
        (flags.no_producers, "--no-producers"),
        (flags.no_legacy, "--no-legacy"),
    ];
    let asked = words.iter().filter(|(is_asked, _)| *is_asked);
    asked.map(|(_, word)| *word).collect()
}

/// What the program does with the input.
fn run(program: &Path, words: &[&str], input: &[u8]) -> Output {
    let mut child = Command::new(program)
        .args(words)
        .stdin(Stdio::piped())
        .stdout(Stdio::piped())
        .stderr(Stdio::piped())
        .spawn()
        .expect("the program starts");
    let mut pipe = child.stdin.take().expect("a pipe");
    thread::scope(|scope| {
        scope.spawn(move || pipe.write_all(input).expect("the program reads its input"));
        child.wait_with_output().expect("the program ends")
    })
}

/// What the library has to answer, by what the program did, and by the fault where it refuses.
fn wanted(output: Output, fault: Option<Fault>) -> Result<Vec<u8>, Error> {
    let told = String::from_utf8(output.stderr).expect("a line of text");
    let refusal = match (output.status.code(), told.as_str()) {
        (Some(0), "") => return Ok(output.stdout),
        (Some(1), INVALID) => Error::Invalid(fault.expect("a fault")),
        (Some(1), "walrus-gc: a count or size passes 32 bits\n") => Error::TooLarge,
        (Some(1), "walrus-gc: out of memory\n") => Error::NoMemory,
        other => panic!("the program ended with {other:?}"),
    };
    assert!(output.stdout.is_empty(), "bytes of a refusal");
    Err(refusal)
}

/// The lines of the program for items that are kept and dropped.
fn lines(report: Report) -> String {
    let kinds = [
        ("functions", report.functions),
        ("tables", report.tables),
        ("memories", report.memories),
        ("tags", report.tags),
        ("globals", report.globals),
        ("elements", report.elements),
        ("data", report.data),
    ];
    let line = |(kind, counts): (&str, Counts)| {
        let Counts { kept, dropped } = counts;
        format!("{kind} kept {kept} dropped {dropped}\n")
    };
    kinds.into_iter().map(line).collect()
}

/// The first place where two answers differ.
fn difference(found: &[u8], wanted: &[u8]) -> String {
    let place = found.iter().zip(wanted).take_while(|(a, b)| a == b).count();
    let sizes = (found.len(), wanted.len());
    format!("{} bytes and not {}, from {place} on", sizes.0, sizes.1)
}

/// Compares an answer with what the program did.
fn compare(found: Result<Vec<u8>, Error>, output: Output, fault: Option<Fault>, what: &str) {
    match (found, wanted(output, fault)) {
        (Ok(found), Ok(wanted)) => {
            assert!(found == wanted, "{what}: {}", difference(&found, &wanted))
        }
        (found, wanted) => assert_eq!(found.err(), wanted.err(), "{what}"),
    }
}

/// What is wrong with the input: nothing, exactly where the program accepts it.
fn fault_of(input: &[u8], flags: Flags, output: &Output, what: &str) -> Option<Fault> {
    let accepted = output.stderr != INVALID.as_bytes();
    let fault = diagnose(input, flags).expect("enough memory");
    assert_eq!(fault.is_none(), accepted, "{what}: {fault:?}");
    fault
}

/// Compares the calls under these flags.
fn compare_all(program: &Path, input: &[u8], flags: Flags, what: &str) {
    let mut words = words(flags);
    let what = format!("{what} {words:?}");
    let output = run(program, &words, input);
    let fault = fault_of(input, flags, &output, &what);
    let smaller = gc(input, flags, Roots::default());
    let told = report(input, flags, Roots::default());
    if let (Ok(smaller), Ok(told)) = (&smaller, &told) {
        let sizes = (input.len() as u64, smaller.len() as u64);
        assert_eq!((told.bytes.read, told.bytes.written), sizes, "{what}");
    }
    compare(smaller, output, fault, &what);
    words.push("--report");
    let lines = told.map(|told| lines(told).into_bytes());
    compare(lines, run(program, &words, input), fault, &what);
}

#[test]
fn modules_come_out_as_the_program_writes_them() {
    let program = match program() {
        Some(program) => program,
        None => return,
    };
    let samples = support::samples();
    for sample in &samples {
        for bits in 0..8 {
            let what = sample.path.display().to_string();
            compare_all(&program, &sample.bytes, flags(bits), &what);
        }
    }
    let count = samples.len();
    support::say(&format!(
        "compared: {count} modules under 8 sets of flags, gc, report and diagnose, with the program"
    ));
}

/// The module cut at a place, or with another byte there.
fn mutant(module: &[u8], which: usize) -> Vec<u8> {
    let place = module.len() * which / MUTANTS_OF_A_MODULE;
    let mut bytes = module.to_vec();
    match which % 2 {
        0 => bytes.truncate(place),
        _ => bytes[place] ^= 1,
    }
    bytes
}

#[test]
fn mutants_are_refused_as_the_program_refuses_them() {
    let program = match program() {
        Some(program) => program,
        None => return,
    };
    let (mut taken, mut refused) = (0, 0);
    for sample in support::samples() {
        if sample.bytes.len() > MOST_BYTES_OF_A_MUTANT {
            continue;
        }
        for which in 0..MUTANTS_OF_A_MODULE {
            let bytes = mutant(&sample.bytes, which);
            let what = format!("mutant {which} of {}", sample.path.display());
            compare_all(&program, &bytes, Flags::default(), &what);
            match gc(&bytes, Flags::default(), Roots::default()) {
                Ok(_) => taken += 1,
                Err(_) => refused += 1,
            }
        }
    }
    support::say(&format!(
        "compared: {taken} mutants that are taken and {refused} that are refused, with the program"
    ));
}
