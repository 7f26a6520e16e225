//! What is wrong with bytes, as it was worked out by hand in the file tests/faults.txt of the
//! repository, and the words for it.

use mulkavesh::{
    callers, diagnose, dropped, exports, gc, imports, list, report, sections, snip, strip, stub,
    why, Beginning, Error, Fault, Flags, Roots, Rule,
};

/// All exports stay.
const ALL: Roots<'static> = Roots {
    keep: &[],
    drop: &[],
};

/// One of these NAMEs fits no export, and that isn't looked at where the bytes are none.
const UNFIT: Roots<'static> = Roots {
    keep: &["none"],
    drop: &[],
};

/// The lines, of which those that begin with `#` say why.
const LINES: &str = include_str!("../../../tests/faults.txt");

/// What bytes begin as, by the numbers from 0 on.
const BEGINNINGS: [Beginning; 11] = [
    Beginning::Other,
    Beginning::Empty,
    Beginning::Cut,
    Beginning::Gzip,
    Beginning::Zip,
    Beginning::Zstd,
    Beginning::Elf,
    Beginning::Bitcode,
    Beginning::Text,
    Beginning::Component,
    Beginning::OtherVersion,
];

/// The rules, by their numbers from 1 on.
const RULES: [Rule; 10] = [
    Rule::Order,
    Rule::Types,
    Rule::Indices,
    Rule::FunctionTypes,
    Rule::Limits,
    Rule::Counts,
    Rule::ExportNames,
    Rule::Start,
    Rule::Offsets,
    Rule::Locals,
];

/// A line of the file: the flags, what is wrong, the bytes, and the words.
struct Line {
    flags: Flags,
    fault: Option<Fault>,
    bytes: Vec<u8>,
    words: String,
}

/// What these two numbers tell.
fn fault(kind: u32, number: u32) -> Option<Fault> {
    match (kind, number) {
        (0, 0) => None,
        (1, begins) => Some(Fault::Header(BEGINNINGS[begins as usize])),
        (2, place) => Some(Fault::Section(place)),
        (3, rule) => Some(Fault::Rule(RULES[rule as usize - 1])),
        (4, index) => Some(Fault::Body(index)),
        other => panic!("no fault has the numbers {other:?}"),
    }
}

fn line(text: &str) -> Line {
    let parts: Vec<&str> = text.split('|').collect();
    let numbers = parts[0].split_whitespace();
    let numbers: Vec<u32> = numbers.map(|it| it.parse().expect("a number")).collect();
    let byte = |digits| u8::from_str_radix(digits, 16).expect("two digits");
    Line {
        flags: Flags {
            no_names: numbers[0] & 1 != 0,
            no_producers: numbers[0] & 2 != 0,
            no_legacy: numbers[0] & 4 != 0,
        },
        fault: fault(numbers[1], numbers[2]),
        bytes: parts[1].split_whitespace().map(byte).collect(),
        words: parts[2].trim().to_string(),
    }
}

fn lines() -> Vec<Line> {
    let is_line = |it: &&str| !it.is_empty() && !it.starts_with('#');
    LINES.lines().filter(is_line).map(line).collect()
}

#[test]
fn faults_are_told() {
    let lines = lines();
    assert!(lines.len() > 13, "a line for each kind and each rule");
    for it in &lines {
        let found = diagnose(&it.bytes, it.flags);
        assert_eq!(found, Ok(it.fault), "of {:02X?}", it.bytes);
        let words = it.fault.map_or(String::new(), |fault| fault.to_string());
        assert_eq!(words, it.words);
    }
}

/// The error, but where it is only that there is nothing of a name or index.
fn refusal<T>(answer: Result<T, Error>) -> Option<Error> {
    answer.err().filter(|error| *error != Error::NotFound)
}

#[test]
fn a_refusal_has_the_fault() {
    for it in lines() {
        let wanted = it.fault.map(Error::Invalid);
        let (bytes, flags) = (&it.bytes, it.flags);
        let found = [
            refusal(gc(bytes, flags, ALL)),
            refusal(report(bytes, flags, ALL)),
            refusal(list(bytes, flags, ALL)),
            refusal(dropped(bytes, flags, ALL)),
            refusal(exports(bytes, flags, ALL)),
            refusal(imports(bytes, flags, ALL)),
            refusal(why(bytes, "0", flags, ALL)),
            refusal(callers(bytes, "none", flags, ALL)),
            refusal(snip(bytes, &["a"], flags)),
            refusal(stub(bytes, &["env"], &[], flags)),
        ];
        assert!(found.iter().all(|it| *it == wanted), "of {bytes:02X?}");
        if wanted.is_some() {
            assert_eq!(gc(bytes, flags, UNFIT).err(), wanted, "of {bytes:02X?}");
        }
    }
}

/// Where what is wrong stands inside sections, they are told, and custom ones go.
#[test]
fn a_refusal_of_the_framing_has_the_fault() {
    let mut whole = 0;
    for it in lines() {
        let told = sections(&it.bytes);
        let is_whole = told.as_ref().map_or(false, |told| told.is_whole);
        let invalid = it.fault.map(Error::Invalid).filter(|_| !is_whole);
        let stripped = refusal(strip(&it.bytes, &["*"], &[]));
        assert_eq!(stripped, invalid, "of {:02X?}", it.bytes);
        let header = invalid.filter(|_| matches!(it.fault, Some(Fault::Header(_))));
        assert_eq!(told.err(), header, "of {:02X?}", it.bytes);
        if !matches!(it.fault, Some(Fault::Header(_) | Fault::Section(_))) {
            assert!(is_whole, "of {:02X?}", it.bytes);
            whole += 1;
        }
    }
    assert!(whole > 11, "one for each rule, and a body");
}

#[test]
fn a_refusal_says_the_fault() {
    // A memory of at least two pages and at most one.
    let module = b"\0asm\x01\0\0\0\x05\x04\x01\x01\x02\x01";
    let refused = why(module, "0", Flags::default(), ALL);
    let text = "the input WebAssembly is invalid: the limits of a table or a memory aren't allowed";
    assert_eq!(
        refused.map_err(|error| error.to_string()),
        Err(text.to_string())
    );
}

#[test]
fn a_beginning_has_the_words_of_its_fault() {
    for begins in BEGINNINGS {
        assert_eq!(begins.to_string(), Fault::Header(begins).to_string());
    }
}

#[test]
fn a_rule_has_the_words_of_its_fault() {
    for rule in RULES {
        assert_eq!(rule.to_string(), Fault::Rule(rule).to_string());
    }
}
