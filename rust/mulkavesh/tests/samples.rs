//! Holds the calls against each other, over the modules of other tools.

mod support;

use mulkavesh::{
    callers, dropped, exports, gc, imports, list, parts, report, sections, snip, strip, why, Error,
    Flags, Kind, Listed, Part, Report, Roots,
};
use std::ops::Range;
use std::thread;
use support::Sample;

/// Of larger modules not each function is asked for.
const MOST_BYTES_OF_CHAINS: usize = 100_000;

const THREADS: usize = 4;

const TURNS: usize = 10;

const SECTION_OF_ANY: u8 = 0;

const SECTION_OF_CODE: u8 = 10;

/// A custom section, the start function, and a data count.
const WITHOUT_ENTRIES: [u8; 3] = [SECTION_OF_ANY, 8, 12];

/// The number that begins at a place, and the place behind it.
fn number(bytes: &[u8], place: usize) -> (usize, usize) {
    let (mut number, mut shift, mut at) = (0, 0, place);
    loop {
        number |= usize::from(bytes[at] & 127) << shift;
        shift += 7;
        at += 1;
        if bytes[at - 1] < 128 {
            return (number, at);
        }
    }
}

/// A section of a module.
struct Framed<'a> {
    id: u8,
    /// Where its id stands, and where what is behind it does.
    range: Range<usize>,
    content: &'a [u8],
}

impl Framed<'_> {
    /// The name of a custom section.
    fn name(&self) -> Option<&str> {
        if self.id != SECTION_OF_ANY {
            return None;
        }
        let (length, start) = number(self.content, 0);
        let name = &self.content[start..start + length];
        Some(std::str::from_utf8(name).expect("a name"))
    }

    /// The count in front of the content, but of a custom section and of the index of a function.
    fn entries(&self) -> Option<u32> {
        let has_entries = !WITHOUT_ENTRIES.contains(&self.id);
        has_entries.then(|| number(self.content, 0).0 as u32)
    }
}

/// The sections of a module.
fn framed(module: &[u8]) -> Vec<Framed<'_>> {
    let (mut found, mut at) = (Vec::new(), 8);
    while at < module.len() {
        let (size, start) = number(module, at + 1);
        found.push(Framed {
            id: module[at],
            range: at..start + size,
            content: &module[start..start + size],
        });
        at = start + size;
    }
    found
}

/// The module without the custom sections that a test of their names takes, and how many these are.
fn without(module: &[u8], goes: impl Fn(&str) -> bool) -> (Vec<u8>, usize) {
    let (mut left, mut count) = (module[..8].to_vec(), 0);
    for section in framed(module) {
        match section.name() {
            Some(name) if goes(name) => count += 1,
            _ => left.extend_from_slice(&module[section.range]),
        }
    }
    (left, count)
}

/// The sizes of the bodies in a module, from small to large.
fn sizes_of_bodies(module: &[u8]) -> Vec<usize> {
    let framed = framed(module);
    let content = match framed.iter().find(|it| it.id == SECTION_OF_CODE) {
        Some(section) => section.content,
        None => return Vec::new(),
    };
    let (count, mut at) = number(content, 0);
    let mut sizes = Vec::new();
    for _ in 0..count {
        let (size, start) = number(content, at);
        sizes.push(size);
        at = start + size;
    }
    assert_eq!(at, content.len(), "the bodies fill the section");
    sizes.sort_unstable();
    sizes
}

const FLAGS: Flags = Flags {
    no_names: false,
    no_producers: false,
    no_legacy: false,
};

const ALL: Roots<'static> = Roots {
    keep: &[],
    drop: &[],
};

/// The list is one of the bodies that are written, by rising index.
fn is_of_bodies(list: &[Listed], output: &[u8]) {
    let mut sizes: Vec<usize> = list.iter().map(|listed| listed.size as usize).collect();
    sizes.sort_unstable();
    assert_eq!(sizes, sizes_of_bodies(output));
    assert!(list.windows(2).all(|two| two[0].index < two[1].index));
}

/// How many functions stay where this one, which has a body, traps.
fn left_without(input: &[u8], index: u32) -> u64 {
    let snipped = snip(input, &[&index.to_string()], FLAGS).expect("a module");
    report(&snipped, FLAGS, ALL)
        .expect("a report")
        .functions
        .kept
}

/// Whether the function is reached; then the chain ends in it, the one before it is among those that
/// refer to it, and as many would go with it as aren't left where it traps.
fn is_reached(input: &[u8], index: u32, kept: u64) -> bool {
    let text = index.to_string();
    let found = why(input, &text, FLAGS, ALL).expect("a reason");
    assert_eq!((found.kind, found.index), (Kind::Function, index));
    assert_eq!(found.links.is_empty(), found.root.is_none());
    if let Some(alone) = found.alone {
        let gone = kept - left_without(input, index);
        assert_eq!(u64::from(alone.functions), gone + 1, "of {index}");
    }
    let referring = callers(input, &text, FLAGS, ALL).expect("callers");
    match &found.links[..] {
        [] => return false,
        [.., before, last] => {
            assert_eq!((last.kind, last.index), (Kind::Function, index));
            assert!(referring.contains(before), "{before:?}");
        }
        [one] => assert_eq!((one.kind, one.index), (Kind::Function, index)),
    }
    true
}

/// Those that stay are as many as the report says: imported ones, and behind them the listed ones.
fn is_of_report(list: &[Listed], input: &[u8], report: &Report) {
    let (kept, dropped) = (report.functions.kept, report.functions.dropped);
    let listed = list.len() as u64;
    assert!(listed <= kept, "{listed} are listed of {kept}");
    if input.len() > MOST_BYTES_OF_CHAINS {
        return;
    }
    let count = (kept + dropped) as u32;
    let reached: Vec<u32> = (0..count)
        .filter(|index| is_reached(input, *index, kept))
        .collect();
    assert_eq!(reached.len() as u64, kept);
    let indices: Vec<u32> = list.iter().map(|listed| listed.index).collect();
    assert_eq!(reached[reached.len() - list.len()..], indices);
    let behind = why(input, &count.to_string(), FLAGS, ALL);
    assert_eq!(behind, Err(Error::NotFound));
}

#[test]
fn lists_agree_with_reports_and_chains() {
    let samples = support::samples();
    for Sample { path, bytes } in &samples {
        println!("{}", path.display());
        let listed = list(bytes, FLAGS, ALL).expect("a list");
        is_of_bodies(&listed, &gc(bytes, FLAGS, ALL).expect("a module"));
        is_of_report(
            &listed,
            bytes,
            &report(bytes, FLAGS, ALL).expect("a report"),
        );
    }
    let count = samples.len();
    support::say(&format!("compared: the lists of {count} modules"));
}

/// A NAME, and a test of names that says the same.
type Named = (&'static str, fn(&str) -> bool);

const NOTHING: Named = (r"\*", |_| false);

#[test]
fn custom_sections_go_and_all_else_stays_as_it_is() {
    let choices: [(Named, Named); 5] = [
        ((".debug*", |name| name.starts_with(".debug")), NOTHING),
        (("*", |_| true), NOTHING),
        (("*", |_| true), ("name", |name| name == "name")),
        (
            ("*e*", |name| name.contains('e')),
            ("*_*", |name| name.contains('_')),
        ),
        (("producers", |name| name == "producers"), NOTHING),
    ];
    let mut gone = 0;
    for Sample { path, bytes } in support::samples() {
        for (goes, stays) in choices {
            let wanted = match without(&bytes, goes.1) {
                (_, 0) => Err(Error::NotFound),
                _ => Ok(without(&bytes, |name| goes.1(name) && !stays.1(name)).0),
            };
            gone += wanted.as_ref().map_or(0, |left| bytes.len() - left.len());
            let found = strip(&bytes, &[goes.0], &[stays.0]);
            assert!(found == wanted, "{} without {}", path.display(), goes.0);
        }
    }
    support::say(&format!(
        "compared: custom sections of {gone} bytes that go"
    ));
}

#[test]
fn sections_are_those_that_stand_there() {
    let mut count = 0;
    for Sample { path, bytes } in support::samples() {
        println!("{}", path.display());
        let found = sections(&bytes).expect("sections");
        assert_eq!((found.end as usize, found.is_whole), (bytes.len(), true));
        let framed = framed(&bytes);
        assert_eq!(found.sections.len(), framed.len());
        for (found, wanted) in found.sections.iter().zip(&framed) {
            let (start, size) = (found.start as usize, found.size as usize);
            assert_eq!(
                (found.id, start..start + size),
                (wanted.id, wanted.range.clone())
            );
            assert_eq!(found.name.as_deref(), wanted.name());
            assert_eq!(found.entries, wanted.entries(), "of id {}", wanted.id);
        }
        count += framed.len();
    }
    support::say(&format!("compared: {count} sections of the modules"));
}

/// The places of the functions of a module.
fn bodies(module: &[u8]) -> Vec<Range<usize>> {
    let mut found = Vec::new();
    for section in framed(module) {
        if section.id == SECTION_OF_CODE {
            let front = section.range.end - section.content.len();
            let (count, mut at) = number(section.content, 0);
            for _ in 0..count {
                let (size, start) = number(section.content, at);
                at = start + size;
                found.push(front + start..front + at);
            }
        }
    }
    found
}

#[test]
fn parts_are_those_that_stand_there() {
    let (mut functions, mut segments) = (0, 0);
    for Sample { path, bytes } in support::samples() {
        println!("{}", path.display());
        let (mut found, mut places, mut before) = (Vec::new(), Vec::new(), None);
        for part in parts(&bytes).expect("parts") {
            match part {
                Part::Section(section) => found.push(section),
                Part::Function(it) => places.push(it.start as usize..(it.start + it.size) as usize),
                Part::Segment(it) => {
                    let (index, end) = before.unwrap_or((0, it.start));
                    assert_eq!((it.index, it.start), (index, end));
                    before = Some((index + 1, it.start + it.size));
                }
            }
        }
        assert_eq!(found, sections(&bytes).expect("sections").sections);
        assert_eq!(places, bodies(&bytes));
        functions += places.len();
        segments += before.map_or(0, |(count, _)| count);
    }
    support::say(&format!(
        "compared: {functions} functions and {segments} data segments of the modules"
    ));
}

#[test]
fn a_second_run_changes_nothing() {
    for Sample { path, bytes } in support::samples() {
        let once = gc(&bytes, FLAGS, ALL).expect("a module");
        let twice = gc(&once, FLAGS, ALL);
        assert!(twice.as_ref() == Ok(&once), "{}", path.display());
        let none = snip(&once, &[], FLAGS);
        assert!(none == twice, "{}", path.display());
    }
}

/// The functions that go and those that stay are those that have a body, and what goes has as many
/// bytes as the report says.
fn are_all(input: &[u8], roots: Roots<'_>) {
    let gone = dropped(input, FLAGS, roots).expect("a list");
    let told = report(input, FLAGS, roots).expect("a report");
    let bytes: u64 = gone.iter().map(|it| u64::from(it.size)).sum();
    assert_eq!(bytes, told.bytes.dropped);
    let stay = list(input, FLAGS, roots).expect("a list");
    let mut indices: Vec<u32> = gone.iter().chain(&stay).map(|it| it.index).collect();
    indices.sort_unstable();
    let index = |part| match part {
        Part::Function(item) => Some(item.index),
        _ => None,
    };
    let parts = parts(input).expect("parts").into_iter();
    assert_eq!(indices, parts.filter_map(index).collect::<Vec<u32>>());
}

/// What is exported and imported by what is written is what is told to stay.
fn is_the_interface(input: &[u8], roots: Roots<'_>) {
    let written = gc(input, FLAGS, roots).expect("a module");
    let names = |module: &[u8], roots| {
        let all = exports(module, FLAGS, roots).expect("exports").into_iter();
        all.map(|it| (it.kind, it.name)).collect::<Vec<_>>()
    };
    assert_eq!(names(input, roots), names(&written, ALL));
    let brought = |module: &[u8], roots| {
        let all = imports(module, FLAGS, roots).expect("imports").into_iter();
        all.map(|it| (it.kind, it.module, it.name))
            .collect::<Vec<_>>()
    };
    assert_eq!(brought(input, roots), brought(&written, ALL));
}

#[test]
fn exports_are_chosen() {
    let mut count = 0;
    for Sample { path, bytes } in support::samples() {
        println!("{}", path.display());
        let told = exports(&bytes, FLAGS, ALL).expect("exports");
        // A star in a name would fit more.
        let names = told.iter().map(|it| it.name.as_str());
        let names: Vec<&str> = names.filter(|name| !name.contains('*')).collect();
        let (keep, drop) = names.split_at(names.len() / 2);
        for roots in [ALL, Roots { keep, drop: &[] }, Roots { keep: &[], drop }] {
            are_all(&bytes, roots);
            is_the_interface(&bytes, roots);
            count += 1;
        }
        let unfit = Roots {
            keep,
            drop: &["no export has this name"],
        };
        let wanted = Error::Unfit("no export has this name".to_string());
        assert_eq!(gc(&bytes, FLAGS, unfit), Err(wanted));
    }
    support::say(&format!("compared: {count} choices of exports"));
}

#[test]
fn calls_in_several_threads_at_once_answer_the_same() {
    let samples = support::samples();
    let answer = |sample: &Sample| gc(&sample.bytes, FLAGS, ALL);
    let wanted: Vec<_> = samples.iter().map(answer).collect();
    thread::scope(|scope| {
        for _ in 0..THREADS {
            scope.spawn(|| {
                for _ in 0..TURNS {
                    let again = samples.iter().map(answer);
                    assert!(again.zip(&wanted).all(|(found, wanted)| found == *wanted));
                }
            });
        }
    });
}
