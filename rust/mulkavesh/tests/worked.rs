//! Each call on small modules, whose bytes were worked out by hand.

use mulkavesh::{
    callers, diagnose, dropped, exports, gc, imports, list, parts, report, sections, snip, strip,
    stub, version, why, Alone, Beginning, Counts, Error, Exported, Fault, Flags, Imported, Item,
    Kind, Link, Listed, Part, Reason, Report, Root, Roots, Rule, Section, Sections, Sizes,
};

/// The bytes that the text says.
fn bytes(text: &str) -> Vec<u8> {
    let byte = |digits| u8::from_str_radix(digits, 16).expect("two digits");
    text.split_whitespace().map(byte).collect()
}

const ALL: Flags = Flags {
    no_names: false,
    no_producers: false,
    no_legacy: false,
};

const NO_PRODUCERS: Flags = Flags {
    no_producers: true,
    ..ALL
};

/// All exports stay.
const EVERY: Roots<'static> = Roots {
    keep: &[],
    drop: &[],
};

/// Those stay that one of these fits.
fn kept<'a>(keep: &'a [&'a str]) -> Roots<'a> {
    Roots { keep, drop: &[] }
}

/// Those go that one of these fits.
fn without<'a>(drop: &'a [&'a str]) -> Roots<'a> {
    Roots { keep: &[], drop }
}

/// `producers`, with `walrus` 0.28.0 as what processed the module.
const PRODUCERS: &str = "00 27 09 70 72 6F 64 75 63 65 72 73 01 0C 70 72 6F 63 65 73 73 65 64 2D 62 79 01 06 77 61 6C 72 75 73 06 30 2E 32 38 2E 30";

/// The bytes that the text says, and producers behind them.
fn with_producers(text: &str) -> Vec<u8> {
    [bytes(text), bytes(PRODUCERS)].concat()
}

// ---- gc, report and list

/// A function that nothing reaches, and one that is exported.
const TWO: &str = "00 61 73 6D 01 00 00 00 01 04 01 60 00 00 03 03 02 00 00 07 05 01 01 66 00 01 0A 08 02 03 00 01 0B 02 00 0B";

const ONE: &str =
    "00 61 73 6D 01 00 00 00 01 04 01 60 00 00 03 02 01 00 07 05 01 01 66 00 00 0A 04 01 02 00 0B";

#[test]
fn one_of_two_functions_is_left() {
    assert_eq!(gc(&bytes(TWO), ALL, EVERY), Ok(with_producers(ONE)));
    assert_eq!(gc(&bytes(TWO), NO_PRODUCERS, EVERY), Ok(bytes(ONE)));
}

#[test]
fn one_of_two_functions_is_reported() {
    let wanted = Report {
        functions: Counts {
            kept: 1,
            dropped: 1,
        },
        bytes: Sizes {
            read: 36,
            written: 31,
            dropped: 3,
            debug: 0,
        },
        ..Report::default()
    };
    assert_eq!(report(&bytes(TWO), NO_PRODUCERS, EVERY), Ok(wanted));
    assert_eq!(wanted.bytes.rest(), 2);
    let told = report(&bytes(TWO), ALL, EVERY).expect("a report");
    // The section of producers has 41 bytes.
    assert_eq!((told.bytes.written, told.bytes.rest()), (72, -39));
    // A section of debug information with a byte.
    let debug = bytes("00 08 06 2E 64 65 62 75 67 01");
    let told = report(&[bytes(TWO), debug].concat(), NO_PRODUCERS, EVERY).expect("a report");
    let sizes = Sizes {
        read: 46,
        debug: 10,
        ..wanted.bytes
    };
    assert_eq!(told.bytes, sizes);
}

fn listed(index: u32, size: u32, name: Option<&str>) -> Listed {
    let name = name.map(String::from);
    Listed { index, size, name }
}

#[test]
fn one_of_two_functions_is_listed() {
    let module = bytes(TWO);
    assert_eq!(list(&module, ALL, EVERY), Ok(vec![listed(1, 2, None)]));
    assert_eq!(dropped(&module, ALL, EVERY), Ok(vec![listed(0, 3, None)]));
    let all = [listed(0, 3, None), listed(1, 2, None)];
    let none = without(&["f"]);
    assert_eq!(list(&module, ALL, none), Ok(Vec::new()));
    assert_eq!(dropped(&module, ALL, none).as_deref(), Ok(&all[..]));
}

/// Names of functions for `TWO`: `a`, and `é`.
const NAMES: &str = "00 0F 04 6E 61 6D 65 01 08 02 00 01 61 01 02 C3 A9";

/// Names of functions for `TWO`: `a`, and one of no letters.
const EMPTY_NAME: &str = "00 0D 04 6E 61 6D 65 01 06 02 00 01 61 01 00";

#[test]
fn names_are_listed() {
    let module = [bytes(TWO), bytes(NAMES)].concat();
    assert_eq!(list(&module, ALL, EVERY), Ok(vec![listed(1, 2, Some("é"))]));
    let module = [bytes(TWO), bytes(EMPTY_NAME)].concat();
    assert_eq!(list(&module, ALL, EVERY), Ok(vec![listed(1, 2, Some(""))]));
}

#[test]
fn the_smallest_module_lists_nothing() {
    let module = bytes("00 61 73 6D 01 00 00 00");
    assert_eq!(list(&module, ALL, EVERY), Ok(Vec::new()));
    assert_eq!(dropped(&module, ALL, EVERY), Ok(Vec::new()));
    assert_eq!(exports(&module, ALL, EVERY), Ok(Vec::new()));
    assert_eq!(imports(&module, ALL, EVERY), Ok(Vec::new()));
    assert_eq!(gc(&module, NO_PRODUCERS, EVERY), Ok(module));
}

/// An exported function with a legacy `try`, a tag, and the name of a module and of a function.
const LEGACY: &str = "00 61 73 6D 01 00 00 00 01 08 02 60 00 00 60 01 7F 00 03 02 01 00 0D 03 01 00 01 07 05 01 01 66 00 00 0A 0C 01 0A 00 06 7F 41 00 07 00 0B 1A 0B 00 0F 04 6E 61 6D 65 00 02 01 6D 01 04 01 00 01 61";

/// Neither names nor producers, and a type more, which its handler finds.
const LEGACY_BARE: &str = "00 61 73 6D 01 00 00 00 01 0D 03 60 00 00 60 01 7F 00 60 01 7F 01 7F 03 02 01 00 0D 03 01 00 01 07 05 01 01 66 00 00 0A 0C 01 0A 00 06 7F 41 00 07 00 0B 1A 0B";

#[test]
fn flags_are_heard() {
    let module = bytes(LEGACY);
    let bare = Flags {
        no_names: true,
        ..NO_PRODUCERS
    };
    assert_eq!(gc(&module, bare, EVERY), Ok(bytes(LEGACY_BARE)));
    let new = Flags {
        no_legacy: true,
        ..ALL
    };
    let invalid = Some(Error::Invalid(Fault::Body(0)));
    assert_eq!(gc(&module, new, EVERY).err(), invalid);
    assert_eq!(report(&module, new, EVERY).err(), invalid);
    assert_eq!(list(&module, new, EVERY).err(), invalid);
    assert_eq!(exports(&module, new, EVERY).err(), invalid);
    assert_eq!(imports(&module, new, EVERY).err(), invalid);
    assert_eq!(dropped(&module, new, EVERY).err(), invalid);
    assert_eq!(why(&module, "0", new, EVERY).err(), invalid);
    assert_eq!(callers(&module, "0", new, EVERY).err(), invalid);
    assert_eq!(snip(&module, &["0"], new).err(), invalid);
    assert_eq!(stub(&module, &["*"], &[], new).err(), invalid);
}

// ---- sections and strip

/// Four custom sections, each of a byte: `a`, `a`, `b` and one without a name.
const CUSTOMS: &str =
    "00 61 73 6D 01 00 00 00 00 03 01 61 01 00 03 01 61 02 00 03 01 62 03 00 02 00 04";

const A_GONE: &str = "00 61 73 6D 01 00 00 00 00 03 01 62 03 00 02 00 04";

const B_LEFT: &str = "00 61 73 6D 01 00 00 00 00 03 01 62 03";

/// `.debug_info` with its size in two bytes, the functions and bodies of `TWO` in the wrong order,
/// `.debug_line`, `a*` and `name`, in which no names stand.
const BROKEN: &str = "00 61 73 6D 01 00 00 00 00 8D 00 0B 2E 64 65 62 75 67 5F 69 6E 66 6F 01 0A 08 02 03 00 01 0B 02 00 0B 03 03 02 00 00 00 0D 0B 2E 64 65 62 75 67 5F 6C 69 6E 65 02 00 04 02 61 2A 03 00 06 04 6E 61 6D 65 FF";

/// The same without debug information.
const NO_DEBUG: &str = "00 61 73 6D 01 00 00 00 0A 08 02 03 00 01 0B 02 00 0B 03 03 02 00 00 00 04 02 61 2A 03 00 06 04 6E 61 6D 65 FF";

#[test]
fn all_sections_of_a_name_go() {
    let module = bytes(CUSTOMS);
    assert_eq!(strip(&module, &["a"], &[]), Ok(bytes(A_GONE)));
    let left = bytes("00 61 73 6D 01 00 00 00 00 03 01 61 01 00 03 01 61 02 00 03 01 62 03");
    assert_eq!(strip(&module, &[""], &[]), Ok(left));
    assert_eq!(strip(&module, &["", "a"], &[]), Ok(bytes(B_LEFT)));
    assert_eq!(strip(&module, &[], &[]), Ok(module));
}

#[test]
fn stars_stand_for_any_bytes() {
    let module = bytes(CUSTOMS);
    let header = module[..8].to_vec();
    for all in ["*", "**"] {
        assert_eq!(strip(&module, &[all], &[]), Ok(header.clone()));
    }
    for a in ["a*", "*a", "*a*"] {
        assert_eq!(strip(&module, &[a], &[]), Ok(bytes(A_GONE)));
    }
    for name in ["c*", "a*a", r"\*", r"a\*"] {
        assert_eq!(strip(&module, &[name], &[]), Err(Error::NotFound));
    }
    let left = strip(&bytes(BROKEN), &[r"a\*"], &[]).expect("a module");
    assert_eq!(left.len(), bytes(BROKEN).len() - 6);
    assert_eq!(strip(&left, &["a*"], &[]), Err(Error::NotFound));
}

#[test]
fn sections_stay_after_all() {
    let module = bytes(CUSTOMS);
    assert_eq!(strip(&module, &["*"], &["b"]), Ok(bytes(B_LEFT)));
    assert_eq!(strip(&module, &["*"], &["b*", ""]), Ok(bytes(A_GONE)));
    assert_eq!(strip(&module, &["a"], &["*"]), Ok(module.clone()));
    assert_eq!(
        strip(&module, &["b", ""], &["c"]).map(|it| it.len()),
        Ok(18)
    );
}

#[test]
fn each_name_has_to_fit_a_section() {
    let module = bytes(CUSTOMS);
    assert_eq!(strip(&module, &["c"], &[]), Err(Error::NotFound));
    assert_eq!(strip(&module, &["a", "c"], &[]), Err(Error::NotFound));
    assert_eq!(strip(&module, &["*", "c"], &["c"]), Err(Error::NotFound));
    assert_eq!(strip(&bytes(TWO), &["*"], &[]), Err(Error::NotFound));
}

#[test]
fn what_nothing_reaches_stays_where_a_section_goes() {
    let section = bytes("00 03 01 61 01");
    let module = [bytes(TWO), section].concat();
    assert_eq!(strip(&module, &["a"], &[]), Ok(bytes(TWO)));
    let named = [bytes(TWO), bytes(NAMES)].concat();
    assert_eq!(strip(&named, &["name"], &[]), Ok(bytes(TWO)));
    let module = with_producers(ONE);
    assert_eq!(strip(&module, &["producers"], &[]), Ok(bytes(ONE)));
}

#[test]
fn sections_go_from_a_module_that_breaks_a_rule() {
    let broken = bytes(BROKEN);
    assert_eq!(diagnose(&broken, ALL), Ok(Some(Fault::Rule(Rule::Order))));
    assert_eq!(strip(&broken, &[".debug*"], &[]), Ok(bytes(NO_DEBUG)));
    let found = sections(&broken).expect("sections");
    assert!(found.is_whole);
    let kinds: Vec<_> = found.sections.iter().map(Section::kind).collect();
    let wanted = ["custom", "code", "function", "custom", "custom", "custom"];
    assert_eq!(kinds, wanted);
}

fn section_at(start: u32, id: u8, size: u32, name: Option<&str>, entries: Option<u32>) -> Section {
    let name = name.map(String::from);
    Section {
        id,
        name,
        start,
        size,
        entries,
    }
}

#[test]
fn sections_are_told() {
    let module = [bytes(TWO), bytes(NAMES)].concat();
    let wanted = Sections {
        sections: vec![
            section_at(8, 1, 6, None, Some(1)),
            section_at(14, 3, 5, None, Some(2)),
            section_at(19, 7, 7, None, Some(1)),
            section_at(26, 10, 10, None, Some(2)),
            section_at(36, 0, 17, Some("name"), None),
        ],
        end: 53,
        is_whole: true,
    };
    assert_eq!(sections(&module), Ok(wanted));
    let wanted = Sections {
        sections: Vec::new(),
        end: 8,
        is_whole: true,
    };
    assert_eq!(sections(&module[..8]), Ok(wanted));
}

#[test]
fn functions_and_segments_are_told() {
    let two = parts(&bytes(TWO)).expect("parts");
    let first = Item {
        index: 0,
        start: 30,
        size: 3,
    };
    let second = Item {
        index: 1,
        start: 34,
        size: 2,
    };
    assert_eq!(two[4..], [Part::Function(first), Part::Function(second)]);
    assert!(two[..4].iter().all(|it| matches!(it, Part::Section(_))));
    let imports = bytes(IMPORTS);
    let own = Item {
        index: 3,
        start: imports.len() as u32 - 8,
        size: 8,
    };
    let told = parts(&imports).expect("parts");
    assert_eq!(told.last(), Some(&Part::Function(own)));
    let head = bytes("00 61 73 6D 01 00 00 00 05 03 01 00 01");
    let data = section(11, &bytes("02 00 41 00 0B 02 07 07 01 01 09"));
    let segment = Item {
        index: 1,
        start: 23,
        size: 3,
    };
    let told = parts(&[head, data].concat()).expect("parts");
    assert_eq!(told.last(), Some(&Part::Segment(segment)));
    assert_eq!(parts(&bytes(TWO)[..8]), Ok(Vec::new()));
    let cut = Err(Error::Invalid(Fault::Section(26)));
    assert_eq!(parts(&bytes(TWO)[..35]), cut);
}

#[test]
fn each_custom_section_begins_with_a_name() {
    // One whose name is longer than its content, and one whose name is no UTF-8.
    for other in ["00 03 03 61 62", "00 03 02 C3 28"] {
        let module = [bytes(CUSTOMS), bytes(other)].concat();
        let found = sections(&module).expect("sections");
        assert_eq!((found.end, found.is_whole), (27, false));
        assert_eq!(found.sections.len(), 4);
        let refused = strip(&module, &["a"], &[]);
        assert_eq!(refused, Err(Error::Invalid(Fault::Section(27))));
    }
}

#[test]
fn sections_of_a_cut_module_are_told() {
    let module = bytes(TWO);
    for cut in 27..36 {
        let found = sections(&module[..cut]).expect("sections");
        assert_eq!((found.end, found.is_whole), (26, false));
        let starts: Vec<_> = found.sections.iter().map(|it| it.start).collect();
        assert_eq!(starts, [8, 14, 19]);
        let refused = strip(&module[..cut], &["a"], &[]);
        assert_eq!(refused, Err(Error::Invalid(Fault::Section(26))));
    }
}

// ---- chosen exports

/// One function, exported as `a` and as `b`, and another one, exported as `*`.
const THREE: &str = "00 61 73 6D 01 00 00 00 01 04 01 60 00 00 03 03 02 00 00 07 0D 03 01 61 00 00 01 62 00 00 01 2A 00 01 0A 08 02 03 00 01 0B 02 00 0B";

/// The first alone, exported as `a`.
const AS_A: &str = "00 61 73 6D 01 00 00 00 01 04 01 60 00 00 03 02 01 00 07 05 01 01 61 00 00 0A 05 01 03 00 01 0B";

#[test]
fn exports_stay_that_are_chosen() {
    let module = bytes(THREE);
    let left = |roots| gc(&module, NO_PRODUCERS, roots);
    assert_eq!(left(kept(&["a"])), Ok(bytes(AS_A)));
    assert_eq!(left(without(&["b", r"\*"])), Ok(bytes(AS_A)));
    let (keep, drop) = (&["*"][..], &["b", r"\*"][..]);
    assert_eq!(left(Roots { keep, drop }), Ok(bytes(AS_A)));
    let none = bytes("00 61 73 6D 01 00 00 00");
    assert_eq!(left(without(&["*"])), Ok(none.clone()));
    let keep = &["a"][..];
    assert_eq!(left(Roots { keep, drop: keep }), Ok(none));
}

#[test]
fn the_first_name_is_told_that_fits_nothing() {
    let module = bytes(THREE);
    let unfit = |roots, name: &str| {
        let wanted = Some(Error::Unfit(name.to_string()));
        assert_eq!(gc(&module, ALL, roots).err(), wanted);
        assert_eq!(report(&module, ALL, roots).err(), wanted);
        assert_eq!(list(&module, ALL, roots).err(), wanted);
        assert_eq!(dropped(&module, ALL, roots).err(), wanted);
        assert_eq!(exports(&module, ALL, roots).err(), wanted);
        assert_eq!(imports(&module, ALL, roots).err(), wanted);
        assert_eq!(why(&module, "a", ALL, roots).err(), wanted);
        assert_eq!(callers(&module, "none", ALL, roots).err(), wanted);
    };
    unfit(kept(&["c"]), "c");
    unfit(kept(&["a", "c", "d"]), "c");
    unfit(without(&["a", "", "c"]), "");
    let (keep, drop) = (&["a"][..], &["é", "b"][..]);
    unfit(Roots { keep, drop }, "é");
    assert_eq!(
        Error::Unfit("é".to_string()).to_string(),
        "no export fits \"é\""
    );
}

fn exported(kind: Kind, index: u32, name: &str) -> Exported {
    let name = name.to_string();
    Exported { kind, index, name }
}

#[test]
fn exports_are_told() {
    let module = bytes(THREE);
    let all = ["a", "b", "*"].map(|name| exported(Kind::Function, u32::from(name == "*"), name));
    assert_eq!(exports(&module, ALL, EVERY).as_deref(), Ok(&all[..]));
    let roots = without(&["b"]);
    let left = [all[0].clone(), all[2].clone()];
    assert_eq!(exports(&module, ALL, roots).as_deref(), Ok(&left[..]));
}

#[test]
fn imports_are_told() {
    let told = |index, module: &str, name: &str| Imported {
        kind: Kind::Function,
        index,
        module: module.to_string(),
        name: name.to_string(),
    };
    let module = bytes(IMPORTS);
    let left = [told(0, "env", "f"), told(2, "m", "h")];
    assert_eq!(imports(&module, ALL, EVERY).as_deref(), Ok(&left[..]));
    assert_eq!(imports(&module, ALL, without(&["a"])), Ok(Vec::new()));
}

/// A table, a memory, a global and a tag, which are imported from `m` as `t`, `e`, `g` and `x` and
/// exported as `T`, `E`, `G` and `X`.
const KINDS: &str = "00 61 73 6D 01 00 00 00 01 04 01 60 00 00 02 1E 04 01 6D 01 74 01 70 00 00 01 6D 01 65 02 00 00 01 6D 01 67 03 7F 00 01 6D 01 78 04 00 00 07 11 04 01 54 01 00 01 45 02 00 01 47 03 00 01 58 04 00";

#[test]
fn each_kind_is_told() {
    let module = bytes(KINDS);
    let kinds = [Kind::Table, Kind::Memory, Kind::Global, Kind::Tag];
    let told = exports(&module, ALL, EVERY).expect("exports");
    let wanted = kinds.into_iter().zip(["T", "E", "G", "X"]);
    let wanted: Vec<_> = wanted.map(|(kind, name)| exported(kind, 0, name)).collect();
    assert_eq!(told, wanted);
    let told = imports(&module, ALL, kept(&["G", "X"])).expect("imports");
    let told: Vec<_> = told.iter().map(|it| (it.kind, it.name.as_str())).collect();
    assert_eq!(told, [(Kind::Global, "g"), (Kind::Tag, "x")]);
    for (kind, name) in kinds.into_iter().zip(["T", "E", "G", "X"]) {
        let found = why(&module, name, ALL, EVERY).expect("a reason");
        assert_eq!((found.kind, found.index), (kind, 0));
        assert_eq!((found.root, found.alone), (Some(Root::Exported), None));
        assert_eq!(found.links, [link(kind, 0, None, &[name], None)]);
    }
}

// ---- why and callers

/// The exported `a` calls a function that nothing else calls.
const CALLS: &str = "00 61 73 6D 01 00 00 00 01 04 01 60 00 00 03 03 02 00 00 07 05 01 01 61 00 00 0A 0A 02 04 00 10 01 0B 03 00 01 0B";

fn link(kind: Kind, index: u32, name: Option<&str>, exports: &[&str], size: Option<u32>) -> Link {
    Link {
        kind,
        index,
        name: name.map(String::from),
        exports: exports.iter().map(|name| name.to_string()).collect(),
        size,
    }
}

#[test]
fn a_function_stays_for_one_that_calls_it() {
    let module = bytes(CALLS);
    let root = link(Kind::Function, 0, None, &["a"], Some(4));
    let called = link(Kind::Function, 1, None, &[], Some(3));
    let wanted = Reason {
        kind: Kind::Function,
        index: 1,
        links: vec![root.clone(), called],
        root: Some(Root::Exported),
        alone: Some(Alone {
            functions: 1,
            bytes: 3,
        }),
    };
    assert_eq!(why(&module, "1", ALL, EVERY), Ok(wanted));
    assert_eq!(callers(&module, "1", ALL, EVERY), Ok(vec![root.clone()]));
    let both = Some(Alone {
        functions: 2,
        bytes: 7,
    });
    for text in ["0", "a"] {
        let found = why(&module, text, ALL, EVERY).expect("a reason");
        assert_eq!((&found.links[..], found.alone), (&[root.clone()][..], both));
        assert_eq!(callers(&module, text, ALL, EVERY), Ok(Vec::new()));
    }
    for nothing in ["2", "4294967295", "4294967296", "-1", "", "b", "*"] {
        let found = why(&module, nothing, ALL, EVERY);
        assert_eq!(found, Err(Error::NotFound), "of {nothing:?}");
        let found = callers(&module, nothing, ALL, EVERY);
        assert_eq!(found, Err(Error::NotFound), "of {nothing:?}");
    }
}

#[test]
fn no_function_calls_it() {
    let wanted = Reason {
        kind: Kind::Function,
        index: 0,
        links: Vec::new(),
        root: None,
        alone: None,
    };
    assert_eq!(why(&bytes(TWO), "0", ALL, EVERY), Ok(wanted.clone()));
    let without = without(&["a"]);
    assert_eq!(why(&bytes(CALLS), "0", ALL, without), Ok(wanted));
    assert_eq!(callers(&bytes(CALLS), "1", ALL, without), Ok(Vec::new()));
}

#[test]
fn a_name_comes_before_an_export() {
    // The first function is called `a` and the second `é`; the second one is exported as `f`.
    let module = [bytes(TWO), bytes(NAMES)].concat();
    let found = why(&module, "é", ALL, EVERY).expect("a reason");
    let wanted = link(Kind::Function, 1, Some("é"), &["f"], Some(2));
    assert_eq!(found.links, [wanted]);
    assert_eq!(why(&module, "f", ALL, EVERY), Ok(found));
    let found = why(&module, "a", ALL, EVERY).expect("a reason");
    assert_eq!((found.index, found.root), (0, None));
}

/// A start function; a memory, with a segment that is active and one that isn't; a table, with an
/// active segment that names function 1, and a declared one that names function 2.
const ROOTS: &str = "00 61 73 6D 01 00 00 00 01 04 01 60 00 00 03 04 03 00 00 00 04 04 01 70 00 01 05 03 01 00 01 08 01 00 09 0B 02 00 41 00 0B 01 01 03 00 01 02 0A 0A 03 02 00 0B 02 00 0B 02 00 0B 0B 09 02 00 41 00 0B 00 01 01 07";

#[test]
fn each_root_is_told() {
    let module = bytes(ROOTS);
    let found = why(&module, "0", ALL, EVERY).expect("a reason");
    assert_eq!((found.root, found.links.len()), (Some(Root::Start), 1));
    for (text, segment, root) in [("1", 0, Root::Active), ("2", 1, Root::Declared)] {
        let found = why(&module, text, ALL, EVERY).expect("a reason");
        assert_eq!(found.root, Some(root));
        assert_eq!(
            found.links[0],
            link(Kind::Element, segment, None, &[], None)
        );
        assert_eq!(found.links.len(), 2);
    }
}

// ---- snip

/// It is gone, and `a` traps.
const SNIPPED: &str = "00 61 73 6D 01 00 00 00 01 04 01 60 00 00 03 02 01 00 07 05 01 01 61 00 00 0A 05 01 03 00 00 0B";

/// Both are there, and the one that is called traps.
const CALLED_TRAPS: &str = "00 61 73 6D 01 00 00 00 01 04 01 60 00 00 03 03 02 00 00 07 05 01 01 61 00 00 0A 0A 02 04 00 10 01 0B 03 00 00 0B";

#[test]
fn a_function_traps() {
    let module = bytes(CALLS);
    for all in [
        &["a"][..],
        &["0"],
        &["a*"],
        &["*"],
        &["1", "0"],
        &["a", "0"],
    ] {
        let snipped = snip(&module, all, NO_PRODUCERS);
        assert_eq!(snipped, Ok(bytes(SNIPPED)), "of {all:?}");
    }
    assert_eq!(snip(&module, &["a"], ALL), Ok(with_producers(SNIPPED)));
    let called = snip(&module, &["1"], NO_PRODUCERS);
    assert_eq!(called, Ok(bytes(CALLED_TRAPS)));
    let none = snip(&module, &[], NO_PRODUCERS);
    assert_eq!(none, gc(&module, NO_PRODUCERS, EVERY));
}

#[test]
fn other_functions_are_not_found() {
    for name in ["b", "2", "4294967296", "", "b*", r"\*"] {
        let snipped = snip(&bytes(CALLS), &["a", name], ALL);
        assert_eq!(snipped, Err(Error::NotFound), "for the name {name:?}");
    }
    // An imported one, and one that is the first of an export's name.
    for name in ["0", "1", "2"] {
        let snipped = snip(&bytes(IMPORTS), &[name], ALL);
        assert_eq!(snipped, Err(Error::NotFound), "for the name {name:?}");
    }
}

// ---- stub

/// Functions `f` and `g` from `env`, and `h` from `m`; the exported `a` calls `h`, and `f`.
const IMPORTS: &str = "00 61 73 6D 01 00 00 00 01 09 02 60 01 7F 01 7F 60 00 00 02 17 03 03 65 6E 76 01 66 00 00 03 65 6E 76 01 67 00 01 01 6D 01 68 00 01 03 02 01 00 07 05 01 01 61 00 03 0A 0A 01 08 00 10 02 20 00 10 00 0B";

/// `f` traps, and stands behind `a`, which is larger; `g`, which nothing calls, is gone.
const STUBBED: &str = "00 61 73 6D 01 00 00 00 01 09 02 60 01 7F 01 7F 60 00 00 02 07 01 01 6D 01 68 00 01 03 03 02 00 00 07 05 01 01 61 00 01 0A 0E 02 08 00 10 00 20 00 10 02 0B 03 00 00 0B";

#[test]
fn imports_trap() {
    let module = bytes(IMPORTS);
    for (modules, names) in [
        (&["env"][..], &[][..]),
        (&["e*"], &["f"]),
        (&["*"], &["f", "g"]),
        (&["none", "env"], &["none", "*"]),
    ] {
        let stubbed = stub(&module, modules, names, NO_PRODUCERS);
        assert_eq!(stubbed, Ok(bytes(STUBBED)), "of {modules:?}, {names:?}");
    }
    let stubbed = stub(&module, &["env"], &[], ALL);
    assert_eq!(stubbed, Ok(with_producers(STUBBED)));
    // What nothing calls is gone anyhow.
    let stubbed = stub(&module, &["env"], &["g"], ALL);
    assert_eq!(stubbed, gc(&module, ALL, EVERY));
}

#[test]
fn nothing_is_imported_so() {
    let module = bytes(IMPORTS);
    for (modules, names) in [
        (&["en"][..], &[][..]),
        (&["envy", ""], &[]),
        (&[], &[]),
        (&[], &["f"]),
        (&["env"], &["h"]),
    ] {
        let stubbed = stub(&module, modules, names, ALL);
        assert_eq!(stubbed, Err(Error::NotFound), "of {modules:?}, {names:?}");
    }
}

// ---- what every call does

/// What each call answers, as its error or none.
fn refusals(input: &[u8]) -> [Option<Error>; 11] {
    [
        gc(input, ALL, EVERY).err(),
        report(input, ALL, EVERY).err(),
        list(input, ALL, EVERY).err(),
        dropped(input, ALL, EVERY).err(),
        exports(input, ALL, EVERY).err(),
        imports(input, ALL, EVERY).err(),
        strip(input, &["a"], &[]).err(),
        why(input, "0", ALL, EVERY).err(),
        callers(input, "a", ALL, EVERY).err(),
        snip(input, &["a"], ALL).err(),
        stub(input, &["env"], &[], ALL).err(),
    ]
}

#[test]
fn other_bytes_are_invalid() {
    let module = bytes(TWO);
    // The section of code, which begins ten bytes from the end, is cut.
    let cut = &module[..module.len() - 1];
    let section = Fault::Section(module.len() as u32 - 10);
    let inputs: [(&[u8], Fault); 5] = [
        (b"", Fault::Header(Beginning::Empty)),
        (b"\0asm", Fault::Header(Beginning::Cut)),
        (b"\0asm\x02\0\0\0", Fault::Header(Beginning::OtherVersion)),
        (b"no module at all", Fault::Header(Beginning::Other)),
        (cut, section),
    ];
    for (input, fault) in inputs {
        let invalid = Some(Error::Invalid(fault));
        let found = refusals(input);
        assert!(found.iter().all(|it| *it == invalid), "for {input:?}");
        let told = sections(input).err();
        assert_eq!(told, invalid.filter(|_| matches!(fault, Fault::Header(_))));
    }
}

#[test]
fn an_error_is_told() {
    let told: Box<dyn std::error::Error + Send + Sync> = Box::new(Error::TooLarge);
    assert_eq!(told.to_string(), "a count or size passes 32 bits");
}

#[test]
fn the_version_is_that_of_the_package() {
    let (major, minor, patch) = version();
    let told = format!("{major}.{minor}.{patch}");
    assert_eq!(told, env!("CARGO_PKG_VERSION"));
}

// ---- answers that are longer than was guessed

/// A number as a module says it.
fn number(number: usize) -> Vec<u8> {
    let mut digits = Vec::new();
    let mut rest = number;
    while rest >= 128 {
        digits.push((rest % 128) as u8 + 128);
        rest /= 128;
    }
    digits.push(rest as u8);
    digits
}

/// A section of this number with this content.
fn section(kind: u8, content: &[u8]) -> Vec<u8> {
    [vec![kind], number(content.len()), content.to_vec()].concat()
}

/// So many functions, of which the first is exported, and each calls the next.
fn chain(count: usize) -> Vec<u8> {
    let body = |index| match index + 1 < count {
        true => [vec![0, 0x10], number(index + 1), vec![0x0B]].concat(),
        false => vec![0, 0x0B],
    };
    let mut code = number(count);
    for index in 0..count {
        let body = body(index);
        code.extend(number(body.len()));
        code.extend(body);
    }
    let functions = [number(count), vec![0; count]].concat();
    let head = bytes("00 61 73 6D 01 00 00 00 01 04 01 60 00 00");
    let export = bytes("07 05 01 01 61 00 00");
    [head, section(3, &functions), export, section(10, &code)].concat()
}

#[test]
fn long_answers_come_whole() {
    let count = 3_000;
    let module = chain(count);
    let last = (count - 1).to_string();
    let found = why(&module, &last, ALL, EVERY).expect("a reason");
    let indices = found.links.iter().map(|link| link.index as usize);
    assert!(indices.eq(0..count));
    let size = |index| match count - 1 - index {
        0 => 2,
        _ => 3 + number(index + 1).len(),
    };
    let wanted = (0..count).map(|index| listed(index as u32, size(index) as u32, None));
    let wanted: Vec<_> = wanted.collect();
    let found = list(&module, ALL, EVERY).expect("a list");
    assert!(
        found.len() * 12 > module.len() + 256,
        "it wants a room more"
    );
    assert_eq!(found, wanted);
    assert_eq!(dropped(&module, ALL, without(&["a"])), Ok(wanted));
}
