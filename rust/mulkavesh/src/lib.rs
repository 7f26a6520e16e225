//! Drops from a WebAssembly module what nothing reaches, and says what was dropped and why the rest
//! stays, or what is wrong with bytes that are no module. Bytes go in and bytes come out; nothing
//! is kept from one call to the next, and calls in several threads at once are fine.
//!
//! The library behind it is Mulkavesh, which is written in Rattle and proved. This crate isn't: it
//! holds the bytes for the calls and reads their statuses, with `unsafe` in one file.
//!
//! ```
//! # fn main() -> Result<(), mulkavesh::Error> {
//! use mulkavesh::{Flags, Roots};
//!
//! // A function that nothing reaches, and one that is exported as `f`.
//! let module = [
//!     b"\0asm\x01\0\0\0".as_slice(),
//!     b"\x01\x04\x01\x60\0\0",                  // a type of functions that take and give nothing
//!     b"\x03\x03\x02\0\0",                      // two functions of it
//!     b"\x07\x05\x01\x01f\0\x01",               // the export: function 1
//!     b"\x0A\x08\x02\x03\0\x01\x0B\x02\0\x0B",  // the bodies, of three and of two bytes
//! ].concat();
//! let flags = Flags { no_producers: true, ..Flags::default() };
//! let smaller = mulkavesh::gc(&module, flags, Roots::default())?;
//! assert_eq!(smaller.len(), module.len() - 5);
//! // Without its export the other one goes too.
//! let roots = Roots { drop: &["f"], ..Roots::default() };
//! assert_eq!(mulkavesh::gc(&module, flags, roots)?, b"\0asm\x01\0\0\0");
//! # Ok(())
//! # }
//! ```
//!
//! No call may be made from a signal handler, or from the forked child of a process with threads.
//! The memory of a call comes from the `malloc` of the process, whatever the global allocator is.

#![deny(unsafe_code)]
#![warn(missing_docs)]

mod bytes;
#[allow(unsafe_code)]
mod call;
mod choice;
mod error;
mod fault;
mod flags;
mod interface;
mod kind;
mod listed;
pub mod module;
mod parts;
mod reason;
mod report;
mod roots;
mod sections;

pub use crate::error::Error;
pub use crate::fault::{Beginning, Fault, Rule};
pub use crate::flags::Flags;
pub use crate::interface::{Exported, Imported};
pub use crate::kind::Kind;
pub use crate::listed::Listed;
pub use crate::parts::{Item, Part};
pub use crate::reason::{Alone, Link, Reason, Root};
pub use crate::report::{Counts, Report, Sizes};
pub use crate::roots::Roots;
pub use crate::sections::{Section, Sections};

use crate::call::{Call, Chosen};

/// By how many bytes an answer may be longer than its input where one call is to serve.
const MORE: usize = 256;

/// A dozen lines of a few words and two numbers.
const ROOM_OF_A_REPORT: usize = 1024;

/// Two numbers of 32 bits.
const ROOM_OF_A_FAULT: usize = 8;

/// Some forty sections, which few modules have.
const ROOM_OF_SECTIONS: usize = 1024;

/// Some hundred links of a chain, which are mostly enough.
const ROOM_OF_A_CHAIN: usize = 4096;

/// The module of which the chosen exports are left, without what nothing reaches then.
///
/// What is exported, what a start function or a segment that isn't passive names, and all that is
/// named by what stays, stays; its indices, and names with them, are told anew. The vector may have
/// more room than bytes, as the room is guessed by the length of the input.
///
/// # Errors
///
/// [`Error::Invalid`] where the input is no module that keeps the rules, with what is wrong with it,
/// [`Error::Unfit`] where a NAME of `roots` fits no export, [`Error::TooLarge`] where what stays has a
/// count or a size past 32 bits, and [`Error::NoMemory`].
///
/// ```
/// use mulkavesh::{gc, Beginning, Error, Fault, Flags, Roots};
///
/// // Two functions, of which the second is exported as `f`.
/// let module = [
///     b"\0asm\x01\0\0\0".as_slice(),
///     b"\x01\x04\x01\x60\0\0\x03\x03\x02\0\0\x07\x05\x01\x01f\0\x01",
///     b"\x0A\x08\x02\x03\0\x01\x0B\x02\0\x0B",
/// ].concat();
/// // The second alone, as function 0.
/// let smaller = [
///     b"\0asm\x01\0\0\0".as_slice(),
///     b"\x01\x04\x01\x60\0\0\x03\x02\x01\0\x07\x05\x01\x01f\0\0",
///     b"\x0A\x04\x01\x02\0\x0B",
/// ].concat();
/// let flags = Flags { no_producers: true, ..Flags::default() };
/// assert_eq!(gc(&module, flags, Roots::default()).as_ref(), Ok(&smaller));
/// let roots = Roots { keep: &["f", "g*"], ..Roots::default() };
/// assert_eq!(gc(&module, flags, roots), Err(Error::Unfit("g*".to_string())));
/// let fault = Fault::Header(Beginning::Other);
/// assert_eq!(gc(b"no module", flags, roots), Err(Error::Invalid(fault)));
/// ```
pub fn gc(input: &[u8], flags: Flags, roots: Roots<'_>) -> Result<Vec<u8>, Error> {
    let chosen = Chosen::of(roots)?;
    Call::gc(flags, &chosen).answer(input, input.len() + MORE)
}

/// How many items of each kind, imported ones among them, and how many bytes [`gc`] keeps and drops.
///
/// # Errors
///
/// As of [`gc`].
///
/// ```
/// use mulkavesh::{report, Counts, Flags, Roots};
///
/// // Two functions, of which the second is exported as `f`.
/// let module = [
///     b"\0asm\x01\0\0\0".as_slice(),
///     b"\x01\x04\x01\x60\0\0\x03\x03\x02\0\0\x07\x05\x01\x01f\0\x01",
///     b"\x0A\x08\x02\x03\0\x01\x0B\x02\0\x0B",
/// ].concat();
/// let flags = Flags { no_producers: true, ..Flags::default() };
/// let told = report(&module, flags, Roots::default())?;
/// assert_eq!(told.functions, Counts { kept: 1, dropped: 1 });
/// assert_eq!(told.tables, Counts::default());
/// assert_eq!((told.bytes.read, told.bytes.written), (36, 31));
/// // The body of three bytes, its size in front of it, and its type among those of functions.
/// assert_eq!((told.bytes.dropped, told.bytes.rest()), (3, 2));
/// # Ok::<(), mulkavesh::Error>(())
/// ```
pub fn report(input: &[u8], flags: Flags, roots: Roots<'_>) -> Result<Report, Error> {
    let chosen = Chosen::of(roots)?;
    let lines = Call::report(flags, &chosen).answer(input, ROOM_OF_A_REPORT)?;
    Ok(Report::of(&lines))
}

/// What is wrong with bytes that [`gc`] refuses as invalid, or `None` exactly where they are accepted.
///
/// Where several things are wrong, one of them is told. Of the flags `no_legacy` alone has a say.
///
/// # Errors
///
/// [`Error::NoMemory`], and [`Error::TooLarge`] where a place or an index passes 32 bits; never
/// [`Error::Invalid`].
///
/// ```
/// use mulkavesh::{diagnose, Beginning, Fault, Flags, Rule};
///
/// let wrong = |bytes: &[u8]| diagnose(bytes, Flags::default()).expect("enough memory");
/// assert_eq!(wrong(b"\0asm\x01\0\0\0"), None);
/// assert_eq!(wrong(b"\x1F\x8B\x08"), Some(Fault::Header(Beginning::Gzip)));
/// // No section has the id 14.
/// assert_eq!(wrong(b"\0asm\x01\0\0\0\x0E\0"), Some(Fault::Section(8)));
/// // A memory of at least two pages and at most one.
/// let fault = wrong(b"\0asm\x01\0\0\0\x05\x04\x01\x01\x02\x01").expect("a fault");
/// assert_eq!(fault, Fault::Rule(Rule::Limits));
/// assert_eq!(fault.to_string(), "the limits of a table or a memory aren't allowed");
/// ```
pub fn diagnose(input: &[u8], flags: Flags) -> Result<Option<Fault>, Error> {
    let answer = Call::diagnose(flags).answer(input, ROOM_OF_A_FAULT)?;
    Ok(Fault::of(&answer))
}

/// The functions with a body that [`gc`] keeps, by rising index, with the bytes that each costs.
///
/// Of the flags `no_legacy` alone has a say.
///
/// # Errors
///
/// As of [`gc`]; [`Error::TooLarge`] too where a name has a size past 32 bits.
///
/// ```
/// use mulkavesh::{list, Flags, Listed, Roots};
///
/// // Two functions, of which the second is exported as `f`; their names are `left` and `kept`.
/// let module = [
///     b"\0asm\x01\0\0\0".as_slice(),
///     b"\x01\x04\x01\x60\0\0\x03\x03\x02\0\0\x07\x05\x01\x01f\0\x01",
///     b"\x0A\x08\x02\x03\0\x01\x0B\x02\0\x0B",
///     b"\0\x14\x04name\x01\x0D\x02\0\x04left\x01\x04kept",
/// ].concat();
/// // A body of two bytes: the count of its locals, and the operator that ends it.
/// let kept = Listed { index: 1, size: 2, name: Some("kept".to_string()) };
/// assert_eq!(list(&module, Flags::default(), Roots::default()), Ok(vec![kept]));
/// ```
pub fn list(input: &[u8], flags: Flags, roots: Roots<'_>) -> Result<Vec<Listed>, Error> {
    let chosen = Chosen::of(roots)?;
    let list = Call::list(flags, &chosen).answer(input, input.len() + MORE)?;
    listed::entries(&list)
}

/// The functions with a body that [`gc`] drops, by rising index, with the bytes that each has in the
/// input.
///
/// Of the flags `no_legacy` alone has a say.
///
/// # Errors
///
/// As of [`list`].
///
/// ```
/// use mulkavesh::{dropped, Flags, Listed, Roots};
///
/// // Two functions, of which the second is exported as `f`; their names are `left` and `kept`.
/// let module = [
///     b"\0asm\x01\0\0\0".as_slice(),
///     b"\x01\x04\x01\x60\0\0\x03\x03\x02\0\0\x07\x05\x01\x01f\0\x01",
///     b"\x0A\x08\x02\x03\0\x01\x0B\x02\0\x0B",
///     b"\0\x14\x04name\x01\x0D\x02\0\x04left\x01\x04kept",
/// ].concat();
/// let left = Listed { index: 0, size: 3, name: Some("left".to_string()) };
/// assert_eq!(dropped(&module, Flags::default(), Roots::default()), Ok(vec![left]));
/// ```
pub fn dropped(input: &[u8], flags: Flags, roots: Roots<'_>) -> Result<Vec<Listed>, Error> {
    let chosen = Chosen::of(roots)?;
    let list = Call::dropped(flags, &chosen).answer(input, input.len() + MORE)?;
    listed::entries(&list)
}

/// The exports that stay, in the order of the input.
///
/// Of the flags `no_legacy` alone has a say.
///
/// # Errors
///
/// As of [`list`].
///
/// ```
/// use mulkavesh::{exports, Exported, Flags, Kind, Roots};
///
/// // A function, which is exported as `a` and as `b`.
/// let module = [
///     b"\0asm\x01\0\0\0".as_slice(),
///     b"\x01\x04\x01\x60\0\0\x03\x02\x01\0\x07\x09\x02\x01a\0\0\x01b\0\0\x0A\x04\x01\x02\0\x0B",
/// ].concat();
/// let roots = Roots { drop: &["a"], ..Roots::default() };
/// let left = Exported { kind: Kind::Function, index: 0, name: "b".to_string() };
/// assert_eq!(exports(&module, Flags::default(), roots), Ok(vec![left]));
/// ```
pub fn exports(input: &[u8], flags: Flags, roots: Roots<'_>) -> Result<Vec<Exported>, Error> {
    let chosen = Chosen::of(roots)?;
    let list = Call::exports(flags, &chosen).answer(input, input.len() + MORE)?;
    interface::exports(&list)
}

/// The imports that [`gc`] keeps, in the order of the input.
///
/// Of the flags `no_legacy` alone has a say.
///
/// # Errors
///
/// As of [`list`].
///
/// ```
/// use mulkavesh::{imports, Flags, Imported, Kind, Roots};
///
/// // The functions `f` and `g` of the module `env`, of which `g` is exported as `a`.
/// let module = [
///     b"\0asm\x01\0\0\0".as_slice(),
///     b"\x01\x04\x01\x60\0\0\x02\x11\x02\x03env\x01f\0\0\x03env\x01g\0\0\x07\x05\x01\x01a\0\x01",
/// ].concat();
/// let (module_name, name) = ("env".to_string(), "g".to_string());
/// let left = Imported { kind: Kind::Function, index: 1, module: module_name, name };
/// assert_eq!(imports(&module, Flags::default(), Roots::default()), Ok(vec![left]));
/// ```
pub fn imports(input: &[u8], flags: Flags, roots: Roots<'_>) -> Result<Vec<Imported>, Error> {
    let chosen = Chosen::of(roots)?;
    let list = Call::imports(flags, &chosen).answer(input, input.len() + MORE)?;
    interface::imports(&list)
}

/// What sections stand in the bytes, by their framing alone: what stands in them, and in which order
/// they come, isn't looked at.
///
/// # Errors
///
/// [`Error::Invalid`] exactly where the magic number and the version don't stand in front,
/// [`Error::TooLarge`] where a place, a size or a count passes 32 bits, and [`Error::NoMemory`].
///
/// ```
/// use mulkavesh::{sections, Beginning, Error, Fault};
///
/// // Two functions, a custom section `a` of a byte, and the id and the size of one that is cut.
/// let module = b"\0asm\x01\0\0\0\x03\x03\x02\0\0\0\x03\x01a\x01\x0A\x08";
/// let found = sections(module)?;
/// assert!(!found.is_whole);
/// assert_eq!(found.end, 18);
/// let functions = &found.sections[0];
/// assert_eq!((functions.kind(), functions.entries), ("function", Some(2)));
/// let custom = &found.sections[1];
/// assert_eq!((custom.kind(), custom.name.as_deref()), ("custom", Some("a")));
/// assert_eq!((custom.start, custom.size), (13, 5));
/// let fault = Fault::Header(Beginning::Other);
/// assert_eq!(sections(b"no module"), Err(Error::Invalid(fault)));
/// # Ok::<(), Error>(())
/// ```
pub fn sections(input: &[u8]) -> Result<Sections, Error> {
    let answer = Call::sections().answer(input, ROOM_OF_SECTIONS)?;
    Sections::of(&answer)
}

/// What stands in a module: its sections, and behind one of code the functions in it, behind one of
/// data the data segments.
///
/// # Errors
///
/// [`Error::Invalid`] exactly where the bytes aren't the sections of a module, read to their ends,
/// [`Error::TooLarge`] where a place, a size or a count passes 32 bits, and [`Error::NoMemory`].
///
/// ```
/// use mulkavesh::{parts, Item, Part};
///
/// // Two functions, whose bodies have two and three bytes.
/// let module = b"\0asm\x01\0\0\0\x01\x04\x01\x60\0\0\x03\x03\x02\0\0\x0A\x08\x02\x02\0\x0B\x03\0\x01\x0B";
/// let found = parts(module)?;
/// assert!(matches!(&found[2], Part::Section(code) if code.kind() == "code"));
/// let second = Item { index: 1, start: 26, size: 3 };
/// assert_eq!(found[4..], [Part::Function(second)]);
/// # Ok::<(), mulkavesh::Error>(())
/// ```
pub fn parts(input: &[u8]) -> Result<Vec<Part>, Error> {
    let answer = Call::parts().answer(input, input.len() / 4 + ROOM_OF_SECTIONS)?;
    parts::parts(Sections::of(&answer)?.sections)
}

/// The module without the custom sections whose names fit one of `goes` and none of `stays`. All else
/// is as it stands, byte for byte.
///
/// In these `*` stands for any bytes, also for none, and `\*` for a star. Debug information (`.debug*`),
/// names (`name`) and producers (`producers`) are custom sections as any. Nothing is read but where
/// sections begin and end and what custom ones are called, so that the module may break other rules.
///
/// # Errors
///
/// [`Error::NotFound`] where one of `goes` fits no custom section; [`Error::Invalid`] exactly where
/// the bytes aren't a header and whole sections; and [`Error::NoMemory`].
///
/// ```
/// use mulkavesh::{strip, Error};
///
/// // Three custom sections of a byte each: `a`, `a` and `b`.
/// let module = b"\0asm\x01\0\0\0\0\x03\x01a\x01\0\x03\x01a\x02\0\x03\x01b\x03";
/// let left = b"\0asm\x01\0\0\0\0\x03\x01b\x03";
/// assert_eq!(strip(module, &["a"], &[]), Ok(left.to_vec()));
/// assert_eq!(strip(module, &["*"], &["b"]), Ok(left.to_vec()));
/// assert_eq!(strip(module, &["a", "c"], &[]), Err(Error::NotFound));
/// ```
pub fn strip(input: &[u8], goes: &[&str], stays: &[&str]) -> Result<Vec<u8>, Error> {
    let choice = choice::records(goes, stays)?;
    Call::strip(&choice).answer(input, input.len())
}

/// Why [`gc`] keeps a function, or another item that is exported: a chain of references that leads
/// to it, and what would go with it.
///
/// `function` is the index of a function, in decimal; or else the name of one, of which the first is
/// meant; or else that of an export, and then its item is meant. Which chain it is isn't promised. Of
/// the flags `no_legacy` alone has a say.
///
/// # Errors
///
/// [`Error::NotFound`] where `function` means nothing; the others as of [`list`].
///
/// ```
/// use mulkavesh::{why, Alone, Error, Flags, Root, Roots};
///
/// // Function 0, which is exported as `a`, calls function 1; nothing calls function 2.
/// let module = [
///     b"\0asm\x01\0\0\0".as_slice(),
///     b"\x01\x04\x01\x60\0\0\x03\x04\x03\0\0\0\x07\x05\x01\x01a\0\0",
///     b"\x0A\x0D\x03\x04\0\x10\x01\x0B\x03\0\x01\x0B\x02\0\x0B",
/// ].concat();
/// let why = |function| why(&module, function, Flags::default(), Roots::default());
/// let found = why("1")?;
/// let chain: Vec<_> = found.links.iter().map(|link| link.index).collect();
/// assert_eq!((found.root, chain), (Some(Root::Exported), vec![0, 1]));
/// assert_eq!(found.links[0].exports, ["a"]);
/// // Without `a` both would go: bodies of four and of three bytes.
/// assert_eq!(why("a")?.alone, Some(Alone { functions: 2, bytes: 7 }));
/// assert!(why("2")?.links.is_empty());
/// assert_eq!(why("3"), Err(Error::NotFound));
/// # Ok::<(), Error>(())
/// ```
pub fn why(input: &[u8], function: &str, flags: Flags, roots: Roots<'_>) -> Result<Reason, Error> {
    let chosen = Chosen::of(roots)?;
    let answer = Call::why(flags, &chosen, function).answer(input, ROOM_OF_A_CHAIN)?;
    Reason::of(&answer)
}

/// What stays and refers directly to a function, or to another item that is exported, by kind and
/// index. What `function` means, [`why`] says.
///
/// # Errors
///
/// As of [`why`].
///
/// ```
/// use mulkavesh::{callers, Flags, Kind, Roots};
///
/// // Function 0, which is exported, calls function 1; so does function 2, which nothing calls.
/// let module = [
///     b"\0asm\x01\0\0\0".as_slice(),
///     b"\x01\x04\x01\x60\0\0\x03\x04\x03\0\0\0\x07\x05\x01\x01a\0\0",
///     b"\x0A\x0F\x03\x04\0\x10\x01\x0B\x03\0\x01\x0B\x04\0\x10\x01\x0B",
/// ].concat();
/// let found = callers(&module, "1", Flags::default(), Roots::default())?;
/// assert_eq!(found.len(), 1);
/// assert_eq!((found[0].kind, found[0].index, found[0].size), (Kind::Function, 0, Some(4)));
/// # Ok::<(), mulkavesh::Error>(())
/// ```
pub fn callers(
    input: &[u8],
    function: &str,
    flags: Flags,
    roots: Roots<'_>,
) -> Result<Vec<Link>, Error> {
    let chosen = Chosen::of(roots)?;
    let answer = Call::callers(flags, &chosen, function).answer(input, ROOM_OF_A_CHAIN)?;
    reason::links(&answer)
}

/// The module where these functions trap, whoever calls them, without what nothing reaches then.
///
/// Each is the index of a function, in decimal; or, with a star in it, a NAME as of [`Roots`], which
/// means each function with a body whose name it fits, or the name of one of whose exports; or the
/// name of a function, of which the first is meant; or else that of an export of one.
///
/// # Errors
///
/// [`Error::NotFound`] where one means no function, or an imported one; the others as of [`gc`].
///
/// ```
/// use mulkavesh::{snip, Error, Flags};
///
/// // The exported `a` calls a function that nothing else calls.
/// let module = [
///     b"\0asm\x01\0\0\0".as_slice(),
///     b"\x01\x04\x01\x60\0\0\x03\x03\x02\0\0\x07\x05\x01\x01a\0\0",
///     b"\x0A\x0A\x02\x04\0\x10\x01\x0B\x03\0\x01\x0B",
/// ].concat();
/// // That one is gone, and `a` traps.
/// let snipped = [
///     b"\0asm\x01\0\0\0".as_slice(),
///     b"\x01\x04\x01\x60\0\0\x03\x02\x01\0\x07\x05\x01\x01a\0\0",
///     b"\x0A\x05\x01\x03\0\0\x0B",
/// ].concat();
/// let flags = Flags { no_producers: true, ..Flags::default() };
/// assert_eq!(snip(&module, &["a"], flags).as_ref(), Ok(&snipped));
/// assert_eq!(snip(&module, &["0"], flags), Ok(snipped));
/// assert_eq!(snip(&module, &["a", "b*"], flags), Err(Error::NotFound));
/// ```
pub fn snip(input: &[u8], functions: &[&str], flags: Flags) -> Result<Vec<u8>, Error> {
    let functions = choice::records(functions, &[])?;
    Call::snip(flags, &functions).answer(input, input.len() + MORE)
}

/// The module where functions that were imported are its own ones, which trap, without what nothing
/// reaches then: those from a module that one of `modules` fits, and under a name that one of `names`
/// fits, or under any where there are no `names`. In these `*` stands for any bytes, and `\*` for a
/// star.
///
/// # Errors
///
/// [`Error::NotFound`] where no function is imported so; the others as of [`gc`].
///
/// ```
/// use mulkavesh::{stub, Error, Flags};
///
/// // The function `f` of the module `env`, which is exported as `a`.
/// let module = [
///     b"\0asm\x01\0\0\0".as_slice(),
///     b"\x01\x04\x01\x60\0\0\x02\x09\x01\x03env\x01f\0\0\x07\x05\x01\x01a\0\0",
/// ].concat();
/// // Nothing is imported, and `a` traps.
/// let stubbed = [
///     b"\0asm\x01\0\0\0".as_slice(),
///     b"\x01\x04\x01\x60\0\0\x03\x02\x01\0\x07\x05\x01\x01a\0\0",
///     b"\x0A\x05\x01\x03\0\0\x0B",
/// ].concat();
/// let flags = Flags { no_producers: true, ..Flags::default() };
/// assert_eq!(stub(&module, &["env"], &[], flags).as_ref(), Ok(&stubbed));
/// assert_eq!(stub(&module, &["e*"], &["f"], flags), Ok(stubbed));
/// assert_eq!(stub(&module, &["env"], &["g"], flags), Err(Error::NotFound));
/// ```
pub fn stub(
    input: &[u8],
    modules: &[&str],
    names: &[&str],
    flags: Flags,
) -> Result<Vec<u8>, Error> {
    let modules = choice::records(modules, &[])?;
    let names = choice::records(names, &[])?;
    Call::stub(flags, &modules, &names).answer(input, input.len() + MORE)
}

/// The version of the library: the major number, the minor one, and the patch.
///
/// ```
/// assert_eq!(mulkavesh::version(), (0, 1, 0));
/// ```
pub fn version() -> (u16, u8, u8) {
    let [high, low, minor, patch] = call::version().to_be_bytes();
    (u16::from_be_bytes([high, low]), minor, patch)
}
