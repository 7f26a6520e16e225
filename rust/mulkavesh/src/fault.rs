//! What is wrong with bytes.

use crate::bytes::number;
use mulkavesh_sys as library;
use std::fmt;

/// What is wrong with bytes that are refused as invalid. Its text says it in plain words.
///
/// ```
/// use mulkavesh::{Beginning, Fault, Rule};
///
/// let text = Fault::Header(Beginning::Gzip).to_string();
/// let wanted = "the bytes don't begin as a WebAssembly module: they are compressed by gzip";
/// assert_eq!(text, wanted);
/// let text = Fault::Section(1234).to_string();
/// assert_eq!(text, "no well-formed section stands at byte 1234 (0x4D2)");
/// let text = Fault::Rule(Rule::ExportNames).to_string();
/// assert_eq!(text, "two exports have the same name");
/// ```
#[derive(Debug, Clone, Copy, PartialEq, Eq, Hash)]
pub enum Fault {
    /// The magic number and the version don't stand in front; this is what does.
    Header(Beginning),
    /// Whole sections stand up to this place, in bytes from the start; what stands there is none.
    Section(u32),
    /// The sections break this rule on the whole.
    Rule(Rule),
    /// The body of the function of this index isn't made of allowed instructions, well nested, with
    /// declared indices; those of all functions before it are. Imported functions come first.
    Body(u32),
}

/// What bytes begin as that don't begin as a module. Its text says it.
#[derive(Debug, Clone, Copy, PartialEq, Eq, Hash)]
pub enum Beginning {
    /// There are no bytes.
    Empty,
    /// Fewer than eight bytes, all of which begin a module's header.
    Cut,
    /// What gzip made.
    Gzip,
    /// A zip archive.
    Zip,
    /// What zstd made.
    Zstd,
    /// A program or a library for a processor (ELF).
    Elf,
    /// Code of LLVM (bitcode).
    Bitcode,
    /// WebAssembly in the text form.
    Text,
    /// A component.
    Component,
    /// The magic number, and another version.
    OtherVersion,
    /// None of these.
    Other,
}

impl Beginning {
    /// The beginning of a number of the library.
    fn of(number: u32) -> Beginning {
        match number {
            library::MULKAVESH_BEGINS_OTHER => Beginning::Other,
            library::MULKAVESH_BEGINS_EMPTY => Beginning::Empty,
            library::MULKAVESH_BEGINS_CUT => Beginning::Cut,
            library::MULKAVESH_BEGINS_GZIP => Beginning::Gzip,
            library::MULKAVESH_BEGINS_ZIP => Beginning::Zip,
            library::MULKAVESH_BEGINS_ZSTD => Beginning::Zstd,
            library::MULKAVESH_BEGINS_ELF => Beginning::Elf,
            library::MULKAVESH_BEGINS_BITCODE => Beginning::Bitcode,
            library::MULKAVESH_BEGINS_TEXT => Beginning::Text,
            library::MULKAVESH_BEGINS_COMPONENT => Beginning::Component,
            library::MULKAVESH_BEGINS_OTHER_VERSION => Beginning::OtherVersion,
            other => unreachable!("the library has no beginning {other}"),
        }
    }

    /// What stands in the text behind that the bytes don't begin as a module.
    fn text(self) -> &'static str {
        match self {
            Beginning::Empty => ": there are none",
            Beginning::Cut => ": they end within the header",
            Beginning::Gzip => ": they are compressed by gzip",
            Beginning::Zip => ": they are a zip archive",
            Beginning::Zstd => ": they are compressed by zstd",
            Beginning::Elf => ": they are an ELF file",
            Beginning::Bitcode => ": they are LLVM bitcode",
            Beginning::Text => ": they are WebAssembly text, not binary",
            Beginning::Component => ": they are a component, not a module",
            Beginning::OtherVersion => ": they have another version",
            Beginning::Other => "",
        }
    }
}

impl fmt::Display for Beginning {
    fn fmt(&self, formatter: &mut fmt::Formatter<'_>) -> fmt::Result {
        let more = self.text();
        write!(
            formatter,
            "the bytes don't begin as a WebAssembly module{more}"
        )
    }
}

/// A rule on the sections of a module as a whole. Its text says that it is broken.
#[derive(Debug, Clone, Copy, PartialEq, Eq, Hash)]
pub enum Rule {
    /// Sections stand in the standard's order, each at most once.
    Order,
    /// A type names types that are declared by the end of its group, and has at most one supertype,
    /// which stands before it.
    Types,
    /// Each index names what is declared.
    Indices,
    /// Functions and tags have function types.
    FunctionTypes,
    /// The limits of tables and memories are allowed.
    Limits,
    /// There are as many bodies as functions, and as many data segments as a data count says.
    Counts,
    /// No two exports have the same name.
    ExportNames,
    /// The start function has neither parameters nor results.
    Start,
    /// The offset of a segment is of the type of addresses.
    Offsets,
    /// A body declares at most 50,000 locals.
    Locals,
}

impl Rule {
    /// The rule of a number of the library.
    pub(crate) fn of(number: u32) -> Rule {
        match number {
            library::MULKAVESH_RULE_ORDER => Rule::Order,
            library::MULKAVESH_RULE_TYPES => Rule::Types,
            library::MULKAVESH_RULE_INDICES => Rule::Indices,
            library::MULKAVESH_RULE_FUNCTION_TYPES => Rule::FunctionTypes,
            library::MULKAVESH_RULE_LIMITS => Rule::Limits,
            library::MULKAVESH_RULE_COUNTS => Rule::Counts,
            library::MULKAVESH_RULE_EXPORT_NAMES => Rule::ExportNames,
            library::MULKAVESH_RULE_START => Rule::Start,
            library::MULKAVESH_RULE_OFFSETS => Rule::Offsets,
            library::MULKAVESH_RULE_LOCALS => Rule::Locals,
            other => unreachable!("the library has no rule {other}"),
        }
    }

    fn text(self) -> &'static str {
        match self {
            Rule::Order => "the sections stand out of order, or one stands twice",
            Rule::Types => {
                "a type names one that isn't declared by the end of its group, \
                 or has a supertype that isn't before it, or more than one"
            }
            Rule::Indices => "an index names something that isn't declared, or isn't yet",
            Rule::FunctionTypes => "a function or a tag has a type that is no function type",
            Rule::Limits => "the limits of a table or a memory aren't allowed",
            Rule::Counts => {
                "the number of bodies or of data segments isn't the one that is declared"
            }
            Rule::ExportNames => "two exports have the same name",
            Rule::Start => "the start function has parameters or results",
            Rule::Offsets => "the offset of a segment isn't of the type of addresses",
            Rule::Locals => "a body declares more than 50,000 locals",
        }
    }
}

impl fmt::Display for Rule {
    fn fmt(&self, formatter: &mut fmt::Formatter<'_>) -> fmt::Result {
        formatter.write_str(self.text())
    }
}

impl Fault {
    /// What the eight bytes say that the library answers: two numbers of 32 bits, little-endian.
    pub(crate) fn of(answer: &[u8]) -> Option<Fault> {
        let (kind, rest) = number(answer);
        let (which, _) = number(rest);
        match kind {
            library::MULKAVESH_FAULT_NONE => None,
            library::MULKAVESH_FAULT_HEADER => Some(Fault::Header(Beginning::of(which))),
            library::MULKAVESH_FAULT_SECTION => Some(Fault::Section(which)),
            library::MULKAVESH_FAULT_RULE => Some(Fault::Rule(Rule::of(which))),
            library::MULKAVESH_FAULT_BODY => Some(Fault::Body(which)),
            other => unreachable!("the library has no kind {other} of what is wrong"),
        }
    }
}

impl fmt::Display for Fault {
    fn fmt(&self, formatter: &mut fmt::Formatter<'_>) -> fmt::Result {
        match self {
            Fault::Header(beginning) => beginning.fmt(formatter),
            Fault::Section(place) => write!(
                formatter,
                "no well-formed section stands at byte {place} (0x{place:X})"
            ),
            Fault::Rule(rule) => rule.fmt(formatter),
            Fault::Body(index) => write!(
                formatter,
                "the body of function {index} isn't made of allowed instructions, \
                 well nested, with declared indices"
            ),
        }
    }
}

#[cfg(test)]
mod tests {
    use super::*;

    #[test]
    fn the_lowest_byte_stands_first() {
        let section = b"\x02\0\0\0\x04\x03\x02\x01";
        assert_eq!(Fault::of(section), Some(Fault::Section(0x01020304)));
        let header = b"\x01\0\0\0\x0A\0\0\0";
        let version = Fault::Header(Beginning::OtherVersion);
        assert_eq!(Fault::of(header), Some(version));
        let body = b"\x04\0\0\0\xFF\xFF\xFF\xFF";
        assert_eq!(Fault::of(body), Some(Fault::Body(u32::MAX)));
    }
}
