//! Why a module isn't written.

use crate::{Error as CallError, Rule};
use std::{error, fmt};

/// An item, by its id.
#[derive(Debug, Clone, Copy, PartialEq, Eq, Hash)]
#[allow(missing_docs)]
pub enum Item {
    Type(u32),
    Function(u32),
    Table(u32),
    Memory(u32),
    Global(u32),
    Tag(u32),
    Import(u32),
    Export(u32),
    Element(u32),
    Data(u32),
    /// A custom section.
    Custom(u32),
    /// The start function.
    Start,
    /// A producer, by its place among them.
    Producer(u32),
    /// The module, of which only the name may be refused.
    Module,
}

impl fmt::Display for Item {
    fn fmt(&self, formatter: &mut fmt::Formatter<'_>) -> fmt::Result {
        let (what, index) = match self {
            Item::Type(index) => ("type", index),
            Item::Function(index) => ("function", index),
            Item::Table(index) => ("table", index),
            Item::Memory(index) => ("memory", index),
            Item::Global(index) => ("global", index),
            Item::Tag(index) => ("tag", index),
            Item::Import(index) => ("import", index),
            Item::Export(index) => ("export", index),
            Item::Element(index) => ("element segment", index),
            Item::Data(index) => ("data segment", index),
            Item::Custom(index) => ("custom section", index),
            Item::Producer(index) => ("producer", index),
            Item::Start => return formatter.write_str("the start function"),
            Item::Module => return formatter.write_str("the module"),
        };
        write!(formatter, "{what} {index}")
    }
}

/// What is wrong with a module that all changes left. Its text says it.
#[derive(Debug, Clone, Copy, PartialEq, Eq, Hash)]
pub enum Cause {
    /// It breaks this rule.
    Rule(Rule),
    /// It names an item that is gone.
    Gone,
    /// An item stands in it twice.
    TwoIndices,
    /// It names an item that stands nowhere.
    NoIndex,
    /// A body or an expression of it can't be spelled.
    NoSpelling,
}

impl fmt::Display for Cause {
    fn fmt(&self, formatter: &mut fmt::Formatter<'_>) -> fmt::Result {
        match self {
            Cause::Rule(rule) => rule.fmt(formatter),
            Cause::Gone => formatter.write_str("it names an item that is gone"),
            Cause::TwoIndices => formatter.write_str("an item stands in it twice"),
            Cause::NoIndex => formatter.write_str("it names an item that stands nowhere"),
            Cause::NoSpelling => formatter.write_str("a body or an expression can't be spelled"),
        }
    }
}

/// Why a module isn't written. Nothing is left of the call, and the module is as it was.
///
/// ```
/// use mulkavesh::module::{Error, Item};
///
/// let error = Error::Item(Item::Function(12), "its body isn't well formed");
/// assert_eq!(error.to_string(), "function 12: its body isn't well formed");
/// ```
#[derive(Debug, Clone, PartialEq, Eq, Hash)]
pub enum Error {
    /// The input is refused, memory ran out, or a count or a size passes 32 bits.
    Call(CallError),
    /// This item can't be written as it is, or a call on it can't be made; the text says why.
    Item(Item, &'static str),
    /// Each item can be written, and all of them are no module that keeps the rules.
    Whole(Cause),
}

impl From<CallError> for Error {
    fn from(error: CallError) -> Self {
        Error::Call(error)
    }
}

impl fmt::Display for Error {
    fn fmt(&self, formatter: &mut fmt::Formatter<'_>) -> fmt::Result {
        match self {
            Error::Call(error) => error.fmt(formatter),
            Error::Item(item, why) => write!(formatter, "{item}: {why}"),
            Error::Whole(cause) => write!(formatter, "the changed module is invalid: {cause}"),
        }
    }
}

impl error::Error for Error {}
