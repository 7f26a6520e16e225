//! The kinds of items.

use std::fmt;

/// What an item of a module is.
///
/// ```
/// assert_eq!(mulkavesh::Kind::Function.to_string(), "function");
/// ```
#[derive(Debug, Clone, Copy, PartialEq, Eq, Hash)]
pub enum Kind {
    /// A type.
    Type,
    /// A function.
    Function,
    /// A table.
    Table,
    /// A memory.
    Memory,
    /// A tag.
    Tag,
    /// A global.
    Global,
    /// An element segment.
    Element,
    /// A data segment.
    Data,
}

impl Kind {
    /// The word for it.
    pub fn word(self) -> &'static str {
        match self {
            Kind::Type => "type",
            Kind::Function => "function",
            Kind::Table => "table",
            Kind::Memory => "memory",
            Kind::Tag => "tag",
            Kind::Global => "global",
            Kind::Element => "element",
            Kind::Data => "data",
        }
    }
}

impl fmt::Display for Kind {
    fn fmt(&self, formatter: &mut fmt::Formatter<'_>) -> fmt::Result {
        formatter.write_str(self.word())
    }
}
