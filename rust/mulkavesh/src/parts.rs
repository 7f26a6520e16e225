//! What stands in a module.

use crate::{Error, Section};
use mulkavesh_sys::{MULKAVESH_FUNCTION, MULKAVESH_SEGMENT};

/// A function with a body, or a data segment, as it stands in a module.
#[derive(Debug, Clone, Copy, PartialEq, Eq, Hash)]
pub struct Item {
    /// Its index; imported functions have the first ones.
    pub index: u32,
    /// Where it begins, in bytes from the start: a function behind the number that says the size of
    /// its body.
    pub start: u32,
    /// How many bytes it has.
    pub size: u32,
}

/// A part of a module.
#[derive(Debug, Clone, PartialEq, Eq, Hash)]
pub enum Part {
    /// A section.
    Section(Section),
    /// A function with a body.
    Function(Item),
    /// A data segment.
    Segment(Item),
}

impl Part {
    /// The part that the library tells as this section.
    fn of(told: Section) -> Part {
        let item = Item {
            index: told.entries.unwrap_or_default(),
            start: told.start,
            size: told.size,
        };
        match told.id {
            MULKAVESH_FUNCTION => Part::Function(item),
            MULKAVESH_SEGMENT => Part::Segment(item),
            _ => Part::Section(told),
        }
    }
}

/// The parts that the library tells as these sections.
pub(crate) fn parts(told: Vec<Section>) -> Result<Vec<Part>, Error> {
    let mut parts = Vec::new();
    parts
        .try_reserve_exact(told.len())
        .map_err(|_| Error::NoMemory)?;
    parts.extend(told.into_iter().map(Part::of));
    Ok(parts)
}
