//! What sections stand in bytes.

use crate::bytes::{all, byte, named, number};
use crate::Error;

/// A section, as its framing tells of it.
#[derive(Debug, Clone, PartialEq, Eq, Hash)]
pub struct Section {
    /// The number in front of it, which says what it is.
    pub id: u8,
    /// The name of a custom section; other sections have none.
    pub name: Option<String>,
    /// Where its id stands, in bytes from the start.
    pub start: u32,
    /// How many bytes all of it has: the id, the number behind it that says its size, and the
    /// content.
    pub size: u32,
    /// The count of entries in front of its content, where one stands there.
    pub entries: Option<u32>,
}

impl Section {
    /// What the standard calls a section of this id, as in `data count`, or `unknown`.
    pub fn kind(&self) -> &'static str {
        match self.id {
            0 => "custom",
            1 => "type",
            2 => "import",
            3 => "function",
            4 => "table",
            5 => "memory",
            6 => "global",
            7 => "export",
            8 => "start",
            9 => "element",
            10 => "code",
            11 => "data",
            12 => "data count",
            13 => "tag",
            _ => "unknown",
        }
    }
}

/// The sections that stand in bytes, by their framing alone: an id, a size and so many bytes, which in
/// a custom section begin with its name.
#[derive(Debug, Clone, PartialEq, Eq, Hash)]
pub struct Sections {
    /// Each, as they stand.
    pub sections: Vec<Section>,
    /// Where they end, in bytes from the start: at the end of the bytes, or where no section
    /// stands.
    pub end: u32,
    /// Whether they reach the end of the bytes.
    pub is_whole: bool,
}

/// The section at the front of the bytes, and the bytes behind it.
fn section(bytes: &[u8]) -> Result<(Section, &[u8]), Error> {
    let (id, rest) = byte(bytes);
    let (has_entries, rest) = byte(rest);
    let (start, rest) = number(rest);
    let (size, rest) = number(rest);
    let (entries, rest) = number(rest);
    let (length, rest) = number(rest);
    let (name, rest) = named(length, rest)?;
    let entries = (has_entries != 0).then_some(entries);
    let section = Section {
        id,
        name,
        start,
        size,
        entries,
    };
    Ok((section, rest))
}

impl Sections {
    /// What the library answers.
    pub(crate) fn of(answer: &[u8]) -> Result<Sections, Error> {
        let (is_whole, rest) = byte(answer);
        let (end, rest) = number(rest);
        Ok(Sections {
            sections: all(rest, section)?,
            end,
            is_whole: is_whole != 0,
        })
    }
}

#[cfg(test)]
mod tests {
    use super::*;

    #[test]
    fn an_answer_is_read() {
        let answer = b"\x01\x04\x03\x02\x01\
            \0\0\x08\0\0\0\x05\0\0\0\0\0\0\0\x02\0\0\0\xC3\xA9\
            \x03\x01\x0D\x01\0\0\0\0\x01\0\0\x02\0\0\xFF\xFF\xFF\xFF";
        let name = Some("é".to_string());
        let custom = Section {
            id: 0,
            name,
            start: 8,
            size: 5,
            entries: None,
        };
        let functions = Section {
            id: 3,
            name: None,
            start: 269,
            size: 65536,
            entries: Some(512),
        };
        let wanted = Sections {
            sections: vec![custom, functions],
            end: 0x01020304,
            is_whole: true,
        };
        assert_eq!(Sections::of(answer), Ok(wanted));
    }

    #[test]
    fn no_section_is_read() {
        let wanted = Sections {
            sections: Vec::new(),
            end: 8,
            is_whole: false,
        };
        assert_eq!(Sections::of(b"\0\x08\0\0\0"), Ok(wanted));
    }

    #[test]
    fn each_id_has_its_kind() {
        let kinds =
            "custom type import function table memory global export start element code data";
        let kinds = kinds.split(' ').chain(["data count", "tag", "unknown"]);
        for (id, kind) in kinds.enumerate() {
            let section = Section {
                id: id as u8,
                name: None,
                start: 0,
                size: 2,
                entries: None,
            };
            assert_eq!(section.kind(), kind);
        }
    }
}
