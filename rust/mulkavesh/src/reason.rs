//! Why an item stays.

use crate::bytes::{all, byte, named, number, push, some, text};
use crate::{Error, Kind};
use mulkavesh_sys::{
    MULKAVESH_KIND_DATA, MULKAVESH_KIND_ELEMENT, MULKAVESH_KIND_FUNCTION, MULKAVESH_KIND_GLOBAL,
    MULKAVESH_KIND_MEMORY, MULKAVESH_KIND_TABLE, MULKAVESH_KIND_TAG, MULKAVESH_KIND_TYPE,
    MULKAVESH_ROOT_ACTIVE, MULKAVESH_ROOT_DECLARED, MULKAVESH_ROOT_EXPORTED, MULKAVESH_ROOT_NONE,
    MULKAVESH_ROOT_START,
};

/// Why an item stays, or that it doesn't.
#[derive(Debug, Clone, PartialEq, Eq, Hash)]
pub struct Reason {
    /// What kind of item it is.
    pub kind: Kind,
    /// Its index in the input, among those of its kind; imported ones come first.
    pub index: u32,
    /// A chain of references that leads to it: a root first, each refers to the next, and the item is
    /// the last. None where it isn't reached.
    pub links: Vec<Link>,
    /// What makes the first link a root, where there is one.
    pub root: Option<Root>,
    /// What would go with it, where it is a function with a body that stays.
    pub alone: Option<Alone>,
}

/// An item that stays.
#[derive(Debug, Clone, PartialEq, Eq, Hash)]
pub struct Link {
    /// What kind of item it is.
    pub kind: Kind,
    /// Its index in the input, among those of its kind; imported ones come first.
    pub index: u32,
    /// Its name as the input's name section has it, where it has one.
    pub name: Option<String>,
    /// The names under which it is exported, of the exports that stay.
    pub exports: Vec<String>,
    /// How many bytes its body has in the output, where it is a function with a body.
    pub size: Option<u32>,
}

/// What makes an item stay by itself: the first of these that does.
#[derive(Debug, Clone, Copy, PartialEq, Eq, Hash)]
pub enum Root {
    /// It is exported.
    Exported,
    /// It is the start function.
    Start,
    /// It is an active segment.
    Active,
    /// It is a declared segment.
    Declared,
}

/// What a function keeps alone, itself among it: what stays, and wouldn't if its body trapped.
#[derive(Debug, Clone, Copy, PartialEq, Eq, Hash)]
pub struct Alone {
    /// How many functions that are.
    pub functions: u32,
    /// How many bytes their bodies have in the output.
    pub bytes: u32,
}

/// The kind that the number says.
fn kind(number: u8) -> Kind {
    match number {
        MULKAVESH_KIND_TYPE => Kind::Type,
        MULKAVESH_KIND_FUNCTION => Kind::Function,
        MULKAVESH_KIND_TABLE => Kind::Table,
        MULKAVESH_KIND_MEMORY => Kind::Memory,
        MULKAVESH_KIND_TAG => Kind::Tag,
        MULKAVESH_KIND_GLOBAL => Kind::Global,
        MULKAVESH_KIND_ELEMENT => Kind::Element,
        MULKAVESH_KIND_DATA => Kind::Data,
        other => unreachable!("the library tells the kind {other}"),
    }
}

/// The root that the number says, or none.
fn root(number: u8) -> Option<Root> {
    match number {
        MULKAVESH_ROOT_NONE => None,
        MULKAVESH_ROOT_EXPORTED => Some(Root::Exported),
        MULKAVESH_ROOT_START => Some(Root::Start),
        MULKAVESH_ROOT_ACTIVE => Some(Root::Active),
        MULKAVESH_ROOT_DECLARED => Some(Root::Declared),
        other => unreachable!("the library tells the root {other}"),
    }
}

/// So many texts at the front of the bytes, and the bytes behind them.
fn texts(count: u32, bytes: &[u8]) -> Result<(Vec<String>, &[u8]), Error> {
    let mut found = Vec::new();
    let mut rest = bytes;
    for _ in 0..count {
        let (one, behind) = text(rest)?;
        push(&mut found, one)?;
        rest = behind;
    }
    Ok((found, rest))
}

/// The link at the front of the bytes, and the bytes behind it.
fn link(bytes: &[u8]) -> Result<(Link, &[u8]), Error> {
    let (front, rest) = byte(bytes);
    let (index, rest) = number(rest);
    let (size, rest) = number(rest);
    let (length, rest) = number(rest);
    let (name, rest) = named(length, rest)?;
    let (count, rest) = number(rest);
    let (exports, rest) = texts(count, rest)?;
    let link = Link {
        kind: kind(front),
        index,
        name,
        exports,
        size: some(size),
    };
    Ok((link, rest))
}

/// The links that a list of the library has.
pub(crate) fn links(list: &[u8]) -> Result<Vec<Link>, Error> {
    all(list, link)
}

impl Reason {
    /// What the library answers.
    pub(crate) fn of(answer: &[u8]) -> Result<Reason, Error> {
        let (front, rest) = byte(answer);
        let (index, rest) = number(rest);
        let (root_number, rest) = byte(rest);
        let (has_alone, rest) = byte(rest);
        let (functions, rest) = number(rest);
        let (bytes, rest) = number(rest);
        Ok(Reason {
            kind: kind(front),
            index,
            links: links(rest)?,
            root: root(root_number),
            alone: (has_alone != 0).then_some(Alone { functions, bytes }),
        })
    }
}

#[cfg(test)]
mod tests {
    use super::*;

    #[test]
    fn a_reason_is_read() {
        let answer = b"\x01\x02\0\0\0\x03\x01\x05\0\0\0\0\x01\0\0\
            \x07\x09\0\0\0\xFF\xFF\xFF\xFF\xFF\xFF\xFF\xFF\0\0\0\0\
            \x01\x02\0\0\0\x08\x01\0\0\x02\0\0\0\xC3\xA9\x02\0\0\0\x01\0\0\0a\0\0\0\0";
        let segment = Link {
            kind: Kind::Data,
            index: 9,
            name: None,
            exports: Vec::new(),
            size: None,
        };
        let function = Link {
            kind: Kind::Function,
            index: 2,
            name: Some("é".to_string()),
            exports: vec!["a".to_string(), String::new()],
            size: Some(264),
        };
        let wanted = Reason {
            kind: Kind::Function,
            index: 2,
            links: vec![segment, function],
            root: Some(Root::Active),
            alone: Some(Alone {
                functions: 5,
                bytes: 256,
            }),
        };
        assert_eq!(Reason::of(answer), Ok(wanted));
    }

    #[test]
    fn what_is_not_reached_has_no_links() {
        let wanted = Reason {
            kind: Kind::Memory,
            index: 1,
            links: Vec::new(),
            root: None,
            alone: None,
        };
        assert_eq!(
            Reason::of(b"\x03\x01\0\0\0\0\0\0\0\0\0\0\0\0\0"),
            Ok(wanted)
        );
    }

    #[test]
    fn each_number_has_its_kind_and_its_root() {
        let words = "type function table memory tag global element data";
        for (number, word) in words.split(' ').enumerate() {
            assert_eq!(kind(number as u8).word(), word);
        }
        let roots = [Root::Exported, Root::Start, Root::Active, Root::Declared];
        for (number, wanted) in roots.into_iter().enumerate() {
            assert_eq!(root(number as u8 + 1), Some(wanted));
        }
        assert_eq!(root(0), None);
    }
}
