//! What a module exports and imports.

use crate::bytes::{all, byte, number, text};
use crate::{Error, Kind};
use mulkavesh_sys::{
    MULKAVESH_EXTERN_FUNCTION, MULKAVESH_EXTERN_GLOBAL, MULKAVESH_EXTERN_MEMORY,
    MULKAVESH_EXTERN_TABLE, MULKAVESH_EXTERN_TAG,
};

/// An export that stays.
#[derive(Debug, Clone, PartialEq, Eq, Hash)]
pub struct Exported {
    /// What kind of item is exported.
    pub kind: Kind,
    /// The index of the item in the input, among those of its kind; imported ones come first.
    pub index: u32,
    /// The name of the export.
    pub name: String,
}

/// An import that stays.
#[derive(Debug, Clone, PartialEq, Eq, Hash)]
pub struct Imported {
    /// What kind of item is imported.
    pub kind: Kind,
    /// The index of the item in the input, among those of its kind.
    pub index: u32,
    /// The name of the module that it is imported from.
    pub module: String,
    /// The name of the import.
    pub name: String,
}

/// The kind that the number says.
fn kind(number: u8) -> Kind {
    match number {
        MULKAVESH_EXTERN_FUNCTION => Kind::Function,
        MULKAVESH_EXTERN_TABLE => Kind::Table,
        MULKAVESH_EXTERN_MEMORY => Kind::Memory,
        MULKAVESH_EXTERN_GLOBAL => Kind::Global,
        MULKAVESH_EXTERN_TAG => Kind::Tag,
        other => unreachable!("the library tells the kind {other}"),
    }
}

/// The export at the front of the bytes, and the bytes behind it.
fn exported(bytes: &[u8]) -> Result<(Exported, &[u8]), Error> {
    let (front, rest) = byte(bytes);
    let (index, rest) = number(rest);
    let (name, rest) = text(rest)?;
    let kind = kind(front);
    Ok((Exported { kind, index, name }, rest))
}

/// The import at the front of the bytes, and the bytes behind it.
fn imported(bytes: &[u8]) -> Result<(Imported, &[u8]), Error> {
    let (front, rest) = byte(bytes);
    let (index, rest) = number(rest);
    let (module, rest) = text(rest)?;
    let (name, rest) = text(rest)?;
    let found = Imported {
        kind: kind(front),
        index,
        module,
        name,
    };
    Ok((found, rest))
}

/// The exports that a list of the library has.
pub(crate) fn exports(list: &[u8]) -> Result<Vec<Exported>, Error> {
    all(list, exported)
}

/// The imports that a list of the library has.
pub(crate) fn imports(list: &[u8]) -> Result<Vec<Imported>, Error> {
    all(list, imported)
}

#[cfg(test)]
mod tests {
    use super::*;

    const KINDS: [Kind; 5] = [
        Kind::Function,
        Kind::Table,
        Kind::Memory,
        Kind::Global,
        Kind::Tag,
    ];

    #[test]
    fn exports_are_read() {
        let list = b"\0\x01\x02\0\0\0\0\0\0\x02\0\0\0\0\x02\0\0\0\xC3\xA9";
        let told = |kind, index, name: &str| Exported {
            kind,
            index,
            name: name.to_string(),
        };
        let wanted = [told(Kind::Function, 513, ""), told(Kind::Memory, 0, "é")];
        assert_eq!(exports(list).as_deref(), Ok(&wanted[..]));
        assert_eq!(exports(b""), Ok(Vec::new()));
    }

    #[test]
    fn imports_are_read() {
        for (number, kind) in KINDS.into_iter().enumerate() {
            let list = b"\x07\0\0\0\x01\0\0\0m\x02\0\0\0of";
            let list = [&[number as u8], &list[..]].concat();
            let wanted = Imported {
                kind,
                index: 7,
                module: "m".to_string(),
                name: "of".to_string(),
            };
            assert_eq!(imports(&list), Ok(vec![wanted]));
        }
    }
}
