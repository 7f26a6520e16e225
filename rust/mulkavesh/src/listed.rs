//! The entries of a list.

use crate::bytes::{all, named, number};
use crate::Error;

/// A function with a body, which stays or goes.
#[derive(Debug, Clone, PartialEq, Eq, Hash)]
pub struct Listed {
    /// Its index in the input, where imported functions come first.
    pub index: u32,
    /// How many bytes its body has, without the number in front that says so: where it stays in the
    /// output, and where it goes in the input.
    pub size: u32,
    /// Its name as the input's name section has it, where it has one.
    pub name: Option<String>,
}

/// The entry at the front of the bytes, and the bytes behind it.
fn entry(bytes: &[u8]) -> Result<(Listed, &[u8]), Error> {
    let (index, rest) = number(bytes);
    let (size, rest) = number(rest);
    let (length, rest) = number(rest);
    let (name, rest) = named(length, rest)?;
    Ok((Listed { index, size, name }, rest))
}

/// The entries that a list of the library has.
pub(crate) fn entries(list: &[u8]) -> Result<Vec<Listed>, Error> {
    all(list, entry)
}

#[cfg(test)]
mod tests {
    use super::*;

    #[test]
    fn a_list_is_read() {
        let list = b"\x07\x01\0\0\x02\0\0\0\xFF\xFF\xFF\xFF\
            \x08\x01\0\0\0\0\x01\0\x02\0\0\0\xC3\xA9\
            \x09\x01\0\0\x03\0\0\0\0\0\0\0";
        let wanted = [(263, 2, None), (264, 65536, Some("é")), (265, 3, Some(""))];
        let wanted = wanted.map(|(index, size, name)| Listed {
            index,
            size,
            name: name.map(String::from),
        });
        assert_eq!(entries(list).as_deref(), Ok(&wanted[..]));
    }

    #[test]
    fn an_empty_list_has_no_entry() {
        assert_eq!(entries(b""), Ok(Vec::new()));
    }
}
