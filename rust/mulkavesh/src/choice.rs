//! Lists of NAMEs, as the library takes them.

use crate::{Error, Roots};

/// What stands in front of a NAME that says what goes.
const GOES: u8 = 0;

/// What stands in front of a NAME that says what stays.
const STAYS: u8 = 1;

/// Adds a record: a byte, the length of a name as a number of 32 bits, little-endian, and the name.
fn add(records: &mut Vec<u8>, kind: u8, name: &str) -> Result<(), Error> {
    let length = u32::try_from(name.len()).map_err(|_| Error::TooLarge)?;
    let size = 1 + 4 + name.len();
    records.try_reserve(size).map_err(|_| Error::NoMemory)?;
    records.push(kind);
    records.extend_from_slice(&length.to_le_bytes());
    records.extend_from_slice(name.as_bytes());
    Ok(())
}

/// Adds a record for each of the names.
fn add_all(records: &mut Vec<u8>, kind: u8, names: &[&str]) -> Result<(), Error> {
    names.iter().try_for_each(|name| add(records, kind, name))
}

/// The list of what goes and of what stays after all.
pub(crate) fn records(goes: &[&str], stays: &[&str]) -> Result<Vec<u8>, Error> {
    let mut records = Vec::new();
    add_all(&mut records, GOES, goes)?;
    add_all(&mut records, STAYS, stays)?;
    Ok(records)
}

/// The list of a choice of exports, in the order of their numbers.
pub(crate) fn roots(roots: Roots<'_>) -> Result<Vec<u8>, Error> {
    let mut records = Vec::new();
    add_all(&mut records, STAYS, roots.keep)?;
    add_all(&mut records, GOES, roots.drop)?;
    Ok(records)
}

#[cfg(test)]
mod tests {
    use super::*;

    #[test]
    fn names_stand_behind_their_lengths() {
        let long = "a".repeat(258);
        let wanted = [b"\0\x02\x01\0\0".as_slice(), long.as_bytes()].concat();
        assert_eq!(records(&[&long], &[]), Ok(wanted));
        let wanted = b"\0\x02\0\0\0\xC3\xA9\0\0\0\0\0\x01\x02\0\0\0.*";
        assert_eq!(records(&["é", ""], &[".*"]), Ok(wanted.to_vec()));
        assert_eq!(records(&[], &[]), Ok(Vec::new()));
    }

    #[test]
    fn what_is_kept_stands_in_front() {
        let names = Roots {
            keep: &["a"],
            drop: &["b", ""],
        };
        let wanted = b"\x01\x01\0\0\0a\0\x01\0\0\0b\0\0\0\0\0";
        assert_eq!(roots(names), Ok(wanted.to_vec()));
        assert_eq!(roots(Roots::default()), Ok(Vec::new()));
    }
}
