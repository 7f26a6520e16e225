//! What stands in answers of the library, from front to end.

use crate::Error;
use mulkavesh_sys::MULKAVESH_NO_NAME;

/// The byte at the front of the bytes, and the bytes behind it.
pub(crate) fn byte(bytes: &[u8]) -> (u8, &[u8]) {
    let (front, rest) = bytes.split_at(1);
    (front[0], rest)
}

/// The number at the front of the bytes, of 32 bits, little-endian, and the bytes behind it.
pub(crate) fn number(bytes: &[u8]) -> (u32, &[u8]) {
    let (front, rest) = bytes.split_at(4);
    let front = front.try_into().expect("four bytes");
    (u32::from_le_bytes(front), rest)
}

/// The number, where it isn't the one that stands for none.
pub(crate) fn some(number: u32) -> Option<u32> {
    Some(number).filter(|number| *number != MULKAVESH_NO_NAME)
}

/// The text that these bytes are.
pub(crate) fn copied(bytes: &[u8]) -> Result<String, Error> {
    let mut copy = Vec::new();
    copy.try_reserve_exact(bytes.len())
        .map_err(|_| Error::NoMemory)?;
    copy.extend_from_slice(bytes);
    Ok(String::from_utf8(copy).expect("a name in a module is UTF-8"))
}

/// The name of this length at the front of the bytes, where one is there, and the bytes behind it.
pub(crate) fn named(length: u32, bytes: &[u8]) -> Result<(Option<String>, &[u8]), Error> {
    match some(length) {
        None => Ok((None, bytes)),
        Some(length) => {
            let (name, rest) = bytes.split_at(length as usize);
            Ok((Some(copied(name)?), rest))
        }
    }
}

/// The text behind its length, and the bytes behind it.
pub(crate) fn text(bytes: &[u8]) -> Result<(String, &[u8]), Error> {
    let (length, rest) = number(bytes);
    let (text, rest) = rest.split_at(length as usize);
    Ok((copied(text)?, rest))
}

/// One thing more behind those that were found.
pub(crate) fn push<T>(found: &mut Vec<T>, one: T) -> Result<(), Error> {
    found.try_reserve(1).map_err(|_| Error::NoMemory)?;
    found.push(one);
    Ok(())
}

/// What is read at the front of bytes, and the bytes behind it.
type Read<'a, T> = Result<(T, &'a [u8]), Error>;

/// All that a list has, each read by `read`.
pub(crate) fn all<T>(list: &[u8], read: impl Fn(&[u8]) -> Read<'_, T>) -> Result<Vec<T>, Error> {
    let mut found = Vec::new();
    let mut rest = list;
    while !rest.is_empty() {
        let (one, behind) = read(rest)?;
        push(&mut found, one)?;
        rest = behind;
    }
    Ok(found)
}
