//! Small modules, put together from sections.

const HEADER: &[u8] = b"\0asm\x01\0\0\0";

fn section(id: u8, content: &[u8]) -> Vec<u8> {
    let size = u8::try_from(content.len()).expect("a short section");
    assert!(size < 128, "a short section");
    [&[id, size], content].concat()
}

/// A module of sections, each an id and its content, of fewer than 128 bytes.
pub fn module_of(parts: &[(u8, &[u8])]) -> Vec<u8> {
    let sections = parts.iter().map(|(id, content)| section(*id, content));
    [HEADER.to_vec(), sections.collect::<Vec<_>>().concat()].concat()
}
