//! Tagged records: a byte of tag, two bytes of length, then the contents.

pub const COMPONENT: u8 = 1;
pub const CONNECTION: u8 = 2;
pub const SUMMARY: u8 = 16;
pub const BOUND: u8 = 17;

const HEAD: usize = 3;

/// A whole record of a file, and the offset of what follows it.
pub struct Record<'a> {
    pub tag: u8,
    pub contents: &'a [u8],
    pub end: usize,
}

/// The record at an offset, unless its head or its contents run past the end.
pub fn record_at(file: &[u8], offset: usize) -> Option<Record<'_>> {
    let left = &file[offset..];
    let (head, after) = left.split_at_checked(HEAD)?;
    let length = usize::from(half(head, 1));
    let contents = after.get(..length)?;
    Some(Record {
        tag: head[0],
        contents,
        end: offset + HEAD + length,
    })
}

/// The two-byte number at a place.
pub fn half(bytes: &[u8], at: usize) -> u16 {
    u16::from_be_bytes([bytes[at], bytes[at + 1]])
}

/// The four-byte number at a place.
pub fn word(bytes: &[u8], at: usize) -> u32 {
    u32::from_be_bytes([bytes[at], bytes[at + 1], bytes[at + 2], bytes[at + 3]])
}

/// The head of a record that is to be written.
pub fn head(tag: u8, length: u16) -> [u8; HEAD] {
    let [high, low] = length.to_be_bytes();
    [tag, high, low]
}
