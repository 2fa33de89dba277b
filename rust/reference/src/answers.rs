//! The answers of a walk inside a byte slice: 32-bit words, four bytes each, low first, a rest of one to three bytes not counted.

/// Bytes of an answer.
pub const LENGTH: usize = 4;

/// The answer to a letter that leads nowhere.
pub const NOWHERE: u32 = 4_294_967_295;

pub fn count(bytes: &[u8]) -> usize {
    bytes.len() / LENGTH
}

pub fn get(bytes: &[u8], index: usize) -> u32 {
    u32::from_le_bytes(bytes.as_chunks().0[index])
}

pub fn put(bytes: &mut [u8], index: usize, answer: u32) {
    bytes.as_chunks_mut().0[index] = answer.to_le_bytes();
}
