//! 16-bit words inside byte slices: two bytes a word, low first, an odd last byte not counted.

pub fn count(bytes: &[u8]) -> usize {
    bytes.len() / 2
}

pub fn get(bytes: &[u8], index: usize) -> u16 {
    u16::from_le_bytes([bytes[2 * index], bytes[2 * index + 1]])
}

pub fn put(bytes: &mut [u8], index: usize, word: u16) {
    bytes[2 * index..2 * index + 2].copy_from_slice(&word.to_le_bytes());
}

/// Four words as eight bytes: the form of a cell.
pub fn pack(words: [u16; 4]) -> [u8; 8] {
    let mut bytes = [0; 8];
    for (index, word) in words.into_iter().enumerate() {
        put(&mut bytes, index, word);
    }
    bytes
}

pub fn unpack(bytes: [u8; 8]) -> [u16; 4] {
    std::array::from_fn(|index| get(&bytes, index))
}
