//! Memory to lend: a slice between guard bytes, by turns at an even and an odd address.

const GUARD: usize = 32;

#[derive(Default)]
pub struct Room {
    bytes: Vec<u8>,
    first: usize,
    length: usize,
}

fn guard(index: usize) -> u8 {
    0xC3 ^ (index.wrapping_mul(37) as u8)
}

impl Room {
    /// Lends a copy of this content.
    pub fn fill(&mut self, content: &[u8], odd: bool) {
        self.first = GUARD + usize::from(odd);
        self.length = content.len();
        self.bytes.clear();
        self.bytes.extend((0..self.first).map(guard));
        self.bytes.extend(content);
        self.bytes.extend((self.bytes.len()..self.bytes.len() + GUARD).map(guard));
    }

    pub fn lend(&mut self) -> &mut [u8] {
        &mut self.bytes[self.first..self.first + self.length]
    }

    pub fn content(&self) -> &[u8] {
        &self.bytes[self.first..self.first + self.length]
    }

    /// Whether every guard byte is as it was.
    pub fn guarded(&self) -> bool {
        let outside = (0..self.first).chain(self.first + self.length..self.bytes.len());
        outside.into_iter().all(|index| self.bytes[index] == guard(index))
    }
}
