//! Pseudo-random numbers from a seed (splitmix64), so that every run can be had again.
use std::env;
use std::time::{SystemTime, UNIX_EPOCH};

pub struct Random(u64);

impl Random {
    pub fn new(seed: u64) -> Random {
        Random(seed)
    }

    /// The seed that the variable `TRIALS_SEED` gives, else one from the clock.
    pub fn seed() -> u64 {
        match env::var("TRIALS_SEED") {
            Ok(seed) => seed.parse().expect("TRIALS_SEED is a number"),
            Err(_) => SystemTime::now().duration_since(UNIX_EPOCH).map_or(1, |since| since.as_nanos() as u64),
        }
    }

    pub fn number(&mut self) -> u64 {
        self.0 = self.0.wrapping_add(0x9E37_79B9_7F4A_7C15);
        let mut mixed = self.0;
        mixed = (mixed ^ (mixed >> 30)).wrapping_mul(0xBF58_476D_1CE4_E5B9);
        mixed = (mixed ^ (mixed >> 27)).wrapping_mul(0x94D0_49BB_1331_11EB);
        mixed ^ (mixed >> 31)
    }

    pub fn below(&mut self, bound: usize) -> usize {
        (self.number() % bound as u64) as usize
    }

    /// A number from `first` to `last`, both included.
    pub fn between(&mut self, first: usize, last: usize) -> usize {
        first + self.below(last - first + 1)
    }

    pub fn word(&mut self) -> u16 {
        self.number() as u16
    }

    /// True once in `times`.
    pub fn once_in(&mut self, times: usize) -> bool {
        self.below(times) == 0
    }

    pub fn pick<T: Clone>(&mut self, among: &[T]) -> T {
        among[self.below(among.len())].clone()
    }

    /// So many of these, or all where there are fewer.
    pub fn some<T>(&mut self, mut among: Vec<T>, count: usize) -> Vec<T> {
        while among.len() > count {
            among.swap_remove(self.below(among.len()));
        }
        among
    }

    /// So many rules numbered in any order.
    pub fn order(&mut self, n: usize) -> Vec<u16> {
        let mut number: Vec<u16> = (0..n as u16).collect();
        (1..n).for_each(|last| number.swap(self.below(last + 1), last));
        number
    }

    /// So many rules numbered in any order, in reverse, moved on by some, or with a few numbers swapped.
    pub fn numbering(&mut self, n: usize) -> Vec<u16> {
        let mut number: Vec<u16> = (0..n as u16).collect();
        match self.below(6) {
            0 => number.reverse(),
            1 => number.rotate_left(self.below(n)),
            2 => (0..self.between(1, 3)).for_each(|_| number.swap(self.below(n), self.below(n))),
            _ => number = self.order(n),
        }
        number
    }

    pub fn bytes(&mut self, count: usize) -> Vec<u8> {
        let mut bytes = Vec::with_capacity(count + 8);
        while bytes.len() < count {
            bytes.extend(self.number().to_le_bytes());
        }
        bytes.truncate(count);
        bytes
    }

    /// What a lent slice may hold before a call: zeros, one byte all over, or anything.
    pub fn leftovers(&mut self, count: usize) -> Vec<u8> {
        match self.below(3) {
            0 => vec![0; count],
            1 => vec![self.number() as u8; count],
            _ => self.bytes(count),
        }
    }
}
