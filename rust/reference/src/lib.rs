//! The nine operations on meal plans, written from documents 01 and 02 and Reh and Sieber's paper alone, so that the proved library has
//! something to be compared with. It is written twice over the same format ([`plan`]):
//!
//! - [`unfolded`] unfolds the forest into memory, gives every node its place and walks with a finger, word for word as document 01
//!   says it. It needs small forests.
//! - [`rules`] never unfolds: tables of rules, O(log n) a letter. It walks forests of any size, and the benchmark compares with it.
//!
//! Every operation takes the same lent slices as the C interface and leaves the same bytes in them. The classes of labels ([`rows`]) are written
//! twice too: by counting, and in order. Of the client's copy ([`copy`]), whose rules are left free, there are the refusals and the forest, by
//! unfolding and leaving out; and what is taken out of it, by unfolding and by rules.
#![forbid(unsafe_code)]

pub mod answers;
pub mod compare;
pub mod copy;
pub mod format;
pub mod place;
pub mod plan;
mod reach;
pub mod reason;
pub mod refusal;
pub mod rows;
pub mod rules;
pub mod unfolded;
pub mod words;

pub use answers::NOWHERE;
pub use compare::Compared;
pub use format::Format;
pub use reason::Reason;
pub use refusal::{Refused, Why};

/// The number of rules of an accepted plan, and its start rule.
#[derive(Clone, Copy, PartialEq, Eq, Debug)]
pub struct Checked {
    pub n: u16,
    pub start: u16,
}

/// The record length of an accepted plan, its number of rules and its start rule.
#[derive(Clone, Copy, PartialEq, Eq, Debug)]
pub struct Unsealed {
    pub record_length: u16,
    pub n: u16,
    pub start: u16,
}

/// The size of a plan's forest. Entries are the nodes that are no dividers; trees and levels include these.
#[derive(Clone, Copy, PartialEq, Eq, Debug)]
pub struct Measured {
    pub trees: u64,
    pub entries: u64,
    pub levels: u64,
}

/// The label of a printed divider, which isn't an entry (document 02, Note 9).
pub const DIVIDER: u32 = 0;

/// The eight letters of a walk.
pub const LETTERS: [u8; 8] = *b"azflnpus";

/// The place of the first byte that is no letter: refusal 9.
pub fn first_stranger(letters: &[u8]) -> Option<usize> {
    letters.iter().position(|letter| !LETTERS.contains(letter))
}

/// Left or right: of a pair, of a join, of the hole in a part.
#[derive(Clone, Copy, PartialEq, Eq, Debug)]
pub enum Side {
    Left,
    Right,
}

impl Side {
    pub const BOTH: [Side; 2] = [Side::Left, Side::Right];

    pub fn other(self) -> Side {
        match self {
            Side::Left => Side::Right,
            Side::Right => Side::Left,
        }
    }
}
