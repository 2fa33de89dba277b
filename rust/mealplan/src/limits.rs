//! The limits of plans, and the bytes that each call needs of what it is lent. Every length is the least that is accepted.
use crate::Format;

/// The largest label of a wide plan, which the last row of a list covers.
pub const LAST_LABEL: u32 = 16_777_215;

/// The largest class.
pub const LAST_CLASS: u16 = 3;

/// The record length of a narrow plan, in bytes: rules of four words, labels 0 to 255.
pub const NARROW: u16 = 8;

/// The record length of a wide plan, in bytes: rules of five words, labels 0 to 16,777,215.
pub const WIDE: u16 = 10;

/// The most rules of a plan.
pub const MOST_RULES: usize = 16_384;

/// The most rules of a plan that takes 64 bytes of work a rule; one of more rules takes 80.
pub const FEW_RULES: usize = 1_024;

/// The most rules of a plan that [`copy`](crate::copy) takes.
pub const MOST_COPIED: usize = 4_096;

/// Bytes of a plan behind its rules: n, start, distance and mark.
pub const TRAILER: usize = 10;

/// Bytes of work that [`measure`](crate::measure), [`spread`](crate::spread), [`walk`](crate::walk), [`compare`](crate::compare),
/// [`copy`](crate::copy), [`grams`](crate::grams) and [`reason`](crate::reason) need for a plan of so many rules.
pub const fn work_bytes(rules: usize) -> usize {
    if rules > FEW_RULES { 80 * rules } else { 64 * rules }
}

/// Bytes of a cursor for a plan of so many rules.
pub const fn cursor_bytes(rules: usize) -> usize {
    32 * rules + 32
}

/// Bytes of the answers to so many letters.
pub const fn answers_bytes(letters: usize) -> usize {
    4 * letters
}

/// Bytes of output that [`copy`](crate::copy) needs for a plan of so many rules, however short the copy is.
pub const fn copy_bytes(rules: usize) -> usize {
    40 * rules + 10
}

/// Bytes of a plan of so many rules without cover: what [`seal`](crate::seal) writes.
pub const fn plan_bytes(rules: usize, format: Format) -> usize {
    words_bytes(rules, format) + TRAILER
}

/// Bytes of the words of so many rules: what [`unseal`](crate::unseal) writes.
pub const fn words_bytes(rules: usize, format: Format) -> usize {
    format.record_length() as usize * rules
}

/// Bytes of the text of so many nodes: what [`spread`](crate::spread) writes. None where the number is beyond a `usize`.
pub const fn text_bytes(nodes: u64, format: Format) -> Option<usize> {
    // A `usize` has 64 bits here.
    (nodes as usize).checked_mul(format.node_bytes())
}
