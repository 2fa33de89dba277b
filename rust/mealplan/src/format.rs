//! The two formats of a plan.
use crate::{LAST_LABEL, NARROW, WIDE};

/// What a plan's mark says of its rules and labels.
#[derive(Clone, Copy, PartialEq, Eq, Hash, Debug, Default)]
pub enum Format {
    /// Rules of four words, labels 0 to 255.
    #[default]
    Narrow,
    /// Rules of five words, labels 0 to 16,777,215.
    Wide,
}

impl Format {
    /// The format whose rules have so many bytes.
    pub const fn from_record_length(length: u16) -> Option<Format> {
        match length {
            NARROW => Some(Format::Narrow),
            WIDE => Some(Format::Wide),
            _ => None,
        }
    }

    /// The format of a plan that was accepted, by the last byte of its mark.
    pub(crate) const fn from_accepted(plan: &[u8]) -> Format {
        match plan {
            [.., 0x71] => Format::Wide,
            _ => Format::Narrow,
        }
    }

    /// Bytes of a rule, as [`seal`](crate::seal) is told them.
    pub const fn record_length(self) -> u16 {
        match self {
            Format::Narrow => NARROW,
            Format::Wide => WIDE,
        }
    }

    /// The largest label.
    pub const fn most_label(self) -> u32 {
        match self {
            Format::Narrow => 255,
            Format::Wide => LAST_LABEL,
        }
    }

    /// Bytes of a label in a text, low first.
    pub const fn label_bytes(self) -> usize {
        match self {
            Format::Narrow => 1,
            Format::Wide => 3,
        }
    }

    /// Bytes of a node in a text: a bracket before and after it, and the label.
    pub const fn node_bytes(self) -> usize {
        2 + self.label_bytes()
    }
}
