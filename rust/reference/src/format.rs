//! The two formats of a plan: that of document 01, and the wide one of document 02, Note 2.

/// What a plan's mark says of its rules and labels.
#[derive(Clone, Copy, PartialEq, Eq, Debug, Default)]
pub enum Format {
    /// Rules of four words, labels of a byte.
    #[default]
    Narrow,
    /// Rules of five words, labels of three bytes.
    Wide,
}

impl Format {
    pub const BOTH: [Format; 2] = [Format::Narrow, Format::Wide];

    /// The format with this mark.
    pub fn of_mark(mark: [u8; 2]) -> Option<Format> {
        Format::BOTH.into_iter().find(|format| format.mark() == mark)
    }

    /// The format whose rules have so many bytes.
    pub fn of_record_length(length: u16) -> Option<Format> {
        Format::BOTH.into_iter().find(|format| format.record_length() == length)
    }

    pub const fn mark(self) -> [u8; 2] {
        match self {
            Format::Narrow => [0x6D, 0x70],
            Format::Wide => [0x6D, 0x71],
        }
    }

    /// Words of a rule.
    pub const fn words(self) -> usize {
        match self {
            Format::Narrow => 4,
            Format::Wide => 5,
        }
    }

    /// Bytes of a rule.
    pub const fn record(self) -> usize {
        2 * self.words()
    }

    /// The same as seal is told it and unseal gives it.
    pub const fn record_length(self) -> u16 {
        self.record() as u16
    }

    /// Bytes of a label in a text, low first.
    pub const fn label(self) -> usize {
        match self {
            Format::Narrow => 1,
            Format::Wide => 3,
        }
    }

    /// Bytes of a node in a text: a bracket before and after it, and the label.
    pub const fn node(self) -> usize {
        2 + self.label()
    }

    pub const fn most_label(self) -> u32 {
        (1 << (8 * self.label())) - 1
    }
}
