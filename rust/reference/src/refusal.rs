//! The refusals of documents 01 and 02.

/// A call turned down: the refusal's number, and the position (the rule for 4 to 6 and 12, the letter's place for 9, the row for 13 to 15,
/// else 0).
#[derive(Clone, Copy, PartialEq, Eq, Debug)]
pub struct Refused {
    pub number: u32,
    pub position: u64,
}

/// What a call is turned down for; the value is the documents' number.
#[derive(Clone, Copy, PartialEq, Eq, Debug)]
pub enum Why {
    /// Fewer than 10 bytes, or a mark that is neither format's; for seal, a record length that is neither's.
    Mark = 1,
    /// The number of rules is 0 or above 16,384; seal's words aren't so many to a rule.
    Count = 2,
    /// The distance isn't the record length × n or goes back before the first byte.
    Distance = 3,
    /// A kind above 5, a label that the format doesn't have, an unused word that isn't 0.
    Record = 4,
    /// A rule names one that isn't below n.
    NotBelow = 5,
    /// A rule names one of the wrong sort, as each of a kind above 5 is.
    Sort = 6,
    /// The start isn't below n or isn't closed.
    Start = 7,
    /// Work, a cursor or answers are too short; for copy, output.
    Lent = 8,
    /// A byte that is no letter.
    Letter = 9,
    /// The stored cells aren't a place of this forest; for compare, not a node's place.
    Place = 10,
    /// Output too short, or more than 2^64 − 1 nodes; for grams, more than 2^64 − 1 grams.
    Output = 11,
    /// Some rule reaches itself; tested after 4 to 6 and before 7.
    Cycle = 12,
    /// A row's lowest label is above its highest, its highest above 16,777,215, or its class above 3; for copy, the client's class is.
    Row = 13,
    /// Labels that no row covers, at the row after them or at the number of rows.
    Gap = 14,
    /// A row covers labels that are already covered.
    Overlap = 15,
    /// A plan of more than 4,096 rules isn't copied.
    TooMany = 16,
}

impl Why {
    pub fn at(self, position: usize) -> Refused {
        Refused { number: self as u32, position: position as u64 }
    }

    /// The refusal, whose position is 0.
    pub fn here(self) -> Refused {
        self.at(0)
    }
}
