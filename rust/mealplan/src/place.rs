//! A place that is kept: cell 0 and the used cells of a cursor, and no more.
use crate::cursor::{self, rule_word, stand_above};
use alloc::{vec, vec::Vec};
use core::fmt;

/// Bytes of a cell: four words of 16 bits.
const CELL: usize = 8;

/// Where a walker stands, kept apart from it: it can be stored as bytes, restored and compared. A place has the word that names the rule walked, and in a
/// rule's forest each node has one place: of one plan two places are equal where words and nodes are. The start by number is another word than the
/// start as such.
///
/// Bytes that are read back are judged by [`Walker::go_to`](crate::Walker::go_to) alone, against the plan.
///
/// ```
/// use mealplan::{Place, Plan};
/// # let bytes = std::fs::read(concat!(env!("CARGO_MANIFEST_DIR"), "/../../samples/plan.bin")).unwrap();
/// let plan = Plan::new(&bytes)?;
/// let mut walker = plan.walker();
/// walker.first_root();
/// let stored = walker.place().to_bytes();
///
/// let mut later = plan.walker();
/// assert_eq!(later.go_to(&Place::from_bytes(&stored))?, Some(99));
/// assert_eq!(later.place(), walker.place());
/// assert_eq!(later.place().to_string(), "(1, 0, 7, 0) (3, 7, 6, 0) (2, 6, 0, 0) (3, 5, 4, 0)");
///
/// let mut day = plan.walker_of(3)?;
/// day.first_root();
/// assert_eq!(day.place().to_string(), "rule 3: (1, 0, 3, 0) (3, 3, 1, 0) (2, 1, 0, 0)");
/// assert_eq!((day.place().rule(), walker.place().rule()), (Some(3), None));
/// # Ok::<(), mealplan::Refused>(())
/// ```
#[derive(Clone, PartialEq, Eq, Hash, Debug)]
pub struct Place {
    /// Cell 0 and the used cells; or, of bytes that can't be a place, what was given.
    bytes: Vec<u8>,
}

impl Place {
    /// The place above the start rule's forest.
    pub fn above() -> Place {
        Place { bytes: vec![0; CELL] }
    }

    /// The place above the forest of a rule by number, which may also be the start's. [`Walker::go_to`](crate::Walker::go_to) judges whether it can be
    /// walked.
    pub fn above_rule(rule: u16) -> Place {
        let mut above = Place::above();
        stand_above(&mut above.bytes, rule_word(rule));
        above
    }

    /// The place that these bytes hold: cell 0, the used cells, and whatever stands behind them, which isn't looked at.
    pub fn from_bytes(bytes: &[u8]) -> Place {
        let used = CELL * (cursor::cells(bytes) + 1);
        Place { bytes: bytes.get(..used).unwrap_or(bytes).to_vec() }
    }

    /// The bytes to store.
    pub fn as_bytes(&self) -> &[u8] {
        &self.bytes
    }

    /// The bytes to store, on their own.
    pub fn to_bytes(&self) -> Vec<u8> {
        self.bytes.clone()
    }

    /// The rule whose forest it is a place of, by number; none for the start rule where it isn't named so.
    pub fn rule(&self) -> Option<u16> {
        cursor::word(&self.bytes).checked_sub(1)
    }

    /// How many cells are used; none above the forest.
    pub fn len(&self) -> usize {
        cursor::cells(&self.bytes)
    }

    /// Whether no cell is used: the place above the forest.
    pub fn is_empty(&self) -> bool {
        self.len() == 0
    }

    /// The used cells in their order, four words each.
    pub fn cells(&self) -> impl Iterator<Item = [u16; 4]> {
        let cells = self.bytes.as_chunks::<CELL>().0.iter().skip(1);
        cells.map(|cell| {
            let mut words = [0; 4];
            for (word, bytes) in words.iter_mut().zip(cell.as_chunks().0) {
                *word = u16::from_le_bytes(*bytes);
            }
            words
        })
    }
}

impl Default for Place {
    fn default() -> Place {
        Place::above()
    }
}

/// The used cells as document 01 writes them, nothing above the forest; before them the rule, where it is named by number.
impl fmt::Display for Place {
    fn fmt(&self, f: &mut fmt::Formatter) -> fmt::Result {
        if let Some(rule) = self.rule() {
            write!(f, "rule {rule}{}", if self.is_empty() { "" } else { ": " })?;
        }
        for (i, [kind, a, b, c]) in self.cells().enumerate() {
            let blank = if i == 0 { "" } else { " " };
            write!(f, "{blank}({kind}, {a}, {b}, {c})")?;
        }
        Ok(())
    }
}
