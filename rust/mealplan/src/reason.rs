//! Why a letter moves or doesn't.
use core::fmt;

/// Why a letter moves or doesn't from a place: what [`reason`](crate::reason) and `Walker::why` answer. Exactly one holds for each letter at each place.
///
/// It has document 02's number, and is shown as a sentence for who asks why a key does nothing:
///
/// ```
/// use mealplan::Reason;
/// assert_eq!((Reason::LastSibling.number(), Reason::LastSibling.moves()), (4, false));
/// assert_eq!(Reason::LastSibling.to_string(), "this is the last of its siblings: nothing comes next");
/// assert_eq!(Reason::from_number(0), Some(Reason::Moves));
/// ```
#[derive(Clone, Copy, PartialEq, Eq, Hash, Debug)]
#[repr(u32)]
pub enum Reason {
    /// The letter moves. At a node s does, and where there are trees a and z do from anywhere, also to where one stands.
    Moves = 0,
    /// Above a forest with trees, and the letter is neither a nor z.
    Above = 1,
    /// The forest is empty, whichever the letter.
    NoTrees = 2,
    /// f or l at a node without children.
    NoChildren = 3,
    /// n at the last of its siblings.
    LastSibling = 4,
    /// p at the first of its siblings.
    FirstSibling = 5,
    /// u at a root.
    Root = 6,
}

impl Reason {
    /// All of them, in the order of their numbers.
    pub const ALL: [Reason; 7] = [
        Reason::Moves,
        Reason::Above,
        Reason::NoTrees,
        Reason::NoChildren,
        Reason::LastSibling,
        Reason::FirstSibling,
        Reason::Root,
    ];

    /// Document 02's number, 0 to 6.
    pub const fn number(self) -> u32 {
        self as u32
    }

    /// The reason with this number.
    pub fn from_number(number: u32) -> Option<Reason> {
        Reason::ALL.into_iter().find(|reason| reason.number() == number)
    }

    /// Whether the letter moves, so that a walk of it answers with a label.
    pub const fn moves(self) -> bool {
        matches!(self, Reason::Moves)
    }
}

impl fmt::Display for Reason {
    fn fmt(&self, f: &mut fmt::Formatter) -> fmt::Result {
        f.pad(match self {
            Reason::Moves => "this key moves",
            Reason::Above => "above the forest only a and z lead in",
            Reason::NoTrees => "the forest is empty: no key leads anywhere",
            Reason::NoChildren => "this has no children: nothing is below it",
            Reason::LastSibling => "this is the last of its siblings: nothing comes next",
            Reason::FirstSibling => "this is the first of its siblings: nothing comes before it",
            Reason::Root => "this is a root: nothing is above it",
        })
    }
}
