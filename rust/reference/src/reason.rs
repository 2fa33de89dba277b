//! Why a letter moves or doesn't (document 02, Note 11), read off the unfolded forest. The reference by rules has it from its moves.
use crate::unfolded::forest::Forest;

/// Which holds; the value is document 02's number.
#[derive(Clone, Copy, PartialEq, Eq, PartialOrd, Ord, Debug)]
pub enum Reason {
    /// The letter moves.
    Moves = 0,
    /// Above the forest and no a or z pressed.
    Above = 1,
    /// The forest is empty.
    NoTrees = 2,
    /// f or l without children.
    NoChildren = 3,
    /// n on the last of its siblings.
    LastSibling = 4,
    /// p on the first.
    FirstSibling = 5,
    /// u on a root.
    Root = 6,
}

impl Reason {
    pub const ALL: [Reason; 7] = [
        Reason::Moves,
        Reason::Above,
        Reason::NoTrees,
        Reason::NoChildren,
        Reason::LastSibling,
        Reason::FirstSibling,
        Reason::Root,
    ];

    pub fn of_number(number: u32) -> Option<Reason> {
        Reason::ALL.into_iter().find(|reason| *reason as u32 == number)
    }

    /// Of a letter at the place that a path names, which is empty above the forest. Where 1 and 2 both fit, 2 is given; a and z count as moving
    /// wherever there are trees, and s at a node.
    pub fn of(forest: &Forest, path: &[usize], letter: u8) -> Reason {
        if forest.trees.is_empty() {
            return Reason::NoTrees;
        }
        let Some((number, above)) = path.split_last() else {
            return if b"az".contains(&letter) { Reason::Moves } else { Reason::Above };
        };
        let count = |path: &[usize]| forest.children_at(path).map_or(0, <[_]>::len);
        match letter {
            b'f' | b'l' if count(path) == 0 => Reason::NoChildren,
            b'n' if *number == count(above) => Reason::LastSibling,
            b'p' if *number == 1 => Reason::FirstSibling,
            b'u' if above.is_empty() => Reason::Root,
            _ => Reason::Moves,
        }
    }
}
