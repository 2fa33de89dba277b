//! The nodes of the subtree at a place, listed one after another by a walker's own moves: nothing is unfolded.
use super::moves::Walker;
use crate::NOWHERE;
use crate::compare::Listed;
use crate::plan::Plan;

/// The nodes from a place down in reading order, by the letters f, n and u of a walker that begins there.
pub struct Subtree<'a> {
    walker: Walker<'a>,
    next: Next,
    /// How far below the top the walker stands. It grows by one a node at most, so all the letters u are no more than the nodes.
    level: u64,
}

#[derive(Clone, Copy)]
enum Next {
    Top,
    Below,
    Nothing,
}

impl<'a> Subtree<'a> {
    /// The subtree at the stored place, if it is a node's. The cursor is walked on.
    pub fn at(plan: &Plan, work: &'a mut [u8], cursor: &'a mut [u8]) -> Option<Subtree<'a>> {
        let walker = Walker::at(plan, work, cursor).filter(|walker| walker.used > 0)?;
        Some(Subtree { walker, next: Next::Top, level: 0 })
    }

    /// A letter's label, if it leads somewhere.
    fn letter(&mut self, letter: u8) -> Option<u32> {
        Some(self.walker.answer(letter)).filter(|label| *label != NOWHERE)
    }

    /// To the first child; else to the next sibling of the node, or of the nearest node above it that has one, up to the top, whose aren't in
    /// the subtree.
    fn onward(&mut self) -> Option<u32> {
        if let Some(child) = self.letter(b'f') {
            self.level += 1;
            return Some(child);
        }
        while self.level > 0 {
            if let Some(sibling) = self.letter(b'n') {
                return Some(sibling);
            }
            self.letter(b'u');
            self.level -= 1;
        }
        None
    }
}

impl Iterator for Subtree<'_> {
    type Item = Listed;

    fn next(&mut self) -> Option<Listed> {
        let label = match self.next {
            Next::Top => self.letter(b's'),
            Next::Below => self.onward(),
            Next::Nothing => None,
        };
        self.next = if label.is_some() { Next::Below } else { Next::Nothing };
        Some(Listed { label: label?, level: self.level })
    }
}
