//! Refusal 10: the stored cells are read once, each against what the ones before it have reached.
use super::moves::Walker;
use super::table::NONE;
use crate::Side;
use crate::place::{Cell, Over};
use crate::plan::Rule;
use crate::words;

/// What the cells read so far have opened last.
#[derive(Clone, Copy, PartialEq, Eq)]
enum Opened {
    Nothing,
    /// The row that this cell opens.
    Row(usize),
    /// The spine of this tree.
    Spine(u16),
}

/// How far the cells read so far have come.
struct Reading {
    opened: Opened,
    /// The rule reached.
    at: u16,
    /// The side of the last run in what is opened.
    run: Option<Side>,
    /// Whether every step in what is opened was a right one.
    rightmost: bool,
}

impl Walker<'_> {
    /// Whether the stored cells are a place; if so, the walker stands there.
    pub(super) fn accept_stored(&mut self) -> bool {
        let [k, _, 0, 0] = words::unpack(self.cells[0]) else { return false };
        let k = usize::from(k);
        if k == 0 {
            return true;
        }
        if k >= self.cells.len() {
            return false;
        }
        let mut reading = Reading { opened: Opened::Nothing, at: 0, run: None, rightmost: true };
        for index in 1..=k {
            if !self.take_in(&mut reading, index) {
                return false;
            }
        }
        (self.used, self.here) = (k, reading.at);
        matches!(reading.opened, Opened::Spine(_)) && self.is_node(reading.at)
    }

    /// Whether one more cell fits what is reached.
    fn take_in(&mut self, reading: &mut Reading, index: usize) -> bool {
        match self.cell(index).0 {
            [Cell::ROW, over, representative, 0] if self.row_fits(reading, over, representative) => {
                *reading = Reading { opened: Opened::Row(index), at: representative, run: None, rightmost: true };
                true
            }
            [Cell::SPINE, tree, 0, 0] if self.spine_fits(reading, tree) => {
                let row = if let Opened::Row(row) = reading.opened { row } else { 0 };
                self.opened[index] = (row as u16).to_le_bytes();
                let at = if let Rule::Fill(b, _) = self.table.rule(tree) { b } else { tree };
                *reading = Reading { opened: Opened::Spine(tree), at, run: None, rightmost: true };
                true
            }
            [kind, from, to, 0] if kind == Cell::RUN || kind == Cell::RUN + 1 => {
                let side = Side::BOTH[usize::from(kind - Cell::RUN)];
                let fits = reading.opened != Opened::Nothing
                    && reading.run != Some(side)
                    && from == reading.at
                    && self.table.reaches(from, to, side);
                reading.at = to;
                reading.run = Some(side);
                reading.rightmost &= side == Side::Right;
                fits
            }
            _ => false,
        }
    }

    /// Whether a row over this stand-in may open here: the forest walked, or one that the node just reached is over.
    fn row_fits(&self, reading: &Reading, over: u16, representative: u16) -> bool {
        let forest = match reading.opened {
            Opened::Nothing if over == Over::All as u16 => self.walked,
            Opened::Spine(_) => match self.table.rule(reading.at) {
                Rule::Node(_, c) if over == Over::All as u16 => c,
                Rule::Part(_, l, _) if over == Over::Left as u16 => l,
                Rule::Part(_, _, r) if over == Over::Right as u16 => r,
                _ => return false,
            },
            _ => return false,
        };
        representative != NONE && self.table.representative(forest) == representative
    }

    /// Whether the spine of this tree may open here: the tree reached in a row, or the C of a spine at its last part.
    fn spine_fits(&self, reading: &Reading, tree: u16) -> bool {
        match reading.opened {
            Opened::Nothing => false,
            Opened::Row(_) => tree == reading.at && matches!(self.table.rule(tree), Rule::Node(..) | Rule::Fill(..)),
            Opened::Spine(before) => {
                let Rule::Fill(_, c) = self.table.rule(before) else { return false };
                tree == c && reading.rightmost && self.is_node(reading.at)
            }
        }
    }

    /// Whether a rule stands for one node in a spine.
    fn is_node(&self, rule: u16) -> bool {
        matches!(self.table.rule(rule), Rule::Node(..) | Rule::Part(..))
    }
}
