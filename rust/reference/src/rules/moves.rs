//! The moves, on the stack of cells: section 3 of Reh and Sieber's paper, with longest runs for the positions in rows and spines.
use super::table::{NONE, Table};
use crate::place::{self, Cell, Over};
use crate::plan::{Plan, Rule};
use crate::words;
use crate::{NOWHERE, Reason, Side};

/// A walker on a rule's forest: the cells of its place, and the rule that it stands on (kind 2 or 4).
pub struct Walker<'a> {
    pub(super) table: Table<'a>,
    /// The rule walked, which the cursor names.
    pub(super) walked: u16,
    /// The cursor, cell 0 first.
    pub(super) cells: &'a mut [[u8; 8]],
    /// For each cell that opens a tree of a row: the cell that opens the row. For one that opens the C of a spine: 0. Past the rows of the
    /// table work has at least 16 × n words, enough for the 4 × (n + 1) cells of a cursor.
    pub(super) opened: &'a mut [[u8; 2]],
    pub(super) used: usize,
    pub(super) here: u16,
}

/// A neighbour in a row or spine, found but not gone to.
struct Neighbour {
    /// The cell of the run in which the ways part.
    cell: usize,
    /// The rule at which they part, and where the run began.
    fork: u16,
    from: u16,
    /// The step to the neighbour's side, and the rule at the end.
    over: u16,
    leaf: u16,
}

/// Where the tree that the walker stands in comes from.
enum Above {
    /// The part that the walker stands on is the hole's next one in the same spine.
    Hole(Neighbour),
    /// The hole of the last part of the spine below this cell.
    Spine(usize),
    /// A row, whose last cell this is.
    Row(usize),
}

impl<'a> Walker<'a> {
    /// A walker at the stored place, if it is one of a rule that may be walked.
    pub fn at(plan: &Plan, work: &'a mut [u8], cursor: &'a mut [u8]) -> Option<Walker<'a>> {
        let walked = plan.walked(place::word(cursor))?;
        let (table, rest) = Table::build(plan, work);
        let (cells, opened) = (cursor.as_chunks_mut().0, rest.as_chunks_mut().0);
        let mut walker = Walker { table, walked, cells, opened, used: 0, here: walked };
        walker.accept_stored().then_some(walker)
    }

    /// Leaves the place in the cursor: the number of used cells, and zeros past them. The rest of cell 0 is as it was.
    pub fn store(&mut self) {
        words::put(&mut self.cells[0], 0, self.used as u16);
        self.cells[self.used + 1..].as_flattened_mut().fill(0);
    }

    /// Takes one letter: the label of the node arrived at, or nowhere.
    pub fn answer(&mut self, letter: u8) -> u32 {
        let arrived = match letter {
            b'a' => self.root(Side::Left),
            b'z' => self.root(Side::Right),
            _ if self.used == 0 => false,
            b'f' => self.child(Side::Left),
            b'l' => self.child(Side::Right),
            b'n' => self.sibling(Side::Right),
            b'p' => self.sibling(Side::Left),
            b'u' => self.parent(),
            _ => true,
        };
        match self.table.rule(self.here) {
            Rule::Node(label, _) | Rule::Part(label, _, _) if arrived => label,
            _ => NOWHERE,
        }
    }

    /// Why one letter moves or doesn't; if it moves, the walker does.
    pub fn reason(&mut self, letter: u8) -> Reason {
        if self.table.representative(self.walked) == NONE {
            return Reason::NoTrees;
        }
        let above = self.used == 0;
        match letter {
            _ if self.answer(letter) != NOWHERE => Reason::Moves,
            _ if above => Reason::Above,
            b'f' | b'l' => Reason::NoChildren,
            b'n' => Reason::LastSibling,
            b'p' => Reason::FirstSibling,
            b'u' => Reason::Root,
            _ => unreachable!("a, z and s lead to a node from a node"),
        }
    }

    /// The first or last tree of the forest.
    fn root(&mut self, end: Side) -> bool {
        if self.table.representative(self.walked) == NONE {
            return false;
        }
        self.used = 0;
        self.enter_row(Over::All, self.walked, end);
        true
    }

    /// The first or last child. A part always has one: its hole holds a tree.
    fn child(&mut self, end: Side) -> bool {
        match self.table.rule(self.here) {
            Rule::Part(..) => {
                if !self.enter_beside(self.here, end, end) {
                    self.enter_hole();
                }
                true
            }
            Rule::Node(_, c) if self.table.representative(c) != NONE => {
                self.enter_row(Over::All, c, end);
                true
            }
            _ => false,
        }
    }

    /// The next sibling to a side.
    fn sibling(&mut self, to: Side) -> bool {
        match self.above() {
            Above::Hole(parent) => {
                let holds = self.has_beside(parent.leaf, to);
                if holds {
                    let part = parent.leaf;
                    self.go(parent, Side::Left);
                    self.enter_beside(part, to, to.other());
                }
                holds
            }
            Above::Spine(last) => {
                let part = self.standing(last);
                let holds = self.has_beside(part, to);
                if holds {
                    self.used = last;
                    self.enter_beside(part, to, to.other());
                }
                holds
            }
            Above::Row(last) => self.next_in_row(last, to),
        }
    }

    /// The next tree of the row that ends at cell `last`, or beyond the row's end the hole beside it.
    fn next_in_row(&mut self, last: usize, to: Side) -> bool {
        if let Some(next) = self.neighbour(last, to) {
            let tree = next.leaf;
            let row = self.row_of(self.used);
            self.go(next, to);
            self.enter_tree(tree, row);
            return true;
        }
        let row = self.row_of(self.used);
        let beyond = self.cell(row).0[1] == Over::beside(to.other()) as u16;
        if beyond {
            self.used = row - 1;
            self.enter_hole();
        }
        beyond
    }

    fn parent(&mut self) -> bool {
        match self.above() {
            Above::Hole(parent) => self.go(parent, Side::Left),
            Above::Spine(last) => self.used = last,
            Above::Row(_) => match self.row_of(self.used) {
                1 => return false,
                row => self.used = row - 1,
            },
        }
        self.here = self.standing(self.used);
        true
    }

    fn above(&self) -> Above {
        if let Some(parent) = self.neighbour(self.used, Side::Left) {
            return Above::Hole(parent);
        }
        let spine = self.spine_of(self.used);
        match self.opened_by(spine) {
            0 => Above::Spine(spine - 1),
            _ => Above::Row(spine - 1),
        }
    }

    /// Whether a part has a tree on that side of its hole.
    fn has_beside(&self, part: u16, side: Side) -> bool {
        self.table.representative(self.beside(part, side)) != NONE
    }

    fn beside(&self, part: u16, side: Side) -> u16 {
        match (self.table.rule(part), side) {
            (Rule::Part(_, l, _), Side::Left) => l,
            (Rule::Part(_, _, r), Side::Right) => r,
            _ => unreachable!("only a part has something beside its hole"),
        }
    }

    /// Opens the forest on that side of a part's hole at its first or last tree, if it has one.
    fn enter_beside(&mut self, part: u16, side: Side, end: Side) -> bool {
        let holds = self.has_beside(part, side);
        if holds {
            self.enter_row(Over::beside(side), self.beside(part, side), end);
        }
        holds
    }

    /// Opens a row over a rule that isn't empty, at its first or last tree.
    fn enter_row(&mut self, over: Over, rule: u16, end: Side) {
        let representative = self.table.representative(rule);
        self.push(Cell::row(over, representative));
        let row = self.used;
        let tree = self.descend(representative, end);
        self.enter_tree(tree, row);
    }

    /// Opens the spine of a tree at its root; `row` is the cell of its row, or 0 for the C of a spine.
    fn enter_tree(&mut self, tree: u16, row: usize) {
        self.push(Cell::spine(tree));
        self.opened[self.used] = (row as u16).to_le_bytes();
        self.here = match self.table.rule(tree) {
            Rule::Fill(b, _) => self.descend(b, Side::Left),
            _ => tree,
        };
    }

    /// Goes to the tree in the hole of the part that the used cells end at: the spine's next part, or after its last its C.
    fn enter_hole(&mut self) {
        if let Some(next) = self.neighbour(self.used, Side::Right) {
            self.here = next.leaf;
            return self.go(next, Side::Right);
        }
        let Cell([_, tree, ..]) = self.cell(self.spine_of(self.used));
        let Rule::Fill(_, c) = self.table.rule(tree) else { unreachable!("parts are reached in a spine of kind 3") };
        self.enter_tree(c, 0);
    }

    /// The neighbour to a side in the row or spine whose last cell is `last`. Steps to that side lead past no neighbour, so their run is
    /// left out; in the run before it the last step of the other side is where the ways part.
    fn neighbour(&self, last: usize, to: Side) -> Option<Neighbour> {
        let cell = last - usize::from(self.cell(last).is_run(to));
        if !self.cell(cell).is_run(to.other()) {
            return None;
        }
        let Cell([_, from, reached, _]) = self.cell(cell);
        let fork = self.table.one_above(from, reached, to.other());
        let over = self.table.step(fork, to);
        Some(Neighbour { cell, fork, from, over, leaf: self.table.end(over, to.other()) })
    }

    /// Writes the cells of a neighbour to a side: the run up to the fork, the step over, the longest run back.
    fn go(&mut self, next: Neighbour, to: Side) {
        self.used = next.cell;
        if next.fork == next.from {
            self.used -= 1;
        } else {
            self.set(self.used, Cell::run(to.other(), next.from, next.fork));
        }
        match self.cell(self.used) {
            before if before.is_run(to) => self.set(self.used, Cell::run(to, before.0[1], next.over)),
            _ => self.push(Cell::run(to, next.fork, next.over)),
        }
        self.descend(next.over, to.other());
    }

    /// Takes the longest run to a side from a rule, if it has a step.
    fn descend(&mut self, rule: u16, side: Side) -> u16 {
        let end = self.table.end(rule, side);
        if end != rule {
            self.push(Cell::run(side, rule, end));
        }
        end
    }

    /// The part or node that the used cells up to `last` end at.
    fn standing(&self, last: usize) -> u16 {
        let Cell([kind, tree, to, _]) = self.cell(last);
        match self.table.rule(tree) {
            _ if kind >= Cell::RUN => to,
            Rule::Fill(b, _) => b,
            _ => tree,
        }
    }

    /// The cell that opens the spine at the first or last part of which the used cells up to `last` end: at most one run follows it.
    fn spine_of(&self, last: usize) -> usize {
        last - usize::from(self.cell(last).kind() != Cell::SPINE)
    }

    /// The cell that opens the row whose tree's root the used cells up to `last` end at.
    fn row_of(&self, last: usize) -> usize {
        self.opened_by(self.spine_of(last))
    }

    fn opened_by(&self, spine: usize) -> usize {
        usize::from(u16::from_le_bytes(self.opened[spine]))
    }

    pub(super) fn cell(&self, index: usize) -> Cell {
        Cell(words::unpack(self.cells[index]))
    }

    fn set(&mut self, index: usize, cell: Cell) {
        self.cells[index] = words::pack(cell.0);
    }

    fn push(&mut self, cell: Cell) {
        self.used += 1;
        self.set(self.used, cell);
    }
}
