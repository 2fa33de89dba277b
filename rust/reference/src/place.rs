//! The cells of a stored place.
use crate::words;
use crate::{Side, Why};

/// Which forest a row is over.
#[derive(Clone, Copy, PartialEq, Eq, Debug)]
pub enum Over {
    /// The forest walked, or what a node of kind 2 is over.
    All = 0,
    /// The forest left of a part's hole.
    Left = 1,
    /// The forest right of a part's hole.
    Right = 2,
}

impl Over {
    /// The forest on that side of a part's hole.
    pub fn beside(side: Side) -> Over {
        match side {
            Side::Left => Over::Left,
            Side::Right => Over::Right,
        }
    }
}

/// A cell: four words, the first of which says what they mean.
#[derive(Clone, Copy, PartialEq, Eq, Hash, Debug)]
pub struct Cell(pub [u16; 4]);

impl Cell {
    pub const ROW: u16 = 1;
    pub const SPINE: u16 = 2;
    /// A run of left steps; of right steps it is one more.
    pub const RUN: u16 = 3;

    pub fn row(over: Over, representative: u16) -> Cell {
        Cell([Cell::ROW, over as u16, representative, 0])
    }

    pub fn spine(tree: u16) -> Cell {
        Cell([Cell::SPINE, tree, 0, 0])
    }

    pub fn run(side: Side, from: u16, to: u16) -> Cell {
        Cell([Cell::RUN + side as u16, from, to, 0])
    }

    pub fn kind(self) -> u16 {
        self.0[0]
    }

    pub fn is_run(self, side: Side) -> bool {
        self.kind() == Cell::RUN + side as u16
    }

    /// The cell of the same place when rule r has become `number[r]`.
    pub fn renumbered(self, number: &[u16]) -> Cell {
        let of = |rule: u16| number[usize::from(rule)];
        let [kind, first, second, last] = self.0;
        match kind {
            Cell::ROW => Cell([kind, first, of(second), last]),
            Cell::SPINE => Cell([kind, of(first), second, last]),
            _ => Cell([kind, of(first), of(second), last]),
        }
    }
}

/// Word 1 of a cursor's cell 0, which names the rule walked.
pub fn word(cursor: &[u8]) -> u16 {
    words::get(cursor, 1)
}

/// The used cells of a cursor that has all the words it needs, cell 0 not counted; refusal 10 if cell 0 can't be right whatever its word 1 names.
pub fn used(cursor: &[u8]) -> Result<Vec<Cell>, crate::Refused> {
    let mut cells = cursor.as_chunks().0.iter().map(|bytes| Cell(words::unpack(*bytes)));
    let Some(Cell([k, _, 0, 0])) = cells.next() else { return Err(Why::Place.here()) };
    let used: Vec<Cell> = cells.take(k.into()).collect();
    if used.len() < k.into() { Err(Why::Place.here()) } else { Ok(used) }
}

/// Writes a place over the whole cursor: the number of cells, the cells, zeros. Word 1 of cell 0 stays.
pub fn store(cells: &[Cell], cursor: &mut [u8]) {
    let word = word(cursor);
    cursor.fill(0);
    words::put(cursor, 0, cells.len() as u16);
    words::put(cursor, 1, word);
    for (cell, room) in cells.iter().zip(cursor.as_chunks_mut().0.iter_mut().skip(1)) {
        *room = words::pack(cell.0);
    }
}
