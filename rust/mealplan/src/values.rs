//! What accepted calls give.

/// The number of rules of an accepted plan, and its start rule.
#[derive(Clone, Copy, PartialEq, Eq, Debug, Default)]
pub struct Checked {
    /// The number of rules.
    pub n: u16,
    /// The start rule.
    pub start: u16,
}

/// What [`unseal`](crate::unseal) gives beside the words.
#[derive(Clone, Copy, PartialEq, Eq, Debug, Default)]
pub struct Unsealed {
    /// Bytes of a rule, [`NARROW`](crate::NARROW) or [`WIDE`](crate::WIDE).
    pub record_length: u16,
    /// The number of rules.
    pub n: u16,
    /// The start rule.
    pub start: u16,
}

/// The size of a plan's forest.
#[derive(Clone, Copy, PartialEq, Eq, Debug, Default)]
pub struct Measured {
    /// Trees of the forest, each with a root, which may be a divider.
    pub trees: u64,
    /// Entries: all nodes but the divider lines, which have label [`DIVIDER`](crate::DIVIDER). [`Plan::nodes`](crate::Plan::nodes) counts both.
    pub entries: u64,
    /// Levels of the deepest tree, those of dividers too; the roots are the first.
    pub levels: u64,
}

/// What [`compare`](crate::compare) finds of two subtrees, with a count of pairs of nodes.
#[derive(Clone, Copy, PartialEq, Eq, Debug)]
pub enum Compared {
    /// They are the same: the number of nodes of either.
    Same(u32),
    /// They differ: the place, from 1, of the first pair that does, where a node against an ended list is one too.
    Differ(u32),
    /// That number, of the same or of the first pair that differs, is above the budget: the budget.
    Spent(u32),
}
