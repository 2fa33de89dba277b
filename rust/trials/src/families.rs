//! Plans with a shape in mind.
use crate::draft::Draft;
use crate::random::Random;
use crate::random_plans;
use reference::plan::{MAX_RULES, Rule};

/// The sample plan of document 01.
pub fn sample() -> Draft {
    let rules = [
        Rule::Empty,
        Rule::Node(97, 0),
        Rule::Node(98, 0),
        Rule::Pair(1, 2),
        Rule::Part(99, 3, 2),
        Rule::Join(4, 4),
        Rule::Fill(5, 1),
        Rule::Pair(6, 3),
    ];
    Draft { records: rules.map(Rule::words).to_vec(), start: 7, ..Draft::default() }
}

/// An empty rule, and a leaf over it.
fn ground(draft: &mut Draft) -> (u16, u16) {
    let empty = draft.add(Rule::Empty);
    (empty, draft.add(Rule::Node(u32::from(b'a'), empty)))
}

/// What a family does to a row or to a holed rule, over and over.
#[derive(Clone, Copy, PartialEq, Eq, Debug)]
pub enum Growth {
    /// The thing twice.
    Doubled,
    /// One more after it, so that the way to the first is all left steps.
    Comb,
    /// One more by turns before and after it, so that the way to the middle turns at each step.
    Zigzag,
    /// The thing beside an empty rule: one-sided pairs in a chain, then twice. Holed rules have no such pairs and double.
    OneSided,
}

impl Growth {
    pub const ALL: [Growth; 4] = [Growth::Doubled, Growth::Comb, Growth::Zigzag, Growth::OneSided];

    /// The two sides of the next rule, from what is grown and what it is grown by.
    fn sides(self, step: usize, thing: u16, by: u16, empty: u16) -> (u16, u16) {
        match self {
            Growth::Doubled => (thing, thing),
            Growth::Comb => (thing, by),
            Growth::Zigzag if step.is_multiple_of(2) => (thing, by),
            Growth::Zigzag => (by, thing),
            Growth::OneSided if step.is_multiple_of(3) => (thing, thing),
            Growth::OneSided if step % 3 == 1 => (thing, empty),
            Growth::OneSided => (empty, thing),
        }
    }
}

/// Grows a row from a closed rule by `steps` rules.
fn row(draft: &mut Draft, growth: Growth, steps: usize, first: u16, empty: u16) -> u16 {
    let mut row = first;
    for step in 0..steps {
        let (b, c) = growth.sides(step, row, first, empty);
        row = draft.add(Rule::Pair(b, c));
    }
    row
}

/// Rows of trees over rows of leaves: half of the rules grow either.
pub fn rows(growth: Growth, n: usize) -> Draft {
    let mut draft = Draft::default();
    let (empty, leaf) = ground(&mut draft);
    let steps = n.saturating_sub(3);
    let below = row(&mut draft, growth, steps / 2, leaf, empty);
    let tree = draft.add(Rule::Node(u32::from(b'b'), below));
    row(&mut draft, growth, steps - steps / 2, tree, empty);
    draft
}

/// One row of leaves, in which all rules but two grow it.
pub fn row_alone(growth: Growth, n: usize) -> Draft {
    let mut draft = Draft::default();
    let (empty, leaf) = ground(&mut draft);
    row(&mut draft, growth, n.saturating_sub(2), leaf, empty);
    draft
}

/// Node over node: the place of the last has two cells for each rule but the empty one.
pub fn nodes(n: usize) -> Draft {
    let mut draft = Draft::default();
    let mut forest = draft.add(Rule::Empty);
    while draft.n() < n {
        let label = u32::from(b'a') + (draft.n() % 26) as u32;
        forest = draft.add(Rule::Node(label, forest));
    }
    draft
}

/// One spine of parts with a leaf on either side of the hole.
pub fn spine(growth: Growth, n: usize) -> Draft {
    let mut draft = Draft::default();
    let (_, leaf) = ground(&mut draft);
    grow_spine(&mut draft, growth, n, [leaf, leaf]);
    draft
}

/// The same with nothing before the hole, so that f goes down the spine.
pub fn left_spine(growth: Growth, n: usize) -> Draft {
    let mut draft = Draft::default();
    let (empty, leaf) = ground(&mut draft);
    grow_spine(&mut draft, growth, n, [empty, leaf]);
    draft
}

/// Grows a spine from a part with these arms, up to n rules, with the second in its hole.
fn grow_spine(draft: &mut Draft, growth: Growth, n: usize, [before, behind]: [u16; 2]) {
    let part = draft.add(Rule::Part(u32::from(b'c'), before, behind));
    let mut spine = part;
    let growth = if growth == Growth::OneSided { Growth::Doubled } else { growth };
    for step in 0..n.saturating_sub(4) {
        let (b, c) = growth.sides(step, spine, part, part);
        spine = draft.add(Rule::Join(b, c));
    }
    draft.add(Rule::Fill(spine, behind));
}

/// Spines in the last holes of spines: each rule's C is the tree before it, and by turns one arm of the part is empty.
pub fn chained(n: usize) -> Draft {
    let mut draft = Draft::default();
    let (empty, leaf) = ground(&mut draft);
    let parts = [(leaf, empty), (empty, leaf), (empty, empty), (leaf, leaf)];
    let parts = parts.map(|(l, r)| draft.add(Rule::Part(u32::from(b'd'), l, r)));
    let mut tree = leaf;
    for step in 0..n.saturating_sub(draft.n()) {
        tree = draft.add(Rule::Fill(parts[step % 4], tree));
    }
    draft
}

/// Node over node, each beside leaves: every level is a row of its own.
pub fn nested(n: usize) -> Draft {
    let mut draft = Draft::default();
    let (empty, leaf) = ground(&mut draft);
    let mut forest = empty;
    while draft.n() + 3 <= n {
        let before = draft.add(Rule::Pair(leaf, forest));
        let row = draft.add(Rule::Pair(before, leaf));
        forest = draft.add(Rule::Node(u32::from(b'e'), row));
    }
    draft
}

/// Example 1 of Reh and Sieber's paper: trees both wide and deep, F_i with the trees H of both sides as the forest.
pub fn paper(depth: usize) -> Draft {
    let mut draft = Draft::default();
    let empty = draft.add(Rule::Empty);
    let leaf = [b'a', b'b'].map(|label| draft.add(Rule::Node(label.into(), empty)));
    let mut wide = draft.add(Rule::Pair(leaf[0], leaf[1]));
    let mut deep = draft.add(Rule::Part(u32::from(b'b'), empty, empty));
    for _ in 0..depth {
        wide = draft.add(Rule::Pair(wide, wide));
        deep = draft.add(Rule::Join(deep, deep));
    }
    let mut tree = |l: u16, r: u16, content: u16| {
        let part = draft.add(Rule::Part(u32::from(b'c'), l, r));
        let below = draft.add(Rule::Join(deep, part));
        let spine = draft.add(Rule::Join(part, below));
        draft.add(Rule::Fill(spine, content))
    };
    let (first, second) = (tree(wide, leaf[1], leaf[0]), tree(leaf[0], wide, leaf[1]));
    draft.add(Rule::Pair(first, second));
    draft
}

/// Rows doubled eight times, a node over each: wide and deep at every size, about eight ninths of n doublings.
pub fn towers(n: usize) -> Draft {
    let mut draft = Draft::default();
    let (_, mut forest) = ground(&mut draft);
    while draft.n() < n {
        forest = draft.add(match draft.n() % 9 {
            0 => Rule::Node(u32::from(b'g'), forest),
            _ => Rule::Pair(forest, forest),
        });
    }
    draft
}

/// A row of exactly this many leaves, from doubled rows.
pub fn leaves(count: u128) -> Draft {
    let mut draft = Draft::default();
    let (mut row, mut doubled) = ground(&mut draft);
    for bit in 0..128 - count.leading_zeros() {
        if bit > 0 {
            doubled = draft.add(Rule::Pair(doubled, doubled));
        }
        if count >> bit & 1 == 1 {
            row = draft.add(Rule::Pair(row, doubled));
        }
    }
    draft.start = row;
    draft
}

/// How the two trees of a forest stand to each other, which share most of their rules.
#[derive(Clone, Copy, PartialEq, Eq, Debug)]
pub enum Twins {
    /// They are one rule.
    OneRule,
    /// They are the same by rules of their own over shared ones.
    OwnTops,
    /// They differ in one entry, the last that both have in common.
    OneEntry,
}

/// Two trees, each a node over a row doubled so often; and the number of their comparison. Where they differ it is in the last leaf, so that
/// each half of the row that has this leaf is a rule of its own.
pub fn twin_rows(twins: Twins, doublings: u32) -> (Draft, u128) {
    let mut draft = Draft::default();
    let (empty, mut row) = ground(&mut draft);
    let mut other = draft.add(Rule::Node(u32::from(b'b'), empty));
    for _ in 0..doublings {
        other = draft.add(Rule::Pair(row, other));
        row = draft.add(Rule::Pair(row, row));
    }
    let first = draft.add(Rule::Node(u32::from(b'c'), row));
    let second = match twins {
        Twins::OneRule => first,
        Twins::OwnTops => draft.add(Rule::Node(u32::from(b'c'), row)),
        Twins::OneEntry => draft.add(Rule::Node(u32::from(b'c'), other)),
    };
    draft.add(Rule::Pair(first, second));
    (draft, 1 + (1 << doublings))
}

/// Two spines of parts, doubled so often and at least once, with a leaf on either side of each hole; and the number of their comparison. Where
/// they differ it is in the leaf in the last hole.
pub fn twin_spines(twins: Twins, doublings: u32) -> (Draft, u128) {
    let mut draft = Draft::default();
    let (empty, leaf) = ground(&mut draft);
    let other = draft.add(Rule::Node(u32::from(b'b'), empty));
    let mut spine = draft.add(Rule::Part(u32::from(b'c'), leaf, leaf));
    for _ in 1..doublings {
        spine = draft.add(Rule::Join(spine, spine));
    }
    let mut tree = |content: u16| {
        let joined = draft.add(Rule::Join(spine, spine));
        draft.add(Rule::Fill(joined, content))
    };
    let first = tree(leaf);
    let second = match twins {
        Twins::OneRule => first,
        Twins::OwnTops => tree(leaf),
        Twins::OneEntry => tree(other),
    };
    draft.add(Rule::Pair(first, second));
    // Of each part it and a leaf stand before its hole, and a leaf behind it.
    let parts = 1 << doublings.max(1);
    (draft, if twins == Twins::OneEntry { 2 * parts + 1 } else { 3 * parts + 1 })
}

/// Any of the families, of at most this many rules, now and then with dividers.
pub fn any(random: &mut Random, most: usize) -> Draft {
    let n = random.between(8, most.clamp(8, MAX_RULES));
    let growth = random.pick(&Growth::ALL);
    let draft = match random.below(8) {
        0..=2 => rows(growth, n),
        3 | 4 => spine(growth, n),
        5 => chained(n),
        6 => nested(n),
        _ => paper(n.saturating_sub(14) / 2),
    };
    random_plans::divided(draft, random)
}
