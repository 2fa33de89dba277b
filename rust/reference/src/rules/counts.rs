//! Trees, nodes, entries and levels of every rule, in work, by one pass over the rules in their order.
use crate::plan::{Plan, Rule};
use crate::{DIVIDER, Measured};

/// What is counted of a rule. `nodes` is exact, or none if it passes 2^64 − 1; the others are never above it where it is exact.
#[derive(Clone, Copy, Default)]
struct Counts {
    trees: u64,
    nodes: Option<u64>,
    entries: u64,
    levels: u64,
    /// For a holed rule, how many of its nodes lie around the hole.
    hole: u64,
}

/// A rule has at least these bytes of work, however many rules there are.
type Row = [u8; 64];

impl Counts {
    fn write(self, row: &mut Row) {
        let Counts { trees, nodes, entries, levels, hole } = self;
        let words = [trees, nodes.is_some().into(), nodes.unwrap_or(0), entries, levels, hole];
        for (room, word) in row.as_chunks_mut().0.iter_mut().zip(words) {
            *room = word.to_le_bytes();
        }
    }

    fn read(row: &Row) -> Counts {
        let word = |index: usize| u64::from_le_bytes(row.as_chunks().0[index]);
        let [trees, is_exact, nodes, entries, levels, hole] = std::array::from_fn(word);
        Counts { trees, nodes: (is_exact == 1).then_some(nodes), entries, levels, hole }
    }

    fn both_nodes(self, other: Counts) -> Option<u64> {
        self.nodes?.checked_add(other.nodes?)
    }

    /// One forest beside the other.
    fn beside(self, other: Counts) -> Counts {
        Counts {
            trees: self.trees.saturating_add(other.trees),
            nodes: self.both_nodes(other),
            entries: self.entries.saturating_add(other.entries),
            levels: self.levels.max(other.levels),
            hole: 0,
        }
    }

    /// One node over a forest.
    fn under_node(self, label: u32) -> Counts {
        Counts {
            trees: 1,
            nodes: self.nodes.and_then(|nodes| nodes.checked_add(1)),
            entries: self.entries.saturating_add((label != DIVIDER).into()),
            levels: self.levels.saturating_add(1),
            hole: 1,
        }
    }

    /// A holed tree with its hole filled.
    fn filled(self, content: Counts) -> Counts {
        Counts {
            trees: 1,
            nodes: self.both_nodes(content),
            entries: self.entries.saturating_add(content.entries),
            levels: self.levels.max(self.hole.saturating_add(content.levels)),
            hole: self.hole.saturating_add(content.hole),
        }
    }
}

/// The number of nodes of the start rule's forest, and its size, unless there are more than 2^64 − 1.
pub fn of_start(plan: &Plan, work: &mut [u8]) -> Option<(u64, Measured)> {
    let rows: &mut [Row] = work.as_chunks_mut().0;
    for number in plan.order() {
        let of = |rule: u16| Counts::read(&rows[usize::from(rule)]);
        let counts = match plan.rules.get(number) {
            Rule::Empty => Counts { nodes: Some(0), ..Counts::default() },
            Rule::Pair(b, c) => of(b).beside(of(c)),
            Rule::Node(label, c) => of(c).under_node(label),
            Rule::Part(label, l, r) => of(l).beside(of(r)).under_node(label),
            Rule::Fill(b, c) | Rule::Join(b, c) => of(b).filled(of(c)),
        };
        counts.write(&mut rows[usize::from(number)]);
    }
    let Counts { trees, nodes, entries, levels, .. } = Counts::read(&rows[usize::from(plan.start)]);
    Some((nodes?, Measured { trees, entries, levels }))
}
