//! The client's copy (document 02, Note 6): what it is refused with, and the forest that it has. Which rules stand for that forest is left free, so
//! none are made here: the forest is unfolded, and each node of a higher class is left out with all below it.
use crate::plan::{self, work_bytes};
use crate::rows::{self, LAST_CLASS, Row};
use crate::unfolded::forest::Tree;
use crate::{Checked, Refused, Why};
use std::fmt::Write;

/// The most rules of a plan that is copied.
pub const MOST_COPIED: usize = 4_096;

/// Bytes of output that a copy of n rules needs, however short it is.
pub const fn copy_bytes(n: usize) -> usize {
    40 * n + 10
}

/// Whom a copy is for: the clinic's list of rows, and the client's class.
#[derive(Clone, Debug)]
pub struct Client {
    pub rows: Vec<Row>,
    pub class: u16,
}

/// A node of a forest without its place: its label, and the nodes below it.
#[derive(Clone, PartialEq, Eq, Debug)]
pub struct Node {
    pub label: u32,
    pub below: Vec<Node>,
}

impl Client {
    /// Whether the client may see a label, by a sound list.
    pub fn sees(&self, label: u32) -> bool {
        rows::class(&self.rows, label) <= self.class
    }

    /// The trees without those that the client may not see, and likewise below each that stays.
    pub fn visible(&self, trees: &[Tree]) -> Vec<Node> {
        let seen = trees.iter().filter(|tree| self.sees(tree.label));
        seen.map(|tree| Node { label: tree.label, below: self.visible(&tree.children) }).collect()
    }

    /// The labels of the nodes that aren't seen: of each tree that the client may not see all, and likewise below each that stays.
    pub fn taken_out(&self, trees: &[Tree]) -> Vec<u32> {
        let of_tree = |tree: &Tree| match self.sees(tree.label) {
            true => self.taken_out(&tree.children),
            false => tree.listed().map(|node| node.label).collect(),
        };
        trees.iter().flat_map(of_tree).collect()
    }

    /// The plan's rules and start where a copy is made, with so many bytes of work and of output; else the first refusal. The class is judged
    /// before the list is read, the list before the number of rules, and what is lent last of all.
    pub fn judge(&self, plan: &[u8], work: usize, out: usize) -> Result<Checked, Refused> {
        let checked = plan::check(plan)?;
        if self.class > LAST_CLASS {
            return Err(Why::Row.here());
        }
        rows::check(&self.rows)?;
        let n = usize::from(checked.n);
        if n > MOST_COPIED {
            return Err(Why::TooMany.here());
        }
        if work < work_bytes(n) || out < copy_bytes(n) {
            return Err(Why::Lent.here());
        }
        Ok(checked)
    }
}

/// All nodes of a forest.
pub fn nodes(trees: &[Tree]) -> Vec<Node> {
    trees.iter().map(|tree| Node { label: tree.label, below: nodes(&tree.children) }).collect()
}

/// How many nodes a forest has.
pub fn count(forest: &[Node]) -> usize {
    forest.iter().map(|node| 1 + count(&node.below)).sum()
}

/// A forest as text: a bracket, the label in decimal, what is below it, a bracket.
pub fn told(forest: &[Node]) -> String {
    let mut text = String::new();
    tell(forest, &mut text);
    text
}

fn tell(forest: &[Node], text: &mut String) {
    for node in forest {
        write!(text, "({}", node.label).expect("a string takes all");
        tell(&node.below, text);
        text.push(')');
    }
}
