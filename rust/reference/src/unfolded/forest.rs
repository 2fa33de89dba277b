//! A forest in memory, every node of which carries its place.
use crate::compare::Listed;
use crate::place::Cell;
use crate::{DIVIDER, Format, Measured};
use std::collections::HashMap;

/// A tree: its root's label and place, and the trees below.
pub struct Tree {
    pub label: u32,
    pub place: Vec<Cell>,
    pub children: Vec<Tree>,
}

impl Tree {
    /// All nodes in reading order, each with its level below the root.
    pub fn listed(&self) -> impl Iterator<Item = Listed> {
        let mut waiting = vec![(self, 0)];
        std::iter::from_fn(move || {
            let (tree, level) = waiting.pop()?;
            waiting.extend(tree.children.iter().rev().map(|child| (child, level + 1)));
            Some(Listed { label: tree.label, level })
        })
    }
}

/// A list of trees, and the path to each place.
pub struct Forest {
    pub trees: Vec<Tree>,
    paths: HashMap<Vec<Cell>, Vec<usize>>,
}

impl Forest {
    pub fn new(trees: Vec<Tree>) -> Forest {
        let mut paths = HashMap::from([(Vec::new(), Vec::new())]);
        note_paths(&trees, &mut Vec::new(), &mut paths);
        Forest { trees, paths }
    }

    /// The trees below the node at a path; below the empty path, all trees.
    pub fn children_at(&self, path: &[usize]) -> Option<&[Tree]> {
        match path {
            [] => Some(&self.trees),
            _ => self.node_at(path).map(|node| node.children.as_slice()),
        }
    }

    /// The node that a path of sibling numbers from 1 names, if it names one.
    pub fn node_at(&self, path: &[usize]) -> Option<&Tree> {
        let (last, above) = path.split_last()?;
        let mut siblings = &self.trees;
        for number in above {
            siblings = &siblings.get(number.checked_sub(1)?)?.children;
        }
        siblings.get(last.checked_sub(1)?)
    }

    /// The cells of the node at a path; above the forest there are none.
    pub fn place_at(&self, path: &[usize]) -> &[Cell] {
        self.node_at(path).map_or(&[], |node| &node.place)
    }

    /// The path to the node with these cells, if there is one.
    pub fn path_of(&self, place: &[Cell]) -> Option<Vec<usize>> {
        self.paths.get(place).cloned()
    }

    /// The cells of every node, and none for above the forest.
    pub fn places(&self) -> impl Iterator<Item = &Vec<Cell>> {
        self.paths.keys()
    }

    /// The labels of all nodes, in reading order.
    pub fn labels(&self) -> impl Iterator<Item = u32> {
        self.trees.iter().flat_map(Tree::listed).map(|node| node.label)
    }

    pub fn measured(&self) -> Measured {
        let entries = self.labels().filter(|label| *label != DIVIDER).count() as u64;
        Measured { trees: self.trees.len() as u64, entries, levels: levels(&self.trees) }
    }

    /// The sum over all nodes of what each weighs by its label.
    pub fn grams(&self, of: impl Fn(u32) -> u16) -> u128 {
        self.labels().map(|label| u128::from(of(label))).sum()
    }

    /// The text, with labels as a format writes them.
    pub fn text(&self, format: Format) -> Vec<u8> {
        let mut text = Vec::new();
        write_text(&self.trees, format, &mut text);
        text
    }
}

fn note_paths(trees: &[Tree], path: &mut Vec<usize>, paths: &mut HashMap<Vec<Cell>, Vec<usize>>) {
    for (index, tree) in trees.iter().enumerate() {
        path.push(index + 1);
        let before = paths.insert(tree.place.clone(), path.clone());
        assert!(before.is_none(), "two nodes with one place: {:?}", tree.place);
        note_paths(&tree.children, path, paths);
        path.pop();
    }
}

fn levels(trees: &[Tree]) -> u64 {
    trees.iter().map(|tree| 1 + levels(&tree.children)).max().unwrap_or(0)
}

fn write_text(trees: &[Tree], format: Format, text: &mut Vec<u8>) {
    for tree in trees {
        text.push(b'(');
        text.extend(&tree.label.to_le_bytes()[..format.label()]);
        write_text(&tree.children, format, text);
        text.push(b')');
    }
}
