//! The finger of demand 3: a path of sibling numbers on the unfolded forest.
use super::forest::Forest;
use crate::NOWHERE;

/// The sibling numbers from 1 at each level, the root's first; above the forest there are none.
#[derive(Clone, Default)]
pub struct Finger {
    pub path: Vec<usize>,
}

impl Finger {
    /// Takes one letter: the label of the node arrived at, or nowhere.
    pub fn answer(&mut self, forest: &Forest, letter: u8) -> u32 {
        let Some(tried) = self.tried(forest, letter) else { return NOWHERE };
        let Some(node) = forest.node_at(&tried) else { return NOWHERE };
        self.path = tried;
        node.label
    }

    /// The path that a letter tries, which may name no node; above the forest only a and z try one.
    fn tried(&self, forest: &Forest, letter: u8) -> Option<Vec<usize>> {
        match letter {
            b'a' => return Some(vec![1]),
            b'z' => return Some(vec![forest.trees.len()]),
            _ => (),
        }
        let mut path = self.path.clone();
        let last = path.last_mut()?;
        match letter {
            b'n' => *last += 1,
            b'p' => *last -= 1,
            b'f' => path.push(1),
            b'l' => path.push(forest.children_at(&path)?.len()),
            b'u' => {
                path.pop();
            }
            _ => (),
        }
        Some(path)
    }
}
