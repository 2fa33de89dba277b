//! A plan's forest with the place of every node, from 'The stored place' of document 01.
use super::empty_rules;
use super::forest::{Forest, Tree};
use crate::Side;
use crate::place::{Cell, Over};
use crate::plan::{Plan, Rule};

/// The forest of a closed rule of an accepted plan, unless it has more nodes than `most`.
pub fn unfold(plan: &Plan, rule: u16, most: usize) -> Option<Forest> {
    let mut unfolding = Unfolding { plan, empty: empty_rules(plan), left: most };
    Some(Forest::new(unfolding.row(Over::All, rule, &[])?))
}

struct Unfolding<'a> {
    plan: &'a Plan<'a>,
    empty: Vec<bool>,
    /// How many nodes may still come.
    left: usize,
}

/// A way down through a row or a spine: the steps with the rules that they lead to.
type Steps = Vec<(Side, u16)>;

impl Unfolding<'_> {
    fn rule(&self, rule: u16) -> Rule {
        self.plan.rules.get(rule)
    }

    fn is_empty(&self, rule: u16) -> bool {
        self.empty[usize::from(rule)]
    }

    /// A closed rule's stand-in; an empty rule has none.
    fn representative(&self, rule: u16) -> Option<u16> {
        match self.rule(rule) {
            _ if self.is_empty(rule) => None,
            Rule::Pair(b, c) if self.is_empty(c) => self.representative(b),
            Rule::Pair(b, c) if self.is_empty(b) => self.representative(c),
            _ => Some(rule),
        }
    }

    /// What a row or a spine breaks a rule down to in one step: a pair or a join into its two sides, anything else no further.
    fn halves(&self, rule: u16) -> Option<(u16, u16)> {
        match self.rule(rule) {
            Rule::Pair(b, c) => self.representative(b).zip(self.representative(c)),
            Rule::Join(b, c) => Some((b, c)),
            _ => None,
        }
    }

    /// Every way down from a rule, from left to right; none if there are more than nodes may come.
    fn ways(&self, from: u16) -> Option<Vec<Steps>> {
        let mut ways = Vec::new();
        let mut waiting = vec![(from, Steps::new())];
        while let Some((rule, steps)) = waiting.pop() {
            let Some((b, c)) = self.halves(rule) else {
                ways.push(steps);
                continue;
            };
            for (side, half) in [(Side::Right, c), (Side::Left, b)] {
                let mut longer = steps.clone();
                longer.push((side, half));
                waiting.push((half, longer));
            }
            if ways.len() + waiting.len() > self.left {
                return None;
            }
        }
        Some(ways)
    }

    /// The trees of a row over a closed rule, for cells that end at the node above.
    fn row(&mut self, over: Over, rule: u16, above: &[Cell]) -> Option<Vec<Tree>> {
        let Some(representative) = self.representative(rule) else { return Some(Vec::new()) };
        let opened = [above, &[Cell::row(over, representative)]].concat();
        let mut trees = Vec::new();
        for steps in self.ways(representative)? {
            let tree = end_of(representative, &steps);
            trees.push(self.spine(tree, [opened.clone(), runs(representative, &steps)].concat())?);
        }
        Some(trees)
    }

    /// The tree of a rule of kind 2 or 3, for the cells that led to it.
    fn spine(&mut self, tree: u16, mut cells: Vec<Cell>) -> Option<Tree> {
        cells.push(Cell::spine(tree));
        match self.rule(tree) {
            Rule::Node(label, c) => {
                self.left = self.left.checked_sub(1)?;
                let children = self.row(Over::All, c, &cells)?;
                Some(Tree { label, place: cells, children })
            }
            Rule::Fill(b, c) => {
                let ways = self.ways(b)?;
                let last = ways.last().expect("a spine has a part");
                let mut hole = self.spine(c, [cells.clone(), runs(b, last)].concat())?;
                for steps in ways.iter().rev() {
                    let place = [cells.clone(), runs(b, steps)].concat();
                    hole = self.part(end_of(b, steps), place, hole)?;
                }
                Some(hole)
            }
            _ => unreachable!("a spine is that of a tree"),
        }
    }

    /// The node of a kind 4 rule around what its hole holds.
    fn part(&mut self, part: u16, place: Vec<Cell>, hole: Tree) -> Option<Tree> {
        let Rule::Part(label, l, r) = self.rule(part) else { unreachable!("a spine ends at a part") };
        self.left = self.left.checked_sub(1)?;
        let mut children = self.row(Over::Left, l, &place)?;
        children.push(hole);
        children.extend(self.row(Over::Right, r, &place)?);
        Some(Tree { label, place, children })
    }
}

fn end_of(from: u16, steps: &[(Side, u16)]) -> u16 {
    steps.last().map_or(from, |(_, rule)| *rule)
}

/// The longest runs of a way down.
fn runs(from: u16, steps: &[(Side, u16)]) -> Vec<Cell> {
    let mut cells = Vec::new();
    let mut at = from;
    for run in steps.chunk_by(|one, next| one.0 == next.0) {
        let (side, to) = run[run.len() - 1];
        cells.push(Cell::run(side, at, to));
        at = to;
    }
    cells
}
