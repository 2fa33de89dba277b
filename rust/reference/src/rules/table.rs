//! What is known of each rule: its words, its representative, and for either side the way along left or right steps.
//!
//! The steps to one side make every rule the child of the rule that its step leads to, so a longest run is a way to a root. 'The rule one
//! above B on the way from A' is then found by depth, along jumps: a rule's jump leads to its step's jump's jump where the two jumps
//! before it are equally long, else to its step, so any depth is reached in O(log n).
use crate::Side;
use crate::plan::{Plan, Rule};
use crate::words;

/// The representative of an empty rule, and the step of a rule that isn't broken down.
pub const NONE: u16 = u16::MAX;

/// Words of a row: the rule's five, its representative, and four for either side.
mod column {
    pub const REPRESENTATIVE: usize = 5;
    pub const LEFT: usize = 6;
    pub const SIDE: usize = 4;
    pub const STEP: usize = 0;
    pub const END: usize = 1;
    pub const DEPTH: usize = 2;
    pub const JUMP: usize = 3;
}

/// Bytes of a row.
const ROW: usize = 32;

pub struct Table<'a>(&'a mut [[u8; ROW]]);

impl<'a> Table<'a> {
    /// Builds the table of an accepted plan at the front of work; gives the rest of work back.
    pub fn build(plan: &Plan, work: &'a mut [u8]) -> (Table<'a>, &'a mut [u8]) {
        let (rows, rest) = work.split_at_mut(ROW * plan.rules.count());
        let mut table = Table(rows.as_chunks_mut().0);
        for number in plan.order() {
            table.add(number, plan.rules.get(number));
        }
        (table, rest)
    }

    fn add(&mut self, number: u16, rule: Rule) {
        rule.words().into_iter().enumerate().for_each(|(column, word)| self.put(number, column, word));
        let (representative, steps) = match rule {
            Rule::Empty => (NONE, None),
            Rule::Pair(b, c) => match (self.representative(b), self.representative(c)) {
                (one, NONE) | (NONE, one) => (one, None),
                both => (number, Some(both)),
            },
            Rule::Join(b, c) => (number, Some((b, c))),
            _ => (number, None),
        };
        self.put(number, column::REPRESENTATIVE, representative);
        let (left, right) = steps.unwrap_or((NONE, NONE));
        self.add_side(number, Side::Left, left);
        self.add_side(number, Side::Right, right);
    }

    fn add_side(&mut self, number: u16, side: Side, step: u16) {
        let (end, depth, jump) = if step == NONE {
            (number, 0, number)
        } else {
            let near = self.side(step, side, column::JUMP);
            let far = self.side(near, side, column::JUMP);
            let depth = self.depth(step, side);
            let even = depth - self.depth(near, side) == self.depth(near, side) - self.depth(far, side);
            (self.end(step, side), depth + 1, if even { far } else { step })
        };
        let first = column::LEFT + column::SIDE * side as usize;
        self.put(number, first + column::STEP, step);
        self.put(number, first + column::END, end);
        self.put(number, first + column::DEPTH, depth);
        self.put(number, first + column::JUMP, jump);
    }

    fn put(&mut self, rule: u16, column: usize, word: u16) {
        words::put(&mut self.0[usize::from(rule)], column, word);
    }

    fn get(&self, rule: u16, column: usize) -> u16 {
        words::get(&self.0[usize::from(rule)], column)
    }

    fn side(&self, rule: u16, side: Side, which: usize) -> u16 {
        self.get(rule, column::LEFT + column::SIDE * side as usize + which)
    }

    pub fn rule(&self, rule: u16) -> Rule {
        Rule::of(std::array::from_fn(|column| self.get(rule, column)))
    }

    /// The stand-in of a closed rule; `NONE` if it is empty.
    pub fn representative(&self, rule: u16) -> u16 {
        self.get(rule, column::REPRESENTATIVE)
    }

    /// Where one step to a side leads.
    pub fn step(&self, rule: u16, side: Side) -> u16 {
        self.side(rule, side, column::STEP)
    }

    /// Where the longest run to a side leads.
    pub fn end(&self, rule: u16, side: Side) -> u16 {
        self.side(rule, side, column::END)
    }

    /// How many steps to a side the longest run has.
    pub fn depth(&self, rule: u16, side: Side) -> u16 {
        self.side(rule, side, column::DEPTH)
    }

    /// The rule on the longest run that has `depth` steps before it; `rule` has at least as many.
    fn at_depth(&self, mut rule: u16, side: Side, depth: u16) -> u16 {
        while self.depth(rule, side) > depth {
            let jump = self.side(rule, side, column::JUMP);
            rule = if self.depth(jump, side) >= depth { jump } else { self.step(rule, side) };
        }
        rule
    }

    /// The rule on the run between `from` and `to` whose step leads to `to`.
    pub fn one_above(&self, from: u16, to: u16, side: Side) -> u16 {
        self.at_depth(from, side, self.depth(to, side) + 1)
    }

    /// Whether one or more steps to a side lead from one rule to the other.
    pub fn reaches(&self, from: u16, to: u16, side: Side) -> bool {
        usize::from(to) < self.0.len()
            && self.depth(from, side) > self.depth(to, side)
            && self.at_depth(from, side, self.depth(to, side)) == to
    }
}
