//! The forest as an indented tree, by walking: of a plan however large, as many lines as asked for.
use crate::labels::told;
use crate::progress::Progress;
use mealplan::{Label, Walker};
use std::io::{self, Write};

/// Levels that are shown by columns; the level of a deeper node is told by its number.
const MOST_COLUMNS: u64 = 40;

/// What of a forest is shown.
#[derive(Clone, Copy)]
pub struct Shown {
    /// The most levels.
    pub depth: u64,
    /// The most lines.
    pub lines: u64,
}

/// All nodes in reading order, down to a depth, from a walker above the forest or at the node whose subtree is toured.
struct Tour<'w, 'a> {
    walker: &'w mut Walker<'a>,
    depth: u64,
    /// The level of the node where the walker stands, from 1; 0 before the first.
    level: u64,
    /// Whether the tour is of one subtree, whose top has no siblings here.
    below: bool,
}

impl Tour<'_, '_> {
    /// The next node; none at the end.
    fn next(&mut self) -> Option<Label> {
        if self.level == 0 {
            let first = if self.below { self.walker.label() } else { self.walker.first_root() };
            self.level = 1;
            return first;
        }
        if self.level < self.depth
            && let Some(label) = self.walker.first_child()
        {
            self.level += 1;
            return Some(label);
        }
        while !(self.below && self.level == 1) {
            if let Some(label) = self.walker.next_sibling() {
                return Some(label);
            }
            self.walker.parent()?;
            self.level -= 1;
        }
        None
    }

    /// Whether there are nodes below the last that was given which aren't toured.
    fn is_cut(&mut self) -> bool {
        if self.level < self.depth || self.walker.first_child().is_none() {
            return false;
        }
        self.walker.parent();
        true
    }
}

/// Shows the forest, or, if the walker stands at a node, the subtree there.
pub fn show(walker: &mut Walker, shown: Shown, out: &mut impl Write) -> io::Result<()> {
    let progress = Progress::new("showing", Some("lines"));
    let below = walker.label().is_some();
    let mut tour = Tour { walker, depth: shown.depth, level: 0, below };
    let mut lines = 0;
    if shown.depth == 0 {
        return Ok(());
    }
    while let Some(label) = tour.next() {
        if lines == shown.lines {
            return writeln!(out, "... and more");
        }
        let (level, cut) = (tour.level, tour.is_cut());
        writeln!(out, "{}{}{}", indent(level), told(label), if cut { " ..." } else { "" })?;
        lines += 1;
        progress.add(1);
    }
    Ok(())
}

/// What stands before a label: two columns a level below the first.
fn indent(level: u64) -> String {
    let columns = " ".repeat(2 * (level.min(MOST_COLUMNS).saturating_sub(1)) as usize);
    if level > MOST_COLUMNS { format!("{columns}(level {level}) ") } else { columns }
}

#[cfg(test)]
mod tests {
    use super::*;
    use mealplan::{Format, Plan, Rule, seal_rules};

    fn shown(rules: &[Rule], keys: &[u8], depth: u64, lines: u64) -> String {
        let bytes = seal_rules(rules, Format::Narrow, rules.len() as u16 - 1).expect("a plan");
        let mut walker = Plan::new(&bytes).expect("it was sealed").walker();
        walker.walk(keys).expect("keys");
        let mut out = Vec::new();
        show(&mut walker, Shown { depth, lines }, &mut out).expect("a vector takes all");
        String::from_utf8(out).expect("text")
    }

    const SAMPLE: [Rule; 8] = [
        Rule::Empty,
        Rule::Node(97, 0),
        Rule::Node(98, 0),
        Rule::Pair(1, 2),
        Rule::Part(99, 3, 2),
        Rule::Join(4, 4),
        Rule::Fill(5, 1),
        Rule::Pair(6, 3),
    ];

    #[test]
    fn the_sample() {
        let all = "99 c\n  97 a\n  98 b\n  99 c\n    97 a\n    98 b\n    97 a\n    98 b\n  98 b\n97 a\n98 b\n";
        assert_eq!(shown(&SAMPLE, b"", u64::MAX, u64::MAX), all);
        assert_eq!(shown(&SAMPLE, b"", 3, 11), all);
        assert_eq!(shown(&SAMPLE, b"", 2, 3), "99 c\n  97 a\n  98 b\n... and more\n");
        assert_eq!(shown(&SAMPLE, b"", 2, 9), "99 c\n  97 a\n  98 b\n  99 c ...\n  98 b\n97 a\n98 b\n");
        assert_eq!(shown(&SAMPLE, b"", 1, 9), "99 c ...\n97 a\n98 b\n");
        assert_eq!(shown(&SAMPLE, b"", 0, 9), "");
        assert_eq!(shown(&SAMPLE, b"", 1, 0), "... and more\n");
    }

    #[test]
    fn a_subtree() {
        assert_eq!(shown(&SAMPLE, b"afnn", u64::MAX, 99), "99 c\n  97 a\n  98 b\n  97 a\n  98 b\n");
        assert_eq!(shown(&SAMPLE, b"afnn", 1, 99), "99 c ...\n");
        assert_eq!(shown(&SAMPLE, b"z", 5, 99), "98 b\n");
    }

    #[test]
    fn a_deep_forest_and_an_empty_one() {
        let mut chain = vec![Rule::Empty];
        chain.extend((0..60).map(|below| Rule::Node(65, below)));
        let text = shown(&chain, b"", u64::MAX, u64::MAX);
        assert_eq!(text.lines().count(), 60);
        assert!(text.lines().all(|line| line.len() < 100));
        assert_eq!(text.lines().last().map(str::trim_start), Some("(level 60) 65 A"));
        assert_eq!(shown(&[Rule::Empty], b"az", 9, 9), "");
    }
}
