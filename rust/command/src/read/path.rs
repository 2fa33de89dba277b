//! The path to where a reader stands: the place among the siblings, from 1, at each level from the root down.
use std::fmt;

/// A place among siblings. Of siblings that are too many to count it is told from the last one.
#[derive(Clone, Copy, PartialEq, Eq, Debug)]
pub enum Step {
    /// So many from the first, which is 1.
    Number(u64),
    /// So many before the last.
    BeforeLast(u64),
}

#[derive(Clone, PartialEq, Eq, Debug, Default)]
pub struct Path {
    steps: Vec<Step>,
}

impl Path {
    /// Follows a letter that led to a node. `last` is the place of the last sibling there, for a letter that leads to it.
    pub fn follow(&mut self, letter: u8, last: Step) {
        match letter {
            b'a' => self.steps = vec![Step::Number(1)],
            b'z' => self.steps = vec![last],
            b'f' => self.steps.push(Step::Number(1)),
            b'l' => self.steps.push(last),
            b'n' => self.turn(Step::next),
            b'p' => self.turn(Step::previous),
            b'u' => drop(self.steps.pop()),
            _ => {}
        }
    }

    fn turn(&mut self, beside: fn(Step) -> Step) {
        if let Some(step) = self.steps.last_mut() {
            *step = beside(*step);
        }
    }

    /// The path in at most so many columns; where it is longer its end is shown.
    pub fn told(&self, columns: usize) -> String {
        let whole = self.to_string();
        let most = columns.max(8);
        if whole.len() <= most {
            return whole;
        }
        let end = &whole[whole.len() - (most - 4)..];
        format!("... {}", end.find('/').map_or(end, |slash| &end[slash..]))
    }

    pub fn level(&self) -> usize {
        self.steps.len()
    }
}

impl Step {
    fn next(self) -> Step {
        match self {
            Step::Number(number) => Step::Number(number.saturating_add(1)),
            Step::BeforeLast(count) => Step::BeforeLast(count.saturating_sub(1)),
        }
    }

    fn previous(self) -> Step {
        match self {
            Step::Number(number) => Step::Number(number.saturating_sub(1)),
            Step::BeforeLast(count) => Step::BeforeLast(count.saturating_add(1)),
        }
    }
}

impl fmt::Display for Step {
    fn fmt(&self, f: &mut fmt::Formatter) -> fmt::Result {
        match self {
            Step::Number(number) => write!(f, "{number}"),
            Step::BeforeLast(0) => write!(f, "last"),
            Step::BeforeLast(count) => write!(f, "last-{count}"),
        }
    }
}

impl fmt::Display for Path {
    fn fmt(&self, f: &mut fmt::Formatter) -> fmt::Result {
        if self.steps.is_empty() {
            return write!(f, "above the forest");
        }
        for (i, step) in self.steps.iter().enumerate() {
            write!(f, "{}{step}", if i == 0 { "" } else { " / " })?;
        }
        Ok(())
    }
}

#[cfg(test)]
mod tests {
    use super::*;

    fn path(letters: &[u8], last: Step) -> Path {
        let mut path = Path::default();
        letters.iter().for_each(|letter| path.follow(*letter, last));
        path
    }

    #[test]
    fn letters_make_paths() {
        let four = Step::Number(4);
        assert_eq!(path(b"", four).to_string(), "above the forest");
        assert_eq!(path(b"afnn", four).to_string(), "1 / 3");
        assert_eq!(path(b"zlpfs", four).to_string(), "4 / 3 / 1");
        assert_eq!(path(b"zlu", four).to_string(), "4");
        assert_eq!(path(b"affa", four).to_string(), "1");
        let far = Step::BeforeLast(0);
        assert_eq!(path(b"z", far).to_string(), "last");
        assert_eq!(path(b"zlppn", far).to_string(), "last / last-1");
        assert_eq!(path(b"aff", four).level(), 3);
    }

    #[test]
    fn a_long_path_shows_its_end() {
        let long = path(b"affffffffffff", Step::Number(1));
        assert_eq!(long.told(100), long.to_string());
        assert_eq!(long.told(20), "... / 1 / 1 / 1 / 1");
        assert!((0..60).all(|columns| long.told(columns).len() <= columns.max(8)));
    }
}
