//! What a reader holds: a walker, the path to where it stands, a place that is remembered, and what there is to say.
use super::path::{Path, Step};
use crate::labels::told;
use crate::rules::format_name;
use mealplan::{Compared, Label, Measured, Place, Plan, Refused, Rule, Walker, seal_rules};

/// Siblings that are counted, and letters in a call of that.
const MOST_COUNTED: u64 = 200_000;
const AT_ONCE: usize = 1_000;
/// Pairs of nodes that a reader waits for.
const BUDGET: u32 = 1_000_000;

pub struct Reader<'a> {
    name: String,
    walker: Walker<'a>,
    path: Path,
    size: Option<Measured>,
    remembered: Option<(Place, Path)>,
    message: String,
}

/// What stands around the reader: siblings before and after, the nearest first, and children.
pub struct Around {
    pub before: Vec<Label>,
    pub after: Vec<Label>,
    pub children: Vec<Label>,
}

impl<'a> Reader<'a> {
    pub fn new(name: &str, mut walker: Walker<'a>) -> Reader<'a> {
        Reader {
            name: name.to_owned(),
            size: measured(&walker).ok(),
            message: match walker.why(b'a') {
                Ok(reason) if !reason.moves() => reason.to_string(),
                _ => "above the forest: a or z leads in".into(),
            },
            walker,
            path: Path::default(),
            remembered: None,
        }
    }

    /// The plan in a line.
    pub fn title(&self) -> String {
        let plan = self.walker.plan();
        let walked = match self.walker.place().rule() {
            Some(rule) => format!("rule {rule}"),
            None => format!("start {}", plan.start()),
        };
        let size = match self.size {
            Some(Measured { trees, entries, levels }) => format!("{trees} trees, {entries} entries, {levels} levels"),
            None => "more than 2^64 - 1 nodes".into(),
        };
        format!("{}: {} {} rules, {walked}; {size}", self.name, plan.n(), format_name(plan.format()))
    }

    pub fn path(&self) -> &Path {
        &self.path
    }

    pub fn cells(&self) -> usize {
        self.walker.cell_count()
    }

    pub fn label(&self) -> Option<Label> {
        self.walker.label()
    }

    pub fn message(&self) -> &str {
        &self.message
    }

    pub fn say(&mut self, message: &str) {
        self.message = message.to_owned();
    }

    /// Walks by a letter, or says why it leads nowhere.
    pub fn go(&mut self, letter: u8) {
        let answers = self.walker.walk(&[letter]);
        if !matches!(answers.as_deref(), Ok([Some(_)])) {
            let why = self.walker.why(letter).map_or_else(|refused| refused.to_string(), |reason| reason.to_string());
            self.message = format!("{}: {why}", char::from(letter));
            return;
        }
        self.message = String::new();
        let last = if matches!(letter, b'z' | b'l') { self.last(letter) } else { Step::BeforeLast(0) };
        self.path.follow(letter, last);
    }

    /// The place among its siblings of the last one, where the walker stands: counted, or of the roots measured, or else told from the last.
    fn last(&self, letter: u8) -> Step {
        if letter == b'z'
            && let Some(size) = self.size
        {
            return Step::Number(size.trees);
        }
        let mut walker = self.walker.clone();
        let mut counted = 1;
        while counted < MOST_COUNTED {
            let Ok(answers) = walker.walk(&[b'p'; AT_ONCE]) else { break };
            let moved = answers.iter().flatten().count();
            counted += moved as u64;
            if moved < AT_ONCE {
                return Step::Number(counted);
            }
        }
        Step::BeforeLast(0)
    }

    pub fn remember(&mut self) {
        self.remembered = Some((self.walker.place(), self.path.clone()));
        self.message = format!("remembered: {}", self.path);
    }

    pub fn go_back(&mut self) {
        let Some((place, path)) = &self.remembered else { return self.say("nothing is remembered") };
        // It was a place of this plan when it was kept.
        if self.walker.go_to(place).is_ok() {
            self.path = path.clone();
            self.message = "as remembered".into();
        }
    }

    pub fn compare(&mut self) {
        let Some((place, _)) = &self.remembered else { return self.say("nothing is remembered") };
        self.message = match self.walker.compare(place, BUDGET) {
            Ok(Compared::Same(count)) => format!("the same as remembered, {count} in all"),
            Ok(Compared::Differ(count)) => format!("another than remembered, at {count}"),
            Ok(Compared::Spent(count)) => format!("the same as remembered up to {count}"),
            Err(_) => "above the forest there is nothing to compare".into(),
        };
    }

    /// At most so many siblings before, siblings after and children.
    pub fn around(&self, before: usize, after: usize, children: usize) -> Around {
        Around {
            before: self.seen(b"", b'p', before),
            after: self.seen(b"", b'n', after),
            children: self.children(children),
        }
    }

    fn children(&self, most: usize) -> Vec<Label> {
        let mut first = self.walker.clone();
        match first.first_child() {
            Some(label) if most > 0 => std::iter::once(label).chain(self.seen(b"f", b'n', most - 1)).collect(),
            _ => Vec::new(),
        }
    }

    /// The labels that one letter, over and over, leads to behind others, up to nowhere.
    fn seen(&self, before: &[u8], letter: u8, most: usize) -> Vec<Label> {
        let letters = [before, &vec![letter; most]].concat();
        let answers = self.walker.clone().walk(&letters).unwrap_or_default();
        answers.into_iter().skip(before.len()).map_while(|label| label).collect()
    }

    /// The labels from the root down to here, as many as there are levels, at most so many of the last.
    pub fn trail(&self, most: usize) -> Vec<String> {
        let mut labels = self.seen(b"", b'u', most);
        labels.reverse();
        labels.extend(self.label());
        labels.into_iter().map(told).collect()
    }
}

/// The size of the forest that is walked: the plan's, or that of the plan started at the rule.
fn measured(walker: &Walker) -> Result<Measured, Refused> {
    let plan = walker.plan();
    if walker.rule() == plan.start() {
        return plan.measure();
    }
    let rules: Vec<Rule> = plan.rules().collect();
    let started = seal_rules(&rules, plan.format(), walker.rule())?;
    Plan::new(&started)?.measure()
}

#[cfg(test)]
mod tests {
    use super::*;
    use mealplan::Format;

    fn sample() -> Vec<u8> {
        std::fs::read(concat!(env!("CARGO_MANIFEST_DIR"), "/../../samples/plan.bin")).expect("the sample plan")
    }

    fn reading<'a>(bytes: &'a [u8], letters: &[u8]) -> Reader<'a> {
        pressed(Plan::new(bytes).expect("a plan").walker(), letters)
    }

    fn pressed<'a>(walker: Walker<'a>, letters: &[u8]) -> Reader<'a> {
        let mut reader = Reader::new("x", walker);
        letters.iter().for_each(|letter| reader.go(*letter));
        reader
    }

    #[test]
    fn paths_of_the_sample() {
        let bytes = sample();
        for (letters, path) in [
            ("", "above the forest"),
            ("afnn", "1 / 3"),
            ("zn", "3"),
            ("alp", "1 / 3"),
            ("afnnl", "1 / 3 / 4"),
            ("afun", "2"),
        ] {
            assert_eq!(reading(&bytes, letters.as_bytes()).path().to_string(), path, "{letters}");
        }
        for (letters, message) in [
            ("", "above the forest: a or z leads in"),
            ("zn", "n: this is the last of its siblings: nothing comes next"),
            ("afp", "p: this is the first of its siblings: nothing comes before it"),
            ("zu", "u: this is a root: nothing is above it"),
            ("afl", "l: this has no children: nothing is below it"),
            ("s", "s: above the forest only a and z lead in"),
            ("as", ""),
        ] {
            assert_eq!(reading(&bytes, letters.as_bytes()).message(), message, "{letters}");
        }
        assert_eq!(reading(&bytes, b"").title(), "x: 8 narrow rules, start 7; 3 trees, 11 entries, 3 levels");
    }

    #[test]
    fn one_rule_of_the_sample() {
        let bytes = sample();
        let plan = Plan::new(&bytes).expect("a plan");
        let of = |rule: u16, letters: &[u8]| pressed(plan.walker_of(rule).expect("a closed rule"), letters);
        assert_eq!(of(3, b"").title(), "x: 8 narrow rules, rule 3; 2 trees, 2 entries, 1 levels");
        assert_eq!(of(7, b"").title(), "x: 8 narrow rules, rule 7; 3 trees, 11 entries, 3 levels");
        assert_eq!(of(0, b"").title(), "x: 8 narrow rules, rule 0; 0 trees, 0 entries, 0 levels");
        let last = "n: this is the last of its siblings: nothing comes next";
        assert_eq!((of(3, b"zn").path().to_string(), of(3, b"zn").message()), ("2".into(), last));
        assert_eq!(of(0, b"").message(), "the forest is empty: no key leads anywhere");
        assert_eq!(of(0, b"z").message(), "z: the forest is empty: no key leads anywhere");
        let around = of(6, b"afnn").around(9, 9, 9);
        assert_eq!((around.before, around.after, around.children), (vec![98, 97], vec![98], vec![97, 98, 97, 98]));
        let mut reader = of(3, b"a");
        reader.remember();
        reader.go(b'n');
        reader.go_back();
        reader.compare();
        assert_eq!((reader.path().to_string(), reader.message()), ("1".into(), "the same as remembered, 1 in all"));
    }

    #[test]
    fn what_stands_around() {
        let bytes = sample();
        let around = reading(&bytes, b"afnn").around(9, 9, 9);
        assert_eq!((around.before, around.after, around.children), (vec![98, 97], vec![98], vec![97, 98, 97, 98]));
        let around = reading(&bytes, b"afnn").around(1, 0, 2);
        assert_eq!((around.before, around.after, around.children), (vec![98], vec![], vec![97, 98]));
        let around = reading(&bytes, b"").around(9, 9, 9);
        assert_eq!((around.before, around.after, around.children), (vec![], vec![], vec![]));
        assert_eq!(reading(&bytes, b"afnnf").trail(9), ["99 c", "99 c", "97 a"]);
        assert_eq!(reading(&bytes, b"afnnf").trail(1), ["99 c", "97 a"]);
    }

    #[test]
    fn a_place_is_remembered() {
        let bytes = sample();
        let mut reader = reading(&bytes, b"af");
        reader.compare();
        assert_eq!(reader.message(), "nothing is remembered");
        reader.remember();
        assert_eq!(reader.message(), "remembered: 1 / 1");
        reader.go(b'n');
        reader.compare();
        assert_eq!(reader.message(), "another than remembered, at 1");
        reader.go_back();
        assert_eq!((reader.path().to_string(), reader.label()), ("1 / 1".into(), Some(97)));
        reader.compare();
        assert_eq!(reader.message(), "the same as remembered, 1 in all");
    }

    #[test]
    fn siblings_too_many_to_count() {
        let mut rules = vec![Rule::Empty, Rule::Node(97, 0)];
        rules.extend((1..=70).map(|row| Rule::Pair(row, row)));
        rules.push(Rule::Node(98, 71));
        let bytes = seal_rules(&rules, Format::Narrow, 72).expect("a plan");
        assert_eq!(reading(&bytes, b"alpp").path().to_string(), "1 / last-2");
        let few = seal_rules(&rules[..14], Format::Narrow, 13).expect("a plan");
        assert_eq!(reading(&few, b"zp").path().to_string(), "4095");
        rules.truncate(14);
        rules.push(Rule::Node(98, 13));
        let few = seal_rules(&rules, Format::Narrow, 14).expect("a plan");
        assert_eq!(reading(&few, b"alpp").path().to_string(), "1 / 4094");
    }
}
