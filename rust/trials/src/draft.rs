//! A plan being made: rules that may still be damaged, and the start.
use reference::plan::{self, Rule, Sort, TRAILER, WORDS, trailer, work_bytes};
use reference::{Format, rules};

/// The words that name rules: kind, word, and the sort that the rule named must have.
pub const NAMES: [(u16, usize, Sort); 9] = [
    (1, 1, Sort::CLOSED),
    (1, 2, Sort::CLOSED),
    (2, 2, Sort::CLOSED),
    (3, 1, Sort::HOLED),
    (3, 2, Sort::TREE),
    (4, 2, Sort::CLOSED),
    (4, 3, Sort::CLOSED),
    (5, 1, Sort::HOLED),
    (5, 2, Sort::HOLED),
];

/// Those of a kind: word and sort.
pub fn names_of(kind: u16) -> impl Iterator<Item = (usize, Sort)> {
    NAMES.into_iter().filter(move |name| name.0 == kind).map(|(_, word, sort)| (word, sort))
}

#[derive(Clone, Default)]
pub struct Draft {
    pub format: Format,
    /// Of the words of a rule a narrow plan has the first four.
    pub records: Vec<[u16; WORDS]>,
    pub start: u16,
    /// Bytes before the first rule.
    pub prefix: Vec<u8>,
}

impl Draft {
    /// Adds a rule and makes it the start; gives its number.
    pub fn add(&mut self, rule: Rule) -> u16 {
        self.start = self.records.len() as u16;
        self.records.push(rule.words());
        self.start
    }

    pub fn n(&self) -> usize {
        self.records.len()
    }

    pub fn rule(&self, rule: u16) -> Rule {
        Rule::of(self.records[usize::from(rule)])
    }

    pub fn kind(&self, rule: usize) -> u16 {
        self.records[rule][0]
    }

    /// The rules of a kind below a bound.
    pub fn of_kind(&self, kind: u16, below: usize) -> Vec<u16> {
        (0..below).filter(|rule| self.kind(*rule) == kind).map(|rule| rule as u16).collect()
    }

    /// The rules of a sort below a bound.
    pub fn of_sort(&self, sort: Sort, below: usize) -> Vec<u16> {
        (0..below).filter(|rule| sort.has(self.kind(*rule))).map(|rule| rule as u16).collect()
    }

    /// The same plan with its rules renumbered, rule r as `number[r]`; a number that is no rule's stays.
    pub fn renumbered(&self, number: &[u16]) -> Draft {
        let of = |rule: u16| number.get(usize::from(rule)).copied().unwrap_or(rule);
        let mut records = self.records.clone();
        for (record, to) in self.records.iter().zip(number) {
            let renumbered = &mut records[usize::from(*to)];
            *renumbered = *record;
            names_of(record[0]).for_each(|(word, _)| renumbered[word] = of(record[word]));
        }
        Draft { format: self.format, records, start: of(self.start), prefix: self.prefix.clone() }
    }

    /// The same rules twice, so that neither names one of the other's; and the start of either.
    pub fn twice(&self) -> (Draft, [u16; 2]) {
        let n = self.n() as u16;
        let mut twice = self.clone();
        twice.records.extend(self.records.iter().map(|record| {
            let mut copy = *record;
            names_of(record[0]).for_each(|(word, _)| copy[word] += n);
            copy
        }));
        (twice, [self.start, self.start + n])
    }

    /// The same plan with rules that nothing names behind its own, so that it has so many.
    pub fn padded(mut self, n: usize) -> Draft {
        while self.n() < n {
            let own = self.start;
            self.records.push(if self.n().is_multiple_of(2) { Rule::Pair(own, 0) } else { Rule::Empty }.words());
        }
        self
    }

    /// The same rules in a plan of a format; a narrow one has no labels above 255.
    pub fn in_format(self, format: Format) -> Draft {
        Draft { format, ..self }
    }

    /// A valid plan with other labels.
    pub fn relabelled(&self, mut label: impl FnMut(u32) -> u32) -> Draft {
        let mut relabelled = self.clone();
        for record in &mut relabelled.records {
            *record = match Rule::of(*record) {
                Rule::Node(old, c) => Rule::Node(label(old), c).words(),
                Rule::Part(old, l, r) => Rule::Part(label(old), l, r).words(),
                _ => *record,
            };
        }
        relabelled
    }

    /// The rule words, as seal takes them.
    pub fn words(&self) -> Vec<u8> {
        let words = self.records.iter().flat_map(|record| &record[..self.format.words()]);
        words.flat_map(|word| word.to_le_bytes()).collect()
    }

    /// Bytes of the rule words.
    pub fn words_length(&self) -> usize {
        self.format.record() * self.n()
    }

    /// Bytes of the plan without its prefix.
    pub fn sealed_length(&self) -> usize {
        self.words_length() + TRAILER
    }

    /// The whole plan.
    pub fn plan(&self) -> Vec<u8> {
        let mut plan = self.prefix.clone();
        plan.reserve(self.sealed_length());
        plan.extend(self.words());
        plan.extend(trailer(self.format, self.n(), self.start));
        plan
    }

    /// The number of nodes of a valid plan's forest, whatever their labels; none above 2^64 − 1.
    pub fn nodes(&self) -> Option<u64> {
        rules::nodes(&self.plan(), &mut vec![0; work_bytes(self.n())]).ok()
    }

    /// The stand-in of every rule of a valid plan, for an empty one none.
    pub fn representatives(&self) -> Vec<Option<u16>> {
        let plan = self.plan();
        let mut known: Vec<Option<u16>> = vec![None; self.n()];
        for number in plan::read(&plan).expect("a valid plan").order() {
            known[usize::from(number)] = match self.rule(number) {
                Rule::Empty => None,
                Rule::Pair(b, c) => match (known[usize::from(b)], known[usize::from(c)]) {
                    (Some(_), Some(_)) => Some(number),
                    (one, other) => one.or(other),
                },
                _ => Some(number),
            };
        }
        known
    }
}
