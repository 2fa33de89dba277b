//! The format of a plan: rules, check, seal and unseal.
use crate::reach;
use crate::words;
use crate::{Checked, Format, Refused, Unsealed, Why};

/// The most rules of a plan (document 02, Note 3).
pub const MAX_RULES: usize = 16_384;
/// The most rules that document 01 allowed, each of which needs fewer words of work.
pub const FEW_RULES: usize = 1_024;
/// Words of a rule in either format; a narrow plan's have no fifth, which is then taken for 0.
pub const WORDS: usize = 5;
/// Bytes of the trailer: n, start, distance, mark.
pub const TRAILER: usize = 10;
/// Words of work that measure, spread, walk, compare, copy, grams and reason need for each of n rules.
pub const fn work_words(n: usize) -> usize {
    if n <= FEW_RULES { 32 } else { 40 }
}
/// Bytes of work that n rules need.
pub const fn work_bytes(n: usize) -> usize {
    2 * work_words(n) * n
}
/// Bytes of cursor that n rules need: 16 × (n + 1) words.
pub const fn cursor_bytes(n: usize) -> usize {
    32 * (n + 1)
}

/// A rule by its right-hand side: the rules named, and first a node's label.
#[derive(Clone, Copy, PartialEq, Eq, Debug)]
pub enum Rule {
    Empty,
    Pair(u16, u16),
    Node(u32, u16),
    Fill(u16, u16),
    Part(u32, u16, u16),
    Join(u16, u16),
}

/// The rules of document 01's sample plan, whose start is the last: label 97 four times in its forest, 98 five times, 99 twice.
pub const SAMPLE: [Rule; 8] = [
    Rule::Empty,
    Rule::Node(97, 0),
    Rule::Node(98, 0),
    Rule::Pair(1, 2),
    Rule::Part(99, 3, 2),
    Rule::Join(4, 4),
    Rule::Fill(5, 1),
    Rule::Pair(6, 3),
];

/// What a word that names a rule asks of it: a bit for each kind that the rule may have.
#[derive(Clone, Copy, PartialEq, Eq, Debug)]
pub struct Sort(u8);

impl Sort {
    pub const CLOSED: Sort = Sort(0b00_1111);
    pub const TREE: Sort = Sort(0b00_1100);
    pub const HOLED: Sort = Sort(0b11_0000);

    /// Whether a rule of this kind is of the sort.
    pub fn has(self, kind: u16) -> bool {
        kind < Rule::KINDS && self.0 >> kind & 1 == 1
    }
}

impl Rule {
    pub const KINDS: u16 = 6;

    /// The rule that the words of an accepted plan mean.
    pub fn of(words: [u16; WORDS]) -> Rule {
        let [kind, a, b, c, _] = words;
        match kind {
            0 => Rule::Empty,
            1 => Rule::Pair(a, b),
            2 => Rule::Node(label(words), b),
            3 => Rule::Fill(a, b),
            4 => Rule::Part(label(words), b, c),
            _ => Rule::Join(a, b),
        }
    }

    pub fn words(self) -> [u16; WORDS] {
        let low = |label: u32| label as u16;
        let high = |label: u32| (label >> 16) as u16;
        match self {
            Rule::Empty => [0, 0, 0, 0, 0],
            Rule::Pair(b, c) => [1, b, c, 0, 0],
            Rule::Node(label, c) => [2, low(label), c, 0, high(label)],
            Rule::Fill(b, c) => [3, b, c, 0, 0],
            Rule::Part(label, l, r) => [4, low(label), l, r, high(label)],
            Rule::Join(b, c) => [5, b, c, 0, 0],
        }
    }

    /// The label of a kind that has one.
    pub fn label(self) -> Option<u32> {
        match self {
            Rule::Node(label, _) | Rule::Part(label, ..) => Some(label),
            _ => None,
        }
    }

    /// The rules named, in the order of the words.
    pub fn named(self) -> impl Iterator<Item = u16> {
        let (first, second) = match self {
            Rule::Empty => (None, None),
            Rule::Node(_, c) => (Some(c), None),
            Rule::Pair(b, c) | Rule::Fill(b, c) | Rule::Part(_, b, c) | Rule::Join(b, c) => (Some(b), Some(c)),
        };
        first.into_iter().chain(second)
    }
}

/// What the words of a kind with a label have for one: word 1, and the fifth as its high part.
fn label([_, low, _, _, high]: [u16; WORDS]) -> u32 {
    u32::from(low) + 65_536 * u32::from(high)
}

/// The rules that words name, with the sort that each must have (the only one of a node twice), or none; an error if the words are no
/// rule: a kind above 5, a label above the format's last, an unused word that isn't 0.
fn names(words: [u16; WORDS], format: Format) -> Result<Option<[(u16, Sort); 2]>, Why> {
    let labelled = label(words) <= format.most_label();
    match words {
        [0, 0, 0, 0, 0] => Ok(None),
        [1, b, c, 0, 0] => Ok(Some([(b, Sort::CLOSED), (c, Sort::CLOSED)])),
        [2, _, c, 0, _] if labelled => Ok(Some([(c, Sort::CLOSED), (c, Sort::CLOSED)])),
        [3, b, c, 0, 0] => Ok(Some([(b, Sort::HOLED), (c, Sort::TREE)])),
        [4, _, l, r, _] if labelled => Ok(Some([(l, Sort::CLOSED), (r, Sort::CLOSED)])),
        [5, b, c, 0, 0] => Ok(Some([(b, Sort::HOLED), (c, Sort::HOLED)])),
        _ => Err(Why::Record),
    }
}

/// The records of a plan, rule 0 first.
#[derive(Clone, Copy)]
pub enum Rules<'a> {
    Narrow(&'a [[u8; Format::Narrow.record()]]),
    Wide(&'a [[u8; Format::Wide.record()]]),
}

impl<'a> Rules<'a> {
    /// The records in these bytes; a rest of fewer bytes than a rule has isn't one.
    pub fn of(bytes: &'a [u8], format: Format) -> Rules<'a> {
        match format {
            Format::Narrow => Rules::Narrow(bytes.as_chunks().0),
            Format::Wide => Rules::Wide(bytes.as_chunks().0),
        }
    }

    pub fn format(self) -> Format {
        match self {
            Rules::Narrow(_) => Format::Narrow,
            Rules::Wide(_) => Format::Wide,
        }
    }

    pub fn count(self) -> usize {
        match self {
            Rules::Narrow(records) => records.len(),
            Rules::Wide(records) => records.len(),
        }
    }

    pub fn bytes(self) -> &'a [u8] {
        match self {
            Rules::Narrow(records) => records.as_flattened(),
            Rules::Wide(records) => records.as_flattened(),
        }
    }

    fn words(self, rule: usize) -> [u16; WORDS] {
        match self {
            Rules::Narrow(records) => {
                let [kind, a, b, c] = words::unpack(records[rule]);
                [kind, a, b, c, 0]
            }
            Rules::Wide(records) => std::array::from_fn(|word| words::get(&records[rule], word)),
        }
    }

    fn kind(self, rule: u16) -> u16 {
        match self {
            Rules::Narrow(records) => words::get(&records[usize::from(rule)], 0),
            Rules::Wide(records) => words::get(&records[usize::from(rule)], 0),
        }
    }

    /// Whether there is a rule of this number, and it is closed.
    fn has_closed(self, rule: u16) -> bool {
        usize::from(rule) < self.count() && Sort::CLOSED.has(self.kind(rule))
    }

    /// A rule of an accepted plan.
    pub fn get(self, rule: u16) -> Rule {
        Rule::of(self.words(rule.into()))
    }

    /// Refusals 4 to 6 of one rule; gives whether all that it names is lower. A named rule may be one that isn't judged yet: of that only
    /// the kind is looked at, and a kind above 5 is of no sort.
    fn judge_rule(self, number: usize) -> Result<bool, Why> {
        let Some([(b, sort_of_b), (c, sort_of_c)]) = names(self.words(number), self.format())? else { return Ok(true) };
        let highest = usize::from(b.max(c));
        if highest >= self.count() {
            return Err(Why::NotBelow);
        }
        if !sort_of_b.has(self.kind(b)) || !sort_of_c.has(self.kind(c)) {
            return Err(Why::Sort);
        }
        Ok(highest < number)
    }

    /// Refusals 4 to 6, then 12, then 7; gives an order of the rules in which each comes after those that it names, or none where that of
    /// their numbers is one.
    fn judge(self, start: u16) -> Result<Option<Vec<u16>>, Refused> {
        let mut lower = true;
        for number in 0..self.count() {
            lower &= self.judge_rule(number).map_err(|why| why.at(number))?;
        }
        let order = if lower { None } else { Some(reach::order(self).map_err(|lowest| Why::Cycle.at(lowest))?) };
        if !self.has_closed(start) {
            return Err(Why::Start.here());
        }
        Ok(order)
    }
}

/// An accepted plan.
pub struct Plan<'a> {
    pub rules: Rules<'a>,
    pub start: u16,
    order: Option<Vec<u16>>,
}

impl Plan<'_> {
    pub fn checked(&self) -> Checked {
        Checked { n: self.rules.count() as u16, start: self.start }
    }

    pub fn format(&self) -> Format {
        self.rules.format()
    }

    /// The rule whose forest is walked by a cursor with this word 1 in its cell 0: the start for 0, else the one whose number plus one it is. None
    /// for a number beyond the rules or of a holed rule (document 02, Note 10).
    pub fn walked(&self, word: u16) -> Option<u16> {
        let rule = word.checked_sub(1).unwrap_or(self.start);
        self.rules.has_closed(rule).then_some(rule)
    }

    /// All rules, each after those that it names.
    pub fn order(&self) -> impl Iterator<Item = u16> {
        (0..self.rules.count()).map(|place| self.order.as_ref().map_or(place as u16, |order| order[place]))
    }
}

/// Reads and checks a plan: refusals 1 to 6, 12 and 7.
pub fn read(bytes: &[u8]) -> Result<Plan<'_>, Refused> {
    let (body, trailer) = bytes.split_last_chunk::<TRAILER>().ok_or(Why::Mark.here())?;
    let [n0, n1, s0, s1, d0, d1, d2, d3, mark @ ..] = *trailer;
    let format = Format::of_mark(mark).ok_or(Why::Mark.here())?;
    let n = usize::from(u16::from_le_bytes([n0, n1]));
    if n == 0 || n > MAX_RULES {
        return Err(Why::Count.here());
    }
    let distance = u32::from_le_bytes([d0, d1, d2, d3]) as usize;
    if distance != format.record() * n || distance > body.len() {
        return Err(Why::Distance.here());
    }
    let rules = Rules::of(&body[body.len() - distance..], format);
    let start = u16::from_le_bytes([s0, s1]);
    let order = rules.judge(start)?;
    Ok(Plan { rules, start, order })
}

pub fn check(plan: &[u8]) -> Result<Checked, Refused> {
    Ok(read(plan)?.checked())
}

/// Writes rule words, of rules of so many bytes, as a plan without cover; gives its length.
pub fn seal(words: &[u8], record_length: u16, start: u16, out: &mut [u8]) -> Result<u64, Refused> {
    let format = Format::of_record_length(record_length).ok_or(Why::Mark.here())?;
    let (rules, n) = (Rules::of(words, format), words::count(words) / format.words());
    if words::count(words) != format.words() * n || n == 0 || n > MAX_RULES {
        return Err(Why::Count.here());
    }
    rules.judge(start)?;
    let out = out.get_mut(..format.record() * n + TRAILER).ok_or(Why::Output.here())?;
    let (records, end) = out.split_at_mut(format.record() * n);
    records.copy_from_slice(rules.bytes());
    end.copy_from_slice(&trailer(format, n, start));
    Ok(out.len() as u64)
}

pub fn trailer(format: Format, n: usize, start: u16) -> [u8; TRAILER] {
    let [n0, n1] = (n as u16).to_le_bytes();
    let [s0, s1] = start.to_le_bytes();
    let [d0, d1, d2, d3] = ((format.record() * n) as u32).to_le_bytes();
    let [m0, m1] = format.mark();
    [n0, n1, s0, s1, d0, d1, d2, d3, m0, m1]
}

/// Writes a plan's rule words at the front of `out`; gives their length too.
pub fn unseal(plan: &[u8], out: &mut [u8]) -> Result<Unsealed, Refused> {
    let plan = read(plan)?;
    let words = plan.rules.bytes();
    out.get_mut(..words.len()).ok_or(Why::Output.here())?.copy_from_slice(words);
    let Checked { n, start } = plan.checked();
    Ok(Unsealed { record_length: plan.format().record_length(), n, start })
}
