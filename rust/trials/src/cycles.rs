//! Plans in which some rule reaches itself (refusal 12), of every shape. Rules are added to a valid plan, whose own rules name none of them:
//! so only added rules reach themselves, and the plan says which. Then all rules are numbered anew.
use crate::draft::{Draft, NAMES, names_of};
use crate::random::Random;
use crate::random_plans;
use reference::plan::{Rule, Sort};

/// A plan with the rules of it that reach themselves.
pub struct Cyclic {
    pub draft: Draft,
    pub members: Vec<u16>,
}

impl Cyclic {
    pub fn lowest(&self) -> usize {
        self.members.iter().copied().min().expect("some rule reaches itself").into()
    }
}

/// What adds a shape to a plan. It may give a rule that reaches a cycle but not itself, and that is to have a lower number than all that do.
type Shape = fn(&mut Builder) -> Option<u16>;

pub const SHAPES: [(&str, Shape); 8] = [
    ("a rule that names itself", |builder| {
        let loops: Vec<_> = NAMES.into_iter().filter(|(kind, _, sort)| sort.has(*kind)).collect();
        let (kind, word, sort) = builder.random.pick(&loops);
        builder.ring(kind, word, sort, 0);
        None
    }),
    ("rules that name each other", |builder| {
        builder.any_ring(1);
        None
    }),
    ("a long ring", |builder| {
        let least = builder.random.between(8, 80);
        builder.any_ring(least);
        None
    }),
    ("several rings", |builder| {
        for _ in 0..builder.random.between(2, 5) {
            let least = builder.random.below(6);
            builder.any_ring(least);
        }
        None
    }),
    ("two rings that share a rule", |builder| {
        let kind = builder.random.pick(&TWO_NAMES);
        let shared = builder.add(kind, None);
        builder.members.push(shared);
        for (word, sort) in names_of(kind) {
            let least = builder.random.below(6);
            builder.close(shared, word, sort, least);
        }
        None
    }),
    ("a ring that a lower rule only reaches", |builder| {
        let least = builder.random.below(6);
        builder.any_ring(least);
        let mut above = builder.random.pick(&builder.members);
        for _ in 0..builder.random.between(1, 4) {
            above = builder.over(above);
        }
        Some(above)
    }),
    ("a ring that reaches another by a lower rule", |builder| {
        let least = builder.random.below(6);
        builder.any_ring(least);
        let member = builder.random.pick(&builder.members);
        let between = builder.over(member);
        let kind = builder.random.pick(&TWO_NAMES);
        let rule = builder.add(kind, None);
        builder.members.push(rule);
        let [one, other] = [names_of(kind).next(), names_of(kind).last()].map(|name| name.expect("two names"));
        let ((word, sort), (word_between, sort_between)) =
            if builder.random.once_in(2) { (one, other) } else { (other, one) };
        builder.close(rule, word, sort, least);
        builder.draft.records[usize::from(rule)][word_between] = builder.way_up(between, 0, sort_between).1;
        Some(between)
    }),
    ("a ring that the start reaches", |builder| {
        let least = builder.random.below(6);
        builder.any_ring(least);
        let member = builder.random.pick(&builder.members);
        builder.draft.start = builder.way_up(member, 1, Sort::CLOSED).1;
        None
    }),
];

/// The kinds with two words that name rules.
const TWO_NAMES: [u16; 4] = [1, 3, 4, 5];

/// A plan with a shape added and all its rules renumbered.
pub fn added(draft: Draft, shape: Shape, random: &mut Random) -> Cyclic {
    let valid = draft.n();
    let mut builder = Builder { draft, valid, members: Vec::new(), random };
    let low = shape(&mut builder);
    let Builder { draft, members, random, .. } = builder;
    let mut number = random.numbering(draft.n());
    let first = members.iter().copied().min_by_key(|member| number[usize::from(*member)]).expect("a ring has rules");
    if let Some(low) = low
        && number[usize::from(first)] < number[usize::from(low)]
    {
        number.swap(first.into(), low.into());
    }
    let members = members.into_iter().map(|member| number[usize::from(member)]).collect();
    Cyclic { draft: draft.renumbered(&number), members }
}

/// A plan with any of the shapes.
pub fn any(draft: Draft, random: &mut Random) -> Cyclic {
    let (_, shape) = random.pick(&SHAPES);
    added(draft, shape, random)
}

/// Adds rules at the end, at least so many, each over the one before and the first over this one, until the last is of a sort; gives that.
pub fn way_up(draft: &mut Draft, from: u16, least: usize, sort: Sort, random: &mut Random) -> u16 {
    let valid = draft.n();
    let mut builder = Builder { draft: std::mem::take(draft), valid, members: Vec::new(), random };
    let last = builder.way_up(from, least, sort).1;
    *draft = builder.draft;
    last
}

pub struct Builder<'a> {
    draft: Draft,
    /// How many rules the plan had.
    valid: usize,
    /// The rules added that reach themselves.
    members: Vec<u16>,
    random: &'a mut Random,
}

impl Builder<'_> {
    /// Adds a rule of a kind. One word names what it is given, the others name rules that the plan had.
    fn add(&mut self, kind: u16, name: Option<(usize, u16)>) -> u16 {
        let mut record = [kind, 0, 0, 0, 0];
        if matches!(kind, 2 | 4) {
            let label = random_plans::label(self.draft.format, self.random);
            (record[1], record[4]) = (label as u16, (label >> 16) as u16);
        }
        for (word, sort) in names_of(kind) {
            record[word] = match name {
                Some((given, named)) if given == word => named,
                _ => self.random.pick(&self.draft.of_sort(sort, self.valid)),
            };
        }
        self.draft.records.push(record);
        self.draft.n() as u16 - 1
    }

    /// Adds a rule that names this one.
    fn over(&mut self, named: u16) -> u16 {
        let fits = |sort: Sort| sort.has(self.draft.kind(named.into()));
        let fitting: Vec<_> = NAMES.into_iter().filter(|(_, _, sort)| fits(*sort)).collect();
        let (kind, word, _) = self.random.pick(&fitting);
        self.add(kind, Some((word, named)))
    }

    /// Adds rules over this one as [`way_up`] does; gives those added, and the last, which is this one if none is.
    fn way_up(&mut self, from: u16, least: usize, sort: Sort) -> (Vec<u16>, u16) {
        let (mut way, mut last) = (Vec::new(), from);
        while way.len() < least || !sort.has(self.draft.kind(last.into())) {
            last = self.over(last);
            way.push(last);
        }
        (way, last)
    }

    /// Has a word of a rule name a way up from it, of at least so many rules.
    fn close(&mut self, rule: u16, word: usize, sort: Sort, least: usize) {
        let (way, last) = self.way_up(rule, least, sort);
        self.draft.records[usize::from(rule)][word] = last;
        self.members.extend(way);
    }

    /// Adds a rule of a kind and closes a way up from it.
    fn ring(&mut self, kind: u16, word: usize, sort: Sort, least: usize) {
        let rule = self.add(kind, None);
        self.members.push(rule);
        self.close(rule, word, sort, least);
    }

    fn any_ring(&mut self, least: usize) {
        let (kind, word, sort) = self.random.pick(&NAMES);
        self.ring(kind, word, sort, least);
    }
}

/// A ring of all rules, each naming the next.
pub fn ring(n: usize) -> Draft {
    let records = (0..n).map(|rule| Rule::Node(97, ((rule + 1) % n) as u16).words());
    Draft { records: records.collect(), ..Draft::default() }
}

/// A chain of pairs of the next two rules into a last one that names itself: a search from each rule in turn goes through all that follow.
pub fn chain_into_loop(n: usize) -> Draft {
    let at_most = |rule: usize| rule.min(n - 1) as u16;
    let records = (0..n).map(|rule| Rule::Pair(at_most(rule + 1), at_most(rule + 2)).words());
    Draft { records: records.collect(), ..Draft::default() }
}

/// Plans of so many rules with long ways to themselves, and the lowest rule that reaches itself.
pub fn long(n: usize, random: &mut Random) -> [(&'static str, Draft, usize); 5] {
    let node = |named: usize| Rule::Node(98, named as u16).words();
    let number = random.numbering(n);
    let mut backwards = ring(n);
    backwards.records.iter_mut().enumerate().for_each(|(rule, record)| *record = node((rule + n - 1) % n));
    let cut = random.between(1, n - 1);
    let mut tail = ring(n);
    tail.records[n - 1] = node(cut);
    let last = usize::from(number[n - 1]);
    [
        ("all rules in a ring", ring(n).renumbered(&number), 0),
        ("all rules in a ring, backwards", backwards, 0),
        ("a chain into a ring", tail, cut),
        ("a chain into a rule that names itself", chain_into_loop(n), n - 1),
        ("a chain in any order into a rule that names itself", chain_into_loop(n).renumbered(&number), last),
    ]
}
