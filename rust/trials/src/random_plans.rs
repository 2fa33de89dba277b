//! Plans at random.
use crate::draft::Draft;
use crate::random::Random;
use reference::plan::{Rule, Sort, work_bytes};
use reference::{DIVIDER, Format, rules};

/// How a random plan's rules choose what they name.
struct Taste {
    /// How many of the latest fitting rules are named.
    reach: usize,
    /// Pairs, nodes, fills, parts and joins, by weight; the rest are empty rules.
    weights: [usize; 5],
    /// Of so many labels one is a divider's.
    divided: usize,
}

impl Taste {
    fn any(random: &mut Random) -> Taste {
        Taste {
            reach: random.pick(&[1, 2, 3, 6, 20, 1024]),
            weights: std::array::from_fn(|_| random.pick(&[1, 1, 2, 5, 12])),
            divided: random.pick(&DIVIDED),
        }
    }
}

/// A rule of the sort wanted, one of the latest `reach`.
fn named(draft: &Draft, sort: Sort, reach: usize, random: &mut Random) -> Option<u16> {
    let reach = if random.once_in(8) { usize::MAX } else { reach };
    let fitting = (0..draft.n()).rev().filter(|rule| sort.has(draft.kind(*rule)));
    let fitting: Vec<usize> = fitting.take(reach).collect();
    if fitting.is_empty() { None } else { Some(random.pick(&fitting) as u16) }
}

/// Of how many labels one is a divider's: often some are, and now and then half of them or all.
const DIVIDED: [usize; 6] = [1, 2, 5, 10, 30, 1_000];

/// Labels at an edge: a divider's, which is the first of all, the last of a byte, of word 1 and of all, those beside them, and the first with a full
/// high part.
const EDGES: [u32; 10] = [0, 255, 256, 65_534, 65_535, 65_536, 65_537, 16_711_680, 16_777_214, 16_777_215];

/// A label that a format has, now and then one at an edge.
pub fn label(format: Format, random: &mut Random) -> u32 {
    match format {
        Format::Narrow if random.once_in(20) => random.pick(&[DIVIDER, 255]),
        Format::Narrow => random.between(97, 122) as u32,
        Format::Wide if random.once_in(4) => random.pick(&EDGES),
        Format::Wide => {
            let bits = random.pick(&[8, 16, 24]);
            random.below(1 << bits) as u32
        }
    }
}

/// The same plan as a wide one, with labels that it may have; dividers stay.
pub fn widened(draft: &Draft, random: &mut Random) -> Draft {
    let label = |old| if old == DIVIDER { DIVIDER } else { label(Format::Wide, random) };
    draft.relabelled(label).in_format(Format::Wide)
}

/// The same plan, every other time with dividers among its labels.
pub fn divided(draft: Draft, random: &mut Random) -> Draft {
    if random.once_in(2) {
        return draft;
    }
    let of_so_many = random.pick(&DIVIDED);
    draft.relabelled(|old| if random.once_in(of_so_many) { DIVIDER } else { old })
}

/// A rule of this kind over what the draft has, if it can be.
fn rule_of(kind: u16, draft: &Draft, taste: &Taste, random: &mut Random) -> Option<Rule> {
    let mut name = |sort| named(draft, sort, taste.reach, random);
    Some(match kind {
        0 => Rule::Empty,
        1 => Rule::Pair(name(Sort::CLOSED)?, name(Sort::CLOSED)?),
        2 => Rule::Node(0, name(Sort::CLOSED)?),
        3 => Rule::Fill(name(Sort::HOLED)?, name(Sort::TREE)?),
        4 => Rule::Part(0, name(Sort::CLOSED)?, name(Sort::CLOSED)?),
        _ => Rule::Join(name(Sort::HOLED)?, name(Sort::HOLED)?),
    })
}

fn labelled(rule: Rule, taste: &Taste, random: &mut Random) -> Rule {
    let mut label = || if random.once_in(taste.divided) { DIVIDER } else { label(Format::Narrow, random) };
    match rule {
        Rule::Node(_, c) => Rule::Node(label(), c),
        Rule::Part(_, l, r) => Rule::Part(label(), l, r),
        other => other,
    }
}

fn add_of_kind(kind: u16, draft: &mut Draft, taste: &Taste, random: &mut Random) -> bool {
    let Some(rule) = rule_of(kind, draft, taste, random) else { return false };
    draft.add(labelled(rule, taste, random));
    true
}

/// A valid narrow plan of n rules; the start is its last closed rule.
pub fn any(random: &mut Random, n: usize) -> Draft {
    let taste = Taste::any(random);
    let total: usize = taste.weights.iter().sum::<usize>() + 1;
    let mut draft = Draft::default();
    draft.add(Rule::Empty);
    while draft.n() < n {
        let mut choice = random.below(total);
        let kind = taste.weights.iter().position(|weight| {
            let taken = choice < *weight;
            choice = choice.wrapping_sub(*weight);
            taken
        });
        add_of_kind(kind.map_or(0, |kind| kind as u16 + 1), &mut draft, &taste, random);
    }
    draft.start = (0..n).rev().find(|rule| draft.kind(*rule) <= 3).expect("rule 0 is closed") as u16;
    if random.once_in(3) {
        let count = random.below(20);
        draft.prefix = random.bytes(count);
    }
    draft
}

/// A valid plan of a format that has every kind both low and high, with rules between and a last one above.
pub fn all_kinds(format: Format, random: &mut Random) -> Draft {
    let taste = Taste::any(random);
    let mut draft = Draft::default();
    let every = [0, 2, 1, 4, 5, 3];
    for kind in every {
        add_of_kind(kind, &mut draft, &taste, random);
    }
    for _ in 0..random.below(20) {
        let kind = random.pick(&every);
        add_of_kind(kind, &mut draft, &taste, random);
    }
    let first = random.below(every.len());
    for index in 0..every.len() {
        add_of_kind(every[(first + index) % every.len()], &mut draft, &taste, random);
    }
    add_of_kind(1, &mut draft, &taste, random);
    if format == Format::Wide { widened(&draft, random) } else { draft }
}

/// Starts a plan where its forest is largest but has no more than `most` nodes, or at random among such starts.
pub fn start_within(draft: &mut Draft, most: u64, random: &mut Random) {
    let mut work = vec![0; work_bytes(draft.n())];
    let mut fitting = Vec::new();
    for rule in 0..draft.n() as u16 {
        if !Sort::CLOSED.has(draft.kind(rule.into())) {
            continue;
        }
        draft.start = rule;
        let nodes = rules::nodes(&draft.plan(), &mut work).unwrap_or(u64::MAX);
        if nodes <= most {
            fitting.push((nodes, rule));
        }
    }
    let largest = fitting.iter().max().copied().expect("the empty rule fits");
    draft.start = if random.once_in(4) { random.pick(&fitting).1 } else { largest.1 };
}
