//! Every way in which a plan can be refused (1 to 7, and 12), done to a valid plan that names lower rules only.
use crate::cycles;
use crate::draft::{Draft, NAMES, names_of};
use crate::random::Random;
use reference::plan::{MAX_RULES, Rule, Sort, TRAILER, WORDS};
use reference::{Format, Refused, Why};

/// A damaged plan: its bytes, its rules if they can be sealed all the same, and what it must be refused with.
pub struct Damaged {
    pub plan: Vec<u8>,
    pub draft: Option<Draft>,
    pub refused: Refused,
}

type Apply = Box<dyn Fn(Draft, &mut Random) -> Damaged>;

/// A way to damage a plan that has every kind of rule.
pub struct Damage {
    pub way: String,
    pub apply: Apply,
}

fn damage(way: String, apply: impl Fn(Draft, &mut Random) -> Damaged + 'static) -> Damage {
    Damage { way, apply: Box::new(apply) }
}

/// The ways to damage a plan of a format.
pub fn all(format: Format) -> Vec<Damage> {
    let mut all = in_trailer();
    all.extend(in_record());
    all.extend(in_label(format));
    all.extend(in_names());
    all.extend(in_start());
    all.extend(in_cycles());
    all.extend(in_any_order());
    all
}

fn distance_in(plan: &[u8], trailer: usize) -> u32 {
    let distance = plan[trailer + 4..].first_chunk().expect("a trailer is whole");
    u32::from_le_bytes(*distance)
}

/// 1 to 3: the plan's bytes, changed as given with the trailer's first byte.
fn in_trailer() -> Vec<Damage> {
    type Change = fn(&mut Vec<u8>, usize, &mut Random);
    let ways: [(&str, Why, Change); 13] = [
        ("fewer than 10 bytes", Why::Mark, |plan, _, random| drop(plan.drain(..plan.len() - random.below(TRAILER)))),
        ("first mark byte", Why::Mark, |plan, at, random| plan[at + 8] ^= random.between(1, 255) as u8),
        // The second bytes of both marks differ in one bit.
        ("second mark byte", Why::Mark, |plan, at, random| plan[at + 9] ^= random.between(2, 255) as u8),
        ("marks swapped", Why::Mark, |plan, at, _| plan.swap(at + 8, at + 9)),
        ("the other format's mark", Why::Distance, |plan, at, _| plan[at + 9] ^= 1),
        ("n is 0", Why::Count, |plan, at, _| plan[at..at + 2].fill(0)),
        ("n above 16,384", Why::Count, |plan, at, random| {
            let any = random.between(MAX_RULES + 1, 65_535);
            let n = random.pick(&[MAX_RULES + 1, 65_535, any]) as u16;
            plan[at..at + 2].copy_from_slice(&n.to_le_bytes());
        }),
        ("n up to 16,384, but not the plan's", Why::Distance, |plan, at, random| {
            let own = u16::from_le_bytes([plan[at], plan[at + 1]]);
            let any = random.between(1, MAX_RULES) as u16;
            let n = random.pick(&[own + 1, 1_024, 1_025, 16_383, 16_384, any]);
            plan[at..at + 2].copy_from_slice(&(if n == own { n + 1 } else { n }).to_le_bytes());
        }),
        ("distance too short", Why::Distance, |plan, at, random| {
            let shorter = distance_in(plan, at) - random.pick(&[1, 7, 8, 9, 10]);
            plan[at + 4..at + 8].copy_from_slice(&shorter.to_le_bytes());
        }),
        ("distance too long", Why::Distance, |plan, at, random| {
            let longer = distance_in(plan, at) + random.pick(&[1, 2, 7, 8, 9, 10, 11]);
            plan[at + 4..at + 8].copy_from_slice(&longer.to_le_bytes());
        }),
        ("the other format's distance", Why::Distance, |plan, at, _| {
            let rules = u32::from(u16::from_le_bytes([plan[at], plan[at + 1]]));
            let other = if distance_in(plan, at) == 8 * rules { 10 * rules } else { 8 * rules };
            plan[at + 4..at + 8].copy_from_slice(&other.to_le_bytes());
        }),
        ("distance's upper half", Why::Distance, |plan, at, random| {
            plan[at + 6 + random.below(2)] ^= random.between(1, 255) as u8
        }),
        ("rules cut off", Why::Distance, |plan, at, random| {
            let distance = distance_in(plan, at) as usize;
            drop(plan.drain(..at - distance + random.between(1, distance)));
        }),
    ];
    let made = ways.map(|(way, why, change)| {
        damage(way.to_string(), move |draft, random| {
            let mut plan = draft.plan();
            let at = plan.len() - TRAILER;
            change(&mut plan, at, random);
            Damaged { plan, draft: None, refused: why.here() }
        })
    });
    made.into_iter().collect()
}

/// A rule changed in one word, to be refused at that rule. The rule is of a kind, has every kind below it and a rule above it.
fn in_word(
    way: String,
    kind: u16,
    word: usize,
    why: Why,
    value: impl Fn(&mut Draft, usize, &mut Random) -> u16 + 'static,
) -> Damage {
    damage(way, move |mut draft, random| {
        let rule = high_of_kind(kind, &draft, random);
        draft.records[rule][word] = value(&mut draft, rule, random);
        Damaged { plan: draft.plan(), refused: why.at(rule), draft: Some(draft) }
    })
}

/// A rule of a kind that has every kind below it and a rule above it.
fn high_of_kind(kind: u16, draft: &Draft, random: &mut Random) -> usize {
    let candidates = draft.of_kind(kind, draft.n() - 1);
    let high: Vec<u16> = candidates.into_iter().filter(|rule| *rule >= Rule::KINDS).collect();
    random.pick(&high).into()
}

const ABOVE_KINDS: [u16; 5] = [6, 7, 255, 256, 65_535];

/// 4: kinds above 5, and unused words.
fn in_record() -> Vec<Damage> {
    let mut all = Vec::new();
    for kind in 0..Rule::KINDS {
        let above = |_: &mut Draft, _: usize, random: &mut Random| random.pick(&ABOVE_KINDS);
        all.push(in_word(format!("kind {kind} made a kind above 5"), kind, 0, Why::Record, above));
    }
    for (kind, word) in [(0, 1), (0, 2), (0, 3), (1, 3), (2, 3), (3, 3), (5, 3)] {
        all.push(in_word(format!("unused word {word} of kind {kind}"), kind, word, Why::Record, nonzero));
    }
    all
}

fn nonzero(_: &mut Draft, _: usize, random: &mut Random) -> u16 {
    random.pick(&[1, 255, 256, 65_535])
}

/// 4: in a narrow plan labels above 255, in a wide one fifth words above 255, and not 0 in kinds without a label.
fn in_label(format: Format) -> Vec<Damage> {
    let (name, word) = match format {
        Format::Narrow => ("label", LABEL),
        Format::Wide => ("fifth word", HIGH),
    };
    let mut all = Vec::new();
    for kind in [2, 4] {
        let above = |_: &mut Draft, _: usize, random: &mut Random| random.between(256, 65_535) as u16;
        let just = |_: &mut Draft, _: usize, _: &mut Random| 256;
        all.push(in_word(format!("{name} of kind {kind} above 255"), kind, word, Why::Record, above));
        all.push(in_word(format!("{name} of kind {kind} just above 255"), kind, word, Why::Record, just));
    }
    if format == Format::Wide {
        for kind in [0, 1, 3, 5] {
            all.push(in_word(format!("fifth word of kind {kind} not 0"), kind, HIGH, Why::Record, nonzero));
        }
    }
    all
}

/// The words of a label: its low part, and the high part that only wide plans have.
const LABEL: usize = 1;
const HIGH: usize = 4;

/// 5, 6 and 12: a rule that isn't there, one of each kind of the wrong sort and of a kind above 5, lower or higher, and one that reaches the
/// rule that names it.
fn in_names() -> Vec<Damage> {
    let mut all = Vec::new();
    for (kind, word, sort) in NAMES {
        let name = format!("word {word} of kind {kind}");
        let itself = if sort.has(kind) { Why::Cycle } else { Why::Sort };
        all.push(in_word(format!("{name} names its own rule"), kind, word, itself, |_, rule, _| rule as u16));
        all.push(in_word(
            format!("{name} names a higher rule over it"),
            kind,
            word,
            Why::Cycle,
            move |draft, rule, random| {
                let least = random.between(1, 4);
                cycles::way_up(draft, rule as u16, least, sort, random)
            },
        ));
        all.push(in_word(format!("{name} names rule n"), kind, word, Why::NotBelow, |draft, _, _| draft.n() as u16));
        all.push(in_word(format!("{name} names a number above n"), kind, word, Why::NotBelow, |draft, _, random| {
            let any = random.between(draft.n() + 1, 65_535);
            random.pick(&[draft.n() + 1, 65_535, any]) as u16
        }));
        for wrong in (0..Rule::KINDS).filter(|wrong| !sort.has(*wrong)) {
            let lower =
                move |draft: &mut Draft, rule: usize, random: &mut Random| a_rule_of_kind(wrong, rule, draft, random);
            all.push(in_word(format!("{name} names kind {wrong}"), kind, word, Why::Sort, lower));
            let higher = move |draft: &mut Draft, rule: usize, random: &mut Random| {
                let like = a_rule_of_kind(wrong, rule, draft, random);
                draft.records.push(draft.records[usize::from(like)]);
                draft.n() as u16 - 1
            };
            all.push(in_word(format!("{name} names a higher rule of kind {wrong}"), kind, word, Why::Sort, higher));
        }
        all.extend(above_kinds(&name, kind, word));
    }
    all
}

/// A rule of a kind below a bound; any of the kind where there is none below.
fn a_rule_of_kind(kind: u16, below: usize, draft: &Draft, random: &mut Random) -> u16 {
    let lower = draft.of_kind(kind, below);
    random.pick(&if lower.is_empty() { draft.of_kind(kind, draft.n()) } else { lower })
}

/// A word that names a rule of a kind above 5: 6 where the naming rule comes first, 4 at the one named where that does.
fn above_kinds(name: &str, kind: u16, word: usize) -> [Damage; 2] {
    [
        in_word(format!("{name} names a higher rule of a kind above 5"), kind, word, Why::Sort, |draft, _, random| {
            draft.records.push([random.pick(&ABOVE_KINDS), 0, 0, 0, 0]);
            draft.n() as u16 - 1
        }),
        damage(format!("{name} names a lower rule of a kind above 5"), move |mut draft, random| {
            let rule = high_of_kind(kind, &draft, random);
            let named = usize::from(draft.records[rule][word]).min(draft.n() - 1);
            draft.records[named][0] = random.pick(&ABOVE_KINDS);
            Damaged { plan: draft.plan(), refused: Why::Record.at(named), draft: Some(draft) }
        }),
    ]
}

/// 7: the start.
fn in_start() -> Vec<Damage> {
    type Start = fn(&Draft, &mut Random) -> u16;
    let ways: [(&str, Start); 4] = [
        ("start is n", |draft, _| draft.n() as u16),
        ("start above n", |draft, random| random.between(draft.n() + 1, 65_535) as u16),
        ("start of kind 4", |draft, random| random.pick(&draft.of_kind(4, draft.n()))),
        ("start of kind 5", |draft, random| random.pick(&draft.of_kind(5, draft.n()))),
    ];
    let made = ways.map(|(way, start)| {
        damage(way.to_string(), move |mut draft, random| {
            draft.start = start(&draft, random);
            Damaged { plan: draft.plan(), refused: Why::Start.here(), draft: Some(draft) }
        })
    });
    made.into_iter().collect()
}

/// A fault of a rule that leaves its kind, so that it is refused at this rule alone; or none, where the rule has no word for it.
type Fault = fn(&mut Draft, usize, &mut Random) -> Option<()>;

const FAULTS: [(&str, Why, Fault); 3] = [
    ("a rule that isn't whole", Why::Record, |draft, rule, random| {
        let above = random.between(256, 65_535) as u16;
        let label = if draft.format == Format::Wide { HIGH } else { LABEL };
        let last = if draft.format == Format::Wide { HIGH } else { 3 };
        let record = &mut draft.records[rule];
        match record[0] {
            0 => record[random.between(1, last)] = random.between(1, 65_535) as u16,
            2 if random.once_in(2) => record[label] = above,
            2 => record[3] = random.between(1, 65_535) as u16,
            4 => record[label] = above,
            _ => record[random.between(3, last)] = random.between(1, 65_535) as u16,
        }
        Some(())
    }),
    ("a rule that names one not below n", Why::NotBelow, |draft, rule, random| {
        let names: Vec<_> = names_of(draft.kind(rule)).collect();
        let any = random.between(draft.n(), 65_535);
        let (word, _) = if names.is_empty() { return None } else { random.pick(&names) };
        draft.records[rule][word] = random.pick(&[draft.n(), any]) as u16;
        Some(())
    }),
    ("a rule that names one of the wrong sort", Why::Sort, |draft, rule, random| {
        let names: Vec<_> = names_of(draft.kind(rule)).collect();
        let (word, sort) = if names.is_empty() { return None } else { random.pick(&names) };
        let wrong: Vec<u16> = (0..draft.n() as u16).filter(|named| !sort.has(draft.kind((*named).into()))).collect();
        draft.records[rule][word] = random.pick(&wrong);
        Some(())
    }),
];

/// Where a fault stands to the rules that reach themselves.
#[derive(Clone, Copy, PartialEq, Eq)]
enum Stands {
    Below,
    Above,
    Among,
}

/// 12: rules that reach themselves, of every shape, in plans of any order; with a start that would be refused; and with a fault that 4, 5 or 6
/// refuses first, wherever it stands.
fn in_cycles() -> Vec<Damage> {
    let mut all = Vec::new();
    for (name, shape) in cycles::SHAPES {
        all.push(damage(name.to_string(), move |draft, random| {
            let cyclic = cycles::added(draft, shape, random);
            let refused = Why::Cycle.at(cyclic.lowest());
            Damaged { plan: cyclic.draft.plan(), draft: Some(cyclic.draft), refused }
        }));
    }
    type Start = fn(&Draft, &mut Random) -> u16;
    let starts: [(&str, Start); 2] = [
        ("a rule that reaches itself, and start isn't below n", |draft, random| {
            random.between(draft.n(), 65_535) as u16
        }),
        ("a rule that reaches itself, and start is holed", |draft, random| {
            random.pick(&draft.of_sort(Sort::HOLED, draft.n()))
        }),
    ];
    for (name, start) in starts {
        all.push(damage(name.to_string(), move |draft, random| {
            let mut cyclic = cycles::any(draft, random);
            cyclic.draft.start = start(&cyclic.draft, random);
            let refused = Why::Cycle.at(cyclic.lowest());
            Damaged { plan: cyclic.draft.plan(), draft: Some(cyclic.draft), refused }
        }));
    }
    for (fault, why, apply) in FAULTS {
        for (place, stands) in [("below", Stands::Below), ("above", Stands::Above), ("among", Stands::Among)] {
            all.push(damage(format!("{fault}, {place} those that reach themselves"), move |draft, random| {
                let (draft, rule) = loop {
                    let mut cyclic = cycles::any(draft.clone(), random);
                    let lowest = cyclic.lowest();
                    let fits = |rule: usize| match stands {
                        Stands::Below => rule < lowest,
                        Stands::Above => rule > lowest && !cyclic.members.contains(&(rule as u16)),
                        Stands::Among => cyclic.members.contains(&(rule as u16)),
                    };
                    let fitting: Vec<usize> = (0..cyclic.draft.n()).filter(|rule| fits(*rule)).collect();
                    if fitting.is_empty() {
                        continue;
                    }
                    let rule = random.pick(&fitting);
                    if apply(&mut cyclic.draft, rule, random).is_some() {
                        break (cyclic.draft, rule);
                    }
                };
                Damaged { plan: draft.plan(), draft: Some(draft), refused: why.at(rule) }
            }));
        }
    }
    all
}

/// 4 to 6 of one rule in plans of any order.
fn in_any_order() -> Vec<Damage> {
    let mut all = Vec::new();
    for (way, why) in [("that a lower rule names", Why::Sort), ("that no lower rule names", Why::Record)] {
        all.push(damage(format!("a kind above 5 {way}, in any order"), move |draft, random| {
            loop {
                let mut draft = draft.renumbered(&random.numbering(draft.n()));
                let rule = random.below(draft.n());
                draft.records[rule][0] = random.pick(&ABOVE_KINDS);
                let names_it =
                    |record: &[u16; WORDS]| names_of(record[0]).any(|(word, _)| usize::from(record[word]) == rule);
                let lower = draft.records[..rule].iter().position(names_it);
                if lower.is_some() == (why == Why::Sort) {
                    return Damaged { plan: draft.plan(), draft: Some(draft), refused: why.at(lower.unwrap_or(rule)) };
                }
            }
        }));
    }
    for (fault, why, apply) in FAULTS {
        all.push(damage(format!("{fault}, in any order"), move |draft, random| {
            let mut draft = draft.renumbered(&random.numbering(draft.n()));
            let rule = loop {
                let rule = random.below(draft.n());
                if apply(&mut draft, rule, random).is_some() {
                    break rule;
                }
            };
            Damaged { plan: draft.plan(), draft: Some(draft), refused: why.at(rule) }
        }));
    }
    all
}
