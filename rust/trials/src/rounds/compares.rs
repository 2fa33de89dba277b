//! Compare (document 02, Note 4): two places of one plan at budgets around what is found; subtrees that are equal by other rules, or differ in a
//! label, in a level, in their length; and forests that nobody lists, with small budgets, or with what is known of them from how they were made.
use crate::call::{Call, Operation, Values};
use crate::cursors::Stored;
use crate::draft::Draft;
use crate::families::{self, Twins};
use crate::random_plans;
use crate::rounds::{self, places, walks};
use crate::trial::Trial;
use reference::place::Cell;
use reference::plan::{FEW_RULES, Rule, cursor_bytes};
use reference::{Compared, Format, Why, rules};

pub fn agree(trial: &mut Trial, rounds: usize) {
    for _ in 0..rounds {
        small(trial);
        for change in CHANGES {
            twins(trial, change);
        }
        large(trial);
        known(trial);
        above(trial);
    }
}

/// What is found where the number is this one.
fn within(budget: u32, found: Compared) -> Compared {
    let (Compared::Same(number) | Compared::Differ(number) | Compared::Spent(number)) = found;
    if number > budget { Compared::Spent(budget) } else { found }
}

/// A comparison of small subtrees at budgets around its number: below it all is spent, and from there on nothing changes. Gives what is found.
fn at_budgets(trial: &mut Trial, call: &Call) -> Compared {
    let all = Call { budget: u32::MAX, ..call.clone() };
    let Ok(Values::Compared(found)) = trial.judge(&all).outcome else { panic!("two nodes are compared") };
    let (Compared::Same(number) | Compared::Differ(number)) = found else { panic!("a small forest isn't above 2^32") };
    let any = trial.random.number() as u32;
    for budget in [0, 1, number - 1, number, number + 1, any] {
        let outcome = trial.judge(&Call { budget, ..call.clone() }).outcome;
        assert_eq!(outcome, Ok(Values::Compared(within(budget, found))), "at a budget of {budget}");
    }
    found
}

/// Two stored places in cursors that hold anything behind them, one or both longer than they need be.
fn call_of(trial: &mut Trial, draft: &Draft, places: [Stored; 2]) -> Call {
    let [cursor, second] = places.map(|place| {
        let longer = trial.random.below(3) * trial.random.below(20);
        let mut cursor = trial.random.leftovers(cursor_bytes(draft.n()) + longer);
        place.write(&mut cursor);
        cursor
    });
    let mut call = Call::compare(draft, cursor, second, 0);
    let longer = trial.random.below(9);
    call.work = trial.random.leftovers(call.work.len() + longer);
    call
}

/// Few labels, so that subtrees are often alike; those of a wide plan may differ in any of their bytes alone.
fn with_few_labels(trial: &mut Trial, draft: &Draft) -> Draft {
    let (format, near) = match trial.random.below(2) {
        0 => (Format::Narrow, [97, 98, 99, 255]),
        _ => (Format::Wide, [0x01_02_03, 0x01_02_04, 0x01_03_03, 0x02_02_03]),
    };
    let labels = &near[..trial.random.between(1, 4)];
    draft.relabelled(|_| trial.random.pick(labels)).in_format(format)
}

/// Any two places of small forests, of one rule or of two, and any place with itself.
fn small(trial: &mut Trial) {
    let draft = rounds::small(&mut trial.random, 40);
    let draft = with_few_labels(trial, &draft);
    let draft = rounds::in_any_order(&mut trial.random, draft);
    let of = [(); 2].map(|()| places::places_of(trial, &draft));
    let [Some((word, places)), Some((other, others))] = of else { return };
    let nodes = |places: Vec<Vec<Cell>>| places.into_iter().filter(|place| !place.is_empty()).collect::<Vec<_>>();
    let (nodes, others) = (nodes(places), nodes(others));
    for pair in 0..4 {
        let first = Stored::of(&trial.random.pick(&nodes)).with_word(word);
        let second = match pair {
            0 => first.clone(),
            _ => Stored::of(&trial.random.pick(&others)).with_word(other),
        };
        let call = call_of(trial, &draft, [first, second]);
        at_budgets(trial, &call);
        trial.tally.words_compared += u64::from(pair > 0 && word != other);
    }
}

/// A change of one rule of a valid plan, for which it is given a leaf that nothing names; false where the rule has nothing of the kind.
type Change = fn(&mut Draft, usize, u16) -> bool;

/// The twins that differ from each other by one change, or by none.
const CHANGES: [Option<(&str, Change)>; 4] = [
    None,
    Some(("a label", |draft, rule, _| {
        let other =
            |label: u32| if draft.format == Format::Wide && rule % 2 == 0 { label ^ 0x10_0000 } else { label ^ 1 };
        let changed = match draft.rule(rule as u16) {
            Rule::Node(label, c) => Rule::Node(other(label), c),
            Rule::Part(label, l, r) => Rule::Part(other(label), l, r),
            _ => return false,
        };
        draft.records[rule] = changed.words();
        true
    })),
    // A leaf before other trees becomes a node over them: the labels stay in their order.
    Some(("a level", |draft, rule, _| {
        let Rule::Pair(leaf, others) = draft.rule(rule as u16) else { return false };
        let Rule::Node(label, below) = draft.rule(leaf) else { return false };
        let known = draft.representatives();
        if known[usize::from(below)].is_some() || known[usize::from(others)].is_none() {
            return false;
        }
        draft.records[rule] = Rule::Node(label, others).words();
        true
    })),
    Some(("the length", |draft, rule, leaf| {
        let Rule::Node(label, below) = draft.rule(rule as u16) else { return false };
        let longer = draft.add(Rule::Pair(below, leaf));
        draft.records[rule] = Rule::Node(label, longer).words();
        true
    })),
];

/// A plan's rules twice, the second time with a change, and a node over either start.
fn twins(trial: &mut Trial, change: Option<(&str, Change)>) {
    let mut draft = rounds::small(&mut trial.random, 30);
    let most = trial.random.pick(&[20, 100, 600]);
    random_plans::start_within(&mut draft, most, &mut trial.random);
    let draft = with_few_labels(trial, &draft);
    let n = draft.n();
    let (mut both, starts) = draft.twice();
    let empty = both.add(Rule::Empty);
    let leaf = both.add(Rule::Node(120, empty));
    if let Some((_, change)) = change {
        let mut reached = reached(&draft);
        let changed = loop {
            if reached.is_empty() {
                break false;
            }
            let rule = reached.swap_remove(trial.random.below(reached.len()));
            if change(&mut both, n + usize::from(rule), leaf) {
                break true;
            }
        };
        if !changed {
            return;
        }
    }
    let tops = starts.map(|start| both.add(Rule::Node(121, start)));
    both.add(Rule::Pair(tops[0], tops[1]));
    let both = rounds::in_any_order(&mut trial.random, both);
    let [first, second] = [b"a", b"z"].map(|letters| at(&both, 0, letters));
    for (cursor, second) in [(&first, &second), (&second, &first)] {
        let found = at_budgets(trial, &Call::compare(&both, cursor.clone(), second.clone(), 0));
        let differ = matches!(found, Compared::Differ(_));
        assert_eq!(differ, change.is_some(), "{:?} is changed: {found:?}", change.map(|(what, _)| what));
    }
    // Below them, by the same letters.
    for _ in 0..2 {
        let letters: Vec<u8> = (0..trial.random.between(1, 12)).map(|_| trial.random.pick(b"ffflnnnnpu")).collect();
        let [cursor, second] = [b'a', b'z'].map(|top| at(&both, 0, &[&[top, b'f'][..], &letters].concat()));
        at_budgets(trial, &Call::compare(&both, cursor, second, 0));
    }
}

/// The rules that the start reaches, and the start.
pub(super) fn reached(draft: &Draft) -> Vec<u16> {
    let mut seen = vec![false; draft.n()];
    let mut reached = vec![draft.start];
    let mut done = 0;
    seen[usize::from(draft.start)] = true;
    while done < reached.len() {
        for named in draft.rule(reached[done]).named() {
            if !std::mem::replace(&mut seen[usize::from(named)], true) {
                reached.push(named);
            }
        }
        done += 1;
    }
    reached
}

/// The cursor where letters lead to from above the forest of the rule that a word names.
fn at(draft: &Draft, word: u16, letters: &[u8]) -> Vec<u8> {
    let mut call = Call::new(Operation::Walk, draft.plan(), draft.n()).with_word(word).with_letters(letters);
    rules::walk(&call.plan, &mut call.work, &mut call.cursor, letters, &mut call.answers).expect("from above");
    call.cursor
}

/// Places of forests that nobody lists, at small budgets.
fn large(trial: &mut Trial) {
    let n = trial.random.pick(&[30, 100, 300, FEW_RULES]);
    let draft = if trial.random.once_in(2) {
        families::any(&mut trial.random, n)
    } else {
        random_plans::any(&mut trial.random, n)
    };
    let draft = if trial.random.once_in(2) { with_few_labels(trial, &draft) } else { draft };
    let draft = rounds::in_any_order(&mut trial.random, draft);
    compare_far(trial, &draft);
}

/// Two places that letters at random lead to, of one rule or of two, at small budgets; also where one of them is above the forest.
pub(super) fn compare_far(trial: &mut Trial, draft: &Draft) {
    let place = |trial: &mut Trial| {
        let word = rounds::word(&mut trial.random, draft);
        let above = Call::new(Operation::Walk, draft.plan(), draft.n()).with_word(word);
        let count = trial.random.between(1, 60);
        let letters = [b"a".to_vec(), rounds::letters(&mut trial.random, count)].concat();
        let letters = walks::mostly_moving(trial, &above, letters);
        at(draft, word, &letters)
    };
    let (cursor, second) = (place(trial), place(trial));
    let most = trial.random.pick(&[1, 10, 100, 1_000]);
    for (cursor, second) in [(&cursor, &second), (&second, &cursor), (&cursor, &cursor)] {
        let call = Call::compare(draft, cursor.clone(), second.clone(), most);
        let outcome = trial.judge(&call).outcome;
        for budget in [0, 1, most / 2, most - 1] {
            let less = trial.judge(&Call { budget, ..call.clone() }).outcome;
            match (outcome, less) {
                (Ok(Values::Compared(found)), Ok(Values::Compared(less))) => assert_eq!(less, within(budget, found)),
                (outcome, less) => assert_eq!(outcome, less, "no budget changes a refusal"),
            }
        }
    }
}

/// Two subtrees of any size, first and last of a forest, and what is known of them: whether they are the same, and the number.
struct Known {
    way: &'static str,
    draft: Draft,
    same: bool,
    number: u128,
}

/// What is under the first and the second of two nodes, from a row and two leaves that differ; the row's own are like the first.
type Tops = fn(&mut Draft, u16, [u16; 2]) -> [u16; 2];

/// Each with whether the two are the same, and by how much their number is above that of the row's leaves.
const OVER_A_ROW: [(&str, bool, u128, Tops); 8] = [
    ("the same row", true, 1, |_, row, _| [row, row]),
    ("the same row in pairs of their own", true, 2, |draft, row, [leaf, _]| {
        [(); 2].map(|()| draft.add(Rule::Pair(row, leaf)))
    }),
    // Nobody takes an empty forest apart: each is doubled sixty times by rules of its own.
    ("the same row beside empty forests", true, 1, |draft, row, _| {
        let [before, after] = [(); 2].map(|()| doubled_empty(draft));
        [draft.add(Rule::Pair(before, row)), draft.add(Rule::Pair(row, after))]
    }),
    ("parts around the same leaf, with empty arms", true, 3, |draft, row, [leaf, _]| {
        [(); 2].map(|()| {
            let [left, right] = [(); 2].map(|()| doubled_empty(draft));
            let beside = draft.add(Rule::Pair(left, row));
            let part = draft.add(Rule::Part(97, beside, right));
            draft.add(Rule::Fill(part, leaf))
        })
    }),
    ("one leaf more", false, 2, |draft, row, [leaf, _]| [draft.add(Rule::Pair(row, leaf)), row]),
    ("another leaf at the end", false, 2, |draft, row, leaves| leaves.map(|leaf| draft.add(Rule::Pair(row, leaf)))),
    ("two leaves, and one over the other", false, 3, |draft, row, [leaf, _]| {
        let below = draft.add(Rule::Node(97, leaf));
        let beside = draft.add(Rule::Pair(leaf, leaf));
        [below, beside].map(|last| draft.add(Rule::Pair(row, last)))
    }),
    ("another leaf at the end, below a node", false, 3, |draft, row, leaves| {
        leaves.map(|leaf| {
            let node = draft.add(Rule::Node(97, leaf));
            draft.add(Rule::Pair(row, node))
        })
    }),
];

fn doubled_empty(draft: &mut Draft) -> u16 {
    let mut empty = draft.add(Rule::Empty);
    for _ in 0..60 {
        empty = draft.add(Rule::Pair(empty, empty));
    }
    empty
}

fn over_row(trial: &mut Trial, count: u128) -> Known {
    let (way, same, more, under) = trial.random.pick(&OVER_A_ROW);
    let mut draft = families::leaves(count);
    let row = draft.start;
    // The first two rules are an empty one and a leaf with label 97.
    let leaves = [1, draft.add(Rule::Node(98, 0))];
    let tops = under(&mut draft, row, leaves).map(|under| draft.add(Rule::Node(99, under)));
    draft.add(Rule::Pair(tops[0], tops[1]));
    Known { way, draft, same, number: count + more }
}

/// Comparisons that share nearly all of their rules, so that the library has the answer however many nodes there are, around 2^32 too.
fn known(trial: &mut Trial) {
    const FULL: u128 = 1 << 32;
    let any = u128::from(trial.random.number());
    let count = match trial.random.below(6) {
        0 => FULL - 5 + any % 6,
        1 => FULL / 2 + any % 9,
        2 => any % FULL,
        3 => any % 1_000,
        4 => FULL + any % FULL,
        _ => any << trial.random.below(60),
    };
    let doublings = trial.random.pick(&[1, 5, 10, 20, 29, 30, 31, 32, 33, 64, 100]);
    let twins = trial.random.pick(&[Twins::OneRule, Twins::OwnTops, Twins::OneEntry]);
    let same = twins != Twins::OneEntry;
    let of_twins =
        [("rows", families::twin_rows(twins, doublings)), ("spines", families::twin_spines(twins, doublings))];
    let all = of_twins.map(|(way, (draft, number))| Known { way, draft, same, number });
    for Known { way, draft, same, number } in all.into_iter().chain([over_row(trial, count + 1)]) {
        let draft = if trial.random.once_in(2) { draft.in_format(Format::Wide) } else { draft };
        let draft = rounds::in_any_order(&mut trial.random, draft);
        // The two are a pair, the start; each side of it may also be named by number.
        let Rule::Pair(b, c) = draft.rule(draft.start) else { panic!("the start is a pair") };
        let words = trial.random.pick(&[[0, 0], [0, draft.start + 1], [b + 1, c + 1], [b + 1, 0]]);
        let [first, last] = [(words[0], b"a"), (words[1], b"z")].map(|(word, letters)| at(&draft, word, letters));
        let (cursor, second) = if trial.random.once_in(2) { (first, last) } else { (last, first) };
        let near = |by: i128| u32::try_from(number as i128 + by).unwrap_or(u32::MAX);
        for budget in [0, 1, near(-2), near(-1), near(0), near(1), any as u32, u32::MAX] {
            let found = match u32::try_from(number) {
                Ok(number) if number <= budget && same => Compared::Same(number),
                Ok(number) if number <= budget => Compared::Differ(number),
                _ => Compared::Spent(budget),
            };
            let call = Call::compare(&draft, cursor.clone(), second.clone(), budget);
            trial.told(&call, &Ok(Values::Compared(found)), way);
        }
    }
}

/// 10: a place above the forest of any rule, whichever it is, and whatever the other is.
fn above(trial: &mut Trial) {
    let draft = families::sample();
    let draft = rounds::in_any_form(&mut trial.random, draft);
    let node = at(&draft, 0, b"afn");
    let word = rounds::word(&mut trial.random, &draft);
    let above = at(&draft, word, b"");
    let mut headed = node.clone();
    headed[2 * trial.random.between(2, 3)] = 1;
    let ways = [
        ("the first above the forest", &above, &node),
        ("the second above the forest", &node, &above),
        ("both above the forest", &above, &above),
        ("the first above the forest, the second no place", &above, &headed),
        ("the first no place, the second above the forest", &headed, &above),
        ("both no place", &headed, &headed),
    ];
    for (way, cursor, second) in ways {
        let budget = trial.random.pick(&[0, 1, u32::MAX]);
        let call = Call::compare(&draft, cursor.clone(), second.clone(), budget);
        trial.refused(&call, way, Why::Place.here());
    }
}
