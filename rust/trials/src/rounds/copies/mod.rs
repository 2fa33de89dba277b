//! The client's copy (document 02, Note 6): plans of every size for clients of every class, with hidden nodes in every place; what a client can tell
//! of two plans that differ in what isn't seen; and the refusals in their order.
mod disguises;
mod places;
mod refusals;

use crate::call::{Call, Operation, Values};
use crate::copies;
use crate::draft::Draft;
use crate::random::Random;
use crate::rounds::rows::any_grams;
use crate::rounds::{self, grams, walks};
use crate::trial::{Judged, Trial};
use crate::{families, random_plans};
use reference::copy::{Client, MOST_COPIED};
use reference::plan::FEW_RULES;
use reference::rows::{LAST_CLASS, LAST_LABEL, Row};
use reference::{Format, NOWHERE, Why, answers, rules};
use std::collections::{BTreeMap, BTreeSet};

pub use refusals::refuse;

pub fn agree(trial: &mut Trial, rounds: usize) {
    for round in 0..rounds {
        for class in 0..=LAST_CLASS {
            for _ in 0..12 {
                small(trial, class);
            }
            large(trial, class);
        }
        places::each(trial);
        for _ in 0..10 {
            disguises::agree(trial);
        }
        if round % 4 == 0 {
            huge(trial);
        }
    }
}

/// A client of a class, for whom labels are seen or hidden as given: each has a row of its own at first, and what stands between them is of any
/// class; then neighbours of one class are taken together here and there.
fn client(random: &mut Random, class: u16, seen: &BTreeMap<u32, bool>) -> Client {
    let cuts: BTreeSet<u32> = seen.keys().flat_map(|label| [*label, *label + 1]).chain([0, LAST_LABEL + 1]).collect();
    let cuts: Vec<u32> = cuts.into_iter().collect();
    let mut rows: Vec<Row> = Vec::new();
    for cut in cuts.windows(2) {
        let (lowest, highest) = (cut[0], cut[1] - 1);
        let class = match seen.get(&lowest) {
            Some(true) => random.below(usize::from(class) + 1),
            Some(false) => random.between(usize::from(class) + 1, LAST_CLASS.into()),
            None => random.below(4),
        } as u16;
        match rows.last_mut() {
            Some(last) if last.class == class && random.once_in(2) => last.highest = highest,
            _ => rows.push(Row { lowest, highest, class, grams: any_grams(random) }),
        }
    }
    Client { rows, class }
}

/// The labels of a plan.
pub(in crate::rounds) fn labels_of(draft: &Draft) -> BTreeSet<u32> {
    (0..draft.n() as u16).filter_map(|rule| draft.rule(rule).label()).collect()
}

/// A client of a class who sees all labels of a plan, most, half, few or none; one of the last class sees all.
pub(in crate::rounds) fn any_client(random: &mut Random, draft: &Draft, class: u16) -> Client {
    let of_eight = random.pick(&[8, 7, 7, 6, 4, 2, 1, 0]);
    let seen = labels_of(draft).into_iter().map(|label| (label, class == LAST_CLASS || random.below(8) < of_eight));
    let seen: BTreeMap<u32, bool> = seen.collect();
    client(random, class, &seen)
}

/// The copy of a plan that nothing speaks against, with anything in slices that may be longer than they need be; it is weighed beside what was
/// taken out.
pub(in crate::rounds) fn copied(trial: &mut Trial, draft: &Draft, client: &Client) -> Vec<u8> {
    let mut call = Call::copy(draft, client);
    let longer = [(); 2].map(|()| trial.random.below(3) * trial.random.below(40));
    call.work = trial.random.leftovers(call.work.len() + longer[0]);
    call.out = trial.random.leftovers(call.out.len() + longer[1]);
    let Judged { outcome, after } = trial.judge(&call);
    let Ok(Values::Length(length)) = outcome else { panic!("nothing speaks against this copy: {outcome:?}") };
    let copy = after.out[..length as usize].to_vec();
    grams::parted(trial, &call.plan, client, &copy);
    copy
}

/// Plans with forests that are unfolded.
fn small(trial: &mut Trial, class: u16) {
    let most = trial.random.pick(&[4, 10, 25, 60]);
    let mut draft = rounds::small(&mut trial.random, most);
    let most = trial.random.pick(&[10, 40, 150, 600]);
    random_plans::start_within(&mut draft, most, &mut trial.random);
    let draft = rounds::in_any_form(&mut trial.random, draft);
    let client = any_client(&mut trial.random, &draft, class);
    copied(trial, &draft, &client);
}

/// Plans with forests that nobody unfolds, of up to as many rules as are copied.
fn large(trial: &mut Trial, class: u16) {
    let n = trial.random.pick(&[30, 100, 300, FEW_RULES, 2_000, MOST_COPIED]);
    let draft = if trial.random.once_in(2) {
        families::any(&mut trial.random, n)
    } else {
        random_plans::any(&mut trial.random, n)
    };
    let draft = varied(&mut trial.random, &draft);
    let draft = rounds::in_any_order(&mut trial.random, draft);
    let client = any_client(&mut trial.random, &draft, class);
    let copy = copied(trial, &draft, &client);
    if trial.random.once_in(8) {
        look(trial, &draft, &client, &copy, 60);
    }
}

/// A plan of either format with labels at random, so that of rules alike some are hidden.
pub(in crate::rounds) fn varied(random: &mut Random, draft: &Draft) -> Draft {
    let format = random.pick(&Format::BOTH);
    draft.relabelled(|_| random_plans::label(format, random)).in_format(format)
}

/// Forests of up to 2^900 nodes and more, of which most is seen.
fn huge(trial: &mut Trial) {
    let doubled = families::Growth::Doubled;
    let drafts = [
        families::towers(FEW_RULES),
        families::rows(doubled, FEW_RULES),
        families::spine(doubled, FEW_RULES),
        families::paper(500),
    ];
    for draft in drafts {
        let draft = varied(&mut trial.random, &draft);
        let class = trial.random.below(3) as u16;
        let seen = labels_of(&draft).into_iter().map(|label| (label, !trial.random.once_in(20))).collect();
        let client = client(&mut trial.random, class, &seen);
        let copy = copied(trial, &draft, &client);
        look(trial, &draft, &client, &copy, 150);
        // Nothing of it seen, all of its rules are of an empty forest.
        let nothing = Client { class: 0, rows: vec![Row { lowest: 0, highest: LAST_LABEL, class: 1, grams: 65_535 }] };
        let copy = copied(trial, &draft, &nothing);
        assert_eq!(copies::unfolded(&copy, 0), Some(Vec::new()), "nothing is seen, so nothing is copied");
    }
}

/// A walker on the whole forest of a plan that passes over what a client doesn't see.
struct Looking<'a> {
    call: Call,
    client: &'a Client,
    /// How many letters it may still take.
    left: usize,
}

impl Looking<'_> {
    /// One letter by the reference.
    fn step(&mut self, letter: u8) -> u32 {
        self.left = self.left.saturating_sub(1);
        let call = &mut self.call;
        let walked = rules::walk(&call.plan, &mut call.work, &mut call.cursor, &[letter], &mut call.answers);
        walked.expect("a place that a walk left");
        answers::get(&call.answers, 0)
    }

    /// A letter's answer to the client: past the siblings that aren't seen, to the side that the letter leads to. None where that is too far.
    fn letter(&mut self, letter: u8) -> Option<u32> {
        let place = self.call.cursor.clone();
        let onward = match letter {
            b'a' | b'f' | b'n' => b'n',
            _ => b'p',
        };
        let mut answer = self.step(letter);
        while answer != NOWHERE && !self.client.sees(answer) {
            if self.left == 0 {
                return None;
            }
            answer = self.step(onward);
        }
        if answer == NOWHERE {
            self.call.cursor = place;
        }
        Some(answer)
    }
}

/// Letters at random on a copy, each beside a look at the whole forest.
fn look(trial: &mut Trial, draft: &Draft, client: &Client, copy: &[u8], count: usize) {
    let call = Call::new(Operation::Walk, draft.plan(), draft.n()).with_letters(b"s");
    let mut looking = Looking { call, client, left: 20 * count };
    let letters = [b"a".to_vec(), rounds::letters(&mut trial.random, count)].concat();
    let letters = walks::mostly_moving(trial, &walk_of(copy), letters);
    let after = trial.accepted(&walk_of(copy).with_letters(&letters), "a copy is walked from above");
    for (index, letter) in letters.into_iter().enumerate() {
        let Some(answer) = looking.letter(letter) else { return };
        assert_eq!(
            answers::get(&after.answers, index),
            answer,
            "letter {index} of a copy, and what is seen of the plan"
        );
        trial.tally.letters_looked += 1;
    }
}

/// A walk on a copy, from above its forest.
fn walk_of(copy: &[u8]) -> Call {
    let n = copy.len() / Format::Wide.record() - 1;
    Call::new(Operation::Walk, copy.to_vec(), n)
}

/// A plan of any size: copied, or refused with 16.
pub(in crate::rounds) fn of_any_size(trial: &mut Trial, draft: &Draft) {
    let class = trial.random.below(4) as u16;
    let client = any_client(&mut trial.random, draft, class);
    let call = Call::copy(draft, &client);
    if draft.n() > MOST_COPIED {
        let outcome = trial.judge(&call).outcome;
        assert_eq!(outcome, Err(Why::TooMany.here()), "{} rules are too many", draft.n());
        return;
    }
    trial.accepted(&call, "so many rules are copied");
}
