//! Why a letter moves or doesn't (document 02, Note 11): every letter at places of small forests and of forests that nobody unfolds, beside a walk of that
//! letter, which is refused where reason is and else answers nowhere exactly where the reason isn't 0; and bytes that are no letters, which come before
//! a place that is none and behind slices too short.
use crate::call::{Call, Operation, Values};
use crate::cursors::{self, Known, Stored};
use crate::draft::Draft;
use crate::rounds::{self, places, walks};
use crate::trial::{Judged, Trial};
use crate::{families, random_plans};
use reference::plan::FEW_RULES;
use reference::{Format, LETTERS, NOWHERE, Reason, Why, answers, place};

pub fn agree(trial: &mut Trial, plans: usize) {
    for round in 0..plans {
        small(trial);
        if round % 4 == 0 {
            far(trial);
        }
        Format::BOTH.into_iter().for_each(|format| refuse(trial, format));
    }
}

/// A reason beside the walk of its letter from the same place.
pub(super) fn beside_walk(trial: &mut Trial, call: &Call) -> Judged {
    let walk = trial.judge(&Call::walk_of(call));
    let judged = trial.judge(call);
    assert_eq!(judged.outcome.err(), walk.outcome.err(), "refused exactly where a walk of that letter is");
    if let Ok(Values::Reason(reason)) = judged.outcome {
        let nowhere = answers::get(&walk.after.answers, 0) == NOWHERE;
        assert_eq!(reason != Reason::Moves, nowhere, "0 exactly where a walk of that letter doesn't answer nowhere");
    }
    trial.tally.beside_walks += 1;
    judged
}

/// The reasons where a walk begins, above a forest without trees: 2 for every letter.
pub(super) fn of_no_trees(trial: &mut Trial, walk: &Call) {
    for letter in LETTERS {
        let outcome = beside_walk(trial, &Call::reason(walk, letter)).outcome;
        assert_eq!(outcome, Ok(Values::Reason(Reason::NoTrees)), "in an empty forest a and z are told 2, too");
    }
}

/// Every letter from a stored place, with anything in the slices; gives the reasons, unless it is no place.
fn every_letter(trial: &mut Trial, draft: &Draft, stored: &Stored) -> Option<Vec<Reason>> {
    let mut call = Call::new(Operation::Reason, draft.plan(), draft.n());
    let longer = trial.random.below(20);
    call.work = trial.random.leftovers(call.work.len() + longer);
    call.cursor = trial.random.leftovers(call.cursor.len() + longer);
    stored.write(&mut call.cursor);
    let asked = |letter| match beside_walk(trial, &Call { letter, ..call.clone() }).outcome {
        Ok(Values::Reason(reason)) => Some(reason),
        _ => None,
    };
    LETTERS.into_iter().map(asked).collect()
}

/// Every letter at every place of the forest of any rule, some of them damaged.
fn small(trial: &mut Trial) {
    let mut draft = rounds::small(&mut trial.random, 14);
    random_plans::start_within(&mut draft, 30, &mut trial.random);
    let draft = rounds::in_any_form(&mut trial.random, draft);
    let Some((word, places)) = places::places_of(trial, &draft) else { return };
    let places = trial.random.some(places, 60);
    let known = Known::of(draft);
    for place in &places {
        let stored = Stored::of(place).with_word(word);
        let reasons = every_letter(trial, &known.draft, &stored).expect("every node's place is accepted");
        assert!(reasons[..2] == [Reason::Moves; 2], "a and z move where there are trees");
        assert_eq!(reasons[2], reasons[3], "f and l have children or none");
    }
    for damage in trial.random.some(cursors::all(), 4) {
        let mut stored = Stored::of(&trial.random.pick(&places)).with_word(word);
        if (damage.apply)(&mut stored, &known, &mut trial.random).is_some() {
            every_letter(trial, &known.draft, &stored);
        }
    }
}

/// Every letter at places of plans of any size that letters at random lead to.
fn far(trial: &mut Trial) {
    let n = trial.random.pick(&[30, 100, 300, FEW_RULES]);
    let draft = if trial.random.once_in(2) {
        families::any(&mut trial.random, n)
    } else {
        random_plans::any(&mut trial.random, n)
    };
    let draft = rounds::in_any_form(&mut trial.random, draft);
    let word = rounds::word(&mut trial.random, &draft);
    let mut walk = Call::new(Operation::Walk, draft.plan(), draft.n()).with_word(word);
    for _ in 0..3 {
        let count = trial.random.between(1, 60);
        let letters = rounds::letters(&mut trial.random, count);
        let letters = walks::mostly_moving(trial, &walk, letters);
        walk = trial.accepted(&walk.with_letters(&letters), "a walk from above or from a place");
        let cells = place::used(&walk.cursor).expect("a walk leaves a place");
        let reasons = every_letter(trial, &draft, &Stored::of(&cells).with_word(word));
        assert!(reasons.is_some(), "a place that a walk left, whatever stands behind it");
    }
}

/// 9 at 0: a byte that is no letter, whatever the place is; 8 comes before it, and the plan's check before that.
fn refuse(trial: &mut Trial, format: Format) {
    let draft = random_plans::all_kinds(format, &mut trial.random);
    let draft = rounds::in_any_order(&mut trial.random, draft);
    let any = trial.random.number() as u8;
    let strange = trial.random.pick(&[b'A', b'\n', 0, 255, b'b', b't', any]);
    let letter = if LETTERS.contains(&strange) { b' ' } else { strange };
    let mut call = Call { letter, ..Call::new(Operation::Reason, draft.plan(), draft.n()) };
    trial.refused(&call, &format!("{format:?} plan, no letter"), Why::Letter.at(0));
    call.cursor = trial.random.leftovers(call.cursor.len());
    call.cursor[4] = 1;
    trial.refused(&call, &format!("{format:?} plan, no letter at no place"), Why::Letter.at(0));
    let mut short = call.clone();
    short.cursor.pop();
    trial.refused(&short, &format!("{format:?} plan, no letter, cursor short"), Why::Lent.here());
    let mut short = call.clone();
    short.work.pop();
    trial.refused(&short, &format!("{format:?} plan, no letter, work short"), Why::Lent.here());
    call.plan.pop();
    let work = if trial.random.once_in(2) { Vec::new() } else { call.work.clone() };
    trial.refused(&Call { work, ..call }, &format!("{format:?} plan, cut, and no letter"), Why::Mark.here());
}
