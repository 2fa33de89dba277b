//! Walking one rule alone (document 02, Note 10): a cursor whose word 1 names a closed rule walks as on the same plan started at that rule, whichever
//! rule is the plan's start and whether it reaches the rule or not; and words that name none are refused with 10.
use crate::call::{Call, Operation};
use crate::cursors::Stored;
use crate::draft::Draft;
use crate::rounds::{compares, reasons, walks};
use crate::trial::Trial;
use crate::{families, random_plans, rounds};
use reference::plan::{FEW_RULES, Sort};
use reference::{LETTERS, NOWHERE, Why, answers};

pub fn agree(trial: &mut Trial, plans: usize) {
    for round in 0..plans {
        let draft = match round % 3 {
            0 => families::any(&mut trial.random, FEW_RULES),
            1 => {
                let n = trial.random.between(1, FEW_RULES);
                random_plans::any(&mut trial.random, n)
            }
            _ => rounds::small(&mut trial.random, 60),
        };
        let draft = rounds::in_any_form(&mut trial.random, draft);
        let closed = draft.of_sort(Sort::CLOSED, draft.n());
        let rule = if round % 4 == 0 { draft.start } else { trial.random.pick(&closed) };
        as_started_there(trial, &draft, rule);
        empty(trial, &draft);
        refuse(trial);
    }
}

/// The same answers and cells by the word that names a rule as on the plan that starts there, in a few calls; the cursors differ in the word alone.
fn as_started_there(trial: &mut Trial, draft: &Draft, rule: u16) {
    let there = Draft { start: rule, ..draft.clone() };
    let walk = |draft: &Draft| Call::new(Operation::Walk, draft.plan(), draft.n());
    let mut calls = [walk(draft).with_word(rule + 1), walk(&there)];
    for _ in 0..3 {
        let letters = rounds::letters(&mut trial.random, 60);
        let letters = walks::mostly_moving(trial, &calls[1], letters);
        calls = calls.map(|call| trial.accepted(&call.with_letters(&letters), "a walk from above or from a place"));
        let [by_word, by_start] = &calls;
        assert!(by_word.answers == by_start.answers, "a rule named has the answers of the plan started there");
        assert!(by_word.cursor[..2] == by_start.cursor[..2] && by_word.cursor[4..] == by_start.cursor[4..]);
        trial.tally.letters_of_days += letters.len() as u64;
    }
    let which = if rule == draft.start { 0 } else { 1 + usize::from(!compares::reached(draft).contains(&rule)) };
    trial.tally.days[which] += 1;
}

/// An empty rule may be named: every letter leads nowhere.
fn empty(trial: &mut Trial, draft: &Draft) {
    let known = draft.representatives();
    let empty: Vec<u16> = (0..draft.n() as u16).filter(|rule| known[usize::from(*rule)].is_none()).collect();
    // Some rule names no other, and it is empty.
    let word = trial.random.pick(&empty) + 1;
    let call = Call::new(Operation::Walk, draft.plan(), draft.n()).with_word(word).with_letters(&LETTERS);
    let after = trial.accepted(&call, "an empty rule is closed");
    assert!((0..LETTERS.len()).all(|index| answers::get(&after.answers, index) == NOWHERE), "it has no tree");
    reasons::of_no_trees(trial, &call);
    trial.tally.days[3] += 1;
}

/// 10 for each word that names no closed rule, whatever the letters and the rest of cell 0, in a walk, of a reason and in either cursor of compare; 9
/// comes first.
fn refuse(trial: &mut Trial) {
    let draft = families::sample();
    let draft = rounds::in_any_form(&mut trial.random, draft);
    let n = draft.n() as u16;
    let of_kind = |kind| draft.of_kind(kind, draft.n())[0];
    let beyond = trial.random.between(usize::from(n) + 2, 65_534) as u16;
    for (way, word) in [
        ("word 1 names a part", of_kind(4) + 1),
        ("word 1 names a join", of_kind(5) + 1),
        ("word 1 is one above the rules", n + 1),
        ("word 1 is far above the rules", beyond),
        ("word 1 is 65,535", u16::MAX),
    ] {
        let mut stored = Stored::of(&[]).with_word(word);
        if trial.random.once_in(4) {
            stored.head[trial.random.pick(&[0, 2, 3])] = trial.random.between(1, 9) as u16;
        }
        let mut call = Call::new(Operation::Walk, draft.plan(), draft.n());
        call.cursor = trial.random.leftovers(call.cursor.len());
        stored.write(&mut call.cursor);
        let count = trial.random.below(3);
        let letters = rounds::letters(&mut trial.random, count);
        trial.refused(&call.clone().with_letters(&letters), way, Why::Place.here());
        let strange = call.clone().with_letters(&[&letters[..], b"x"].concat());
        trial.refused(&strange, &format!("a byte that is no letter, and {way}"), Why::Letter.at(count));
        let letter = trial.random.pick(&LETTERS);
        trial.refused(&Call::reason(&call, letter), way, Why::Place.here());
        trial.refused(&Call::reason(&call, b'x'), &format!("a byte that is no letter, and {way}"), Why::Letter.at(0));
        let closed = rounds::word(&mut trial.random, &draft);
        let mut other = Call::new(Operation::Walk, draft.plan(), draft.n()).with_word(closed).with_letters(b"a");
        other = trial.accepted(&other, "a closed rule");
        let budget = trial.random.pick(&[0, 1, u32::MAX]);
        let (one, two) = (call.cursor, other.cursor);
        for (which, first, second) in [("first", &one, &two), ("second", &two, &one)] {
            let call = Call::compare(&draft, first.clone(), second.clone(), budget);
            trial.refused(&call, &format!("{way}, {which} cursor"), Why::Place.here());
        }
    }
}
