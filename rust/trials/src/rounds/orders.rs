//! Rules in any order (document 02, Note 1): plans that name lower rules only, each beside the same plan with its rules renumbered. The forest is
//! the same, so counts, text and answers are; and the cells are, but for the numbers of their rules.
use crate::call::{Call, Operation};
use crate::draft::Draft;
use crate::rounds::walks;
use crate::trial::Trial;
use crate::{families, random_plans, rounds};
use reference::place::{self, Cell};
use reference::plan::FEW_RULES;

pub fn agree(trial: &mut Trial, plans: usize) {
    for round in 0..plans {
        let draft = match round % 3 {
            0 => families::any(&mut trial.random, FEW_RULES),
            1 => {
                let n = trial.random.between(1, FEW_RULES);
                random_plans::any(&mut trial.random, n)
            }
            _ => rounds::small(&mut trial.random, 60),
        };
        let draft = rounds::in_any_format(&mut trial.random, draft);
        let number = trial.random.numbering(draft.n());
        let both = [&draft, &draft.renumbered(&number)];
        same_sizes(trial, both);
        same_walks(trial, both, &number);
        trial.tally.renumbered += 1;
    }
}

/// The same counts, and the same text if it isn't long.
fn same_sizes(trial: &mut Trial, both: [&Draft; 2]) {
    let measure = |draft: &Draft| trial.judge(&Call::new(Operation::Measure, draft.plan(), draft.n())).outcome;
    let [counts, renumbered] = both.map(measure);
    assert_eq!(counts, renumbered, "renumbered, a plan has the same counts");
    let Some(nodes) = both[0].nodes().filter(|nodes| *nodes < 20_000) else { return };
    let [text, renumbered] = both.map(|draft| {
        let mut spread = Call::new(Operation::Spread, draft.plan(), draft.n());
        spread.out = vec![1; draft.format.node() * nodes as usize];
        trial.accepted(&spread, "the text fits").out
    });
    assert!(text == renumbered, "renumbered, a plan has the same text");
}

/// The same answers from the same places, in a few calls.
fn same_walks(trial: &mut Trial, both: [&Draft; 2], number: &[u16]) {
    let word = rounds::word(&mut trial.random, both[0]);
    let renumbered = word.checked_sub(1).map_or(0, |rule| number[usize::from(rule)] + 1);
    let mut calls = [(both[0], word), (both[1], renumbered)]
        .map(|(draft, word)| Call::new(Operation::Walk, draft.plan(), draft.n()).with_word(word));
    for _ in 0..4 {
        let letters = rounds::letters(&mut trial.random, 100);
        let letters = walks::mostly_moving(trial, &calls[0], letters);
        let before = calls.clone().map(|call| call.cursor);
        let walk =
            |call: Call| trial.accepted(&call.with_letters(&letters), "a walk from above or from where one ended");
        calls = calls.map(walk);
        let [one, renumbered] = &calls;
        assert!(one.answers == renumbered.answers, "renumbered, a plan has the same answers");
        let [cells, others] = [one, renumbered].map(|call| place::used(&call.cursor).expect("cell 0"));
        let cells: Vec<Cell> = cells.into_iter().map(|cell| cell.renumbered(number)).collect();
        assert_eq!(cells, others, "renumbered, a plan has the same places");
        trial.tally.letters_on_both += letters.len() as u64;
        let budget = trial.random.below(200) as u32;
        let [compared, renumbered] = [0, 1].map(|which| {
            let (from, to) = (before[which].clone(), calls[which].cursor.clone());
            trial.judge(&Call::compare(both[which], from, to, budget)).outcome
        });
        assert_eq!(compared, renumbered, "renumbered, two places of a plan compare the same");
    }
}
