//! Check, seal, unseal, measure and spread on valid plans of every size up to 1,024 rules; those of more are in `wards`.
use crate::call::{Call, Operation, Values};
use crate::draft::Draft;
use crate::rounds::grams::{self, ENTRIES};
use crate::trial::{Judged, Trial};
use crate::{families, random_plans, rounds};
use reference::Unsealed;
use reference::plan::FEW_RULES;

pub fn agree(trial: &mut Trial, plans: usize) {
    for round in 0..plans {
        let draft = match round % 4 {
            0 => families::any(&mut trial.random, FEW_RULES),
            1 => {
                let n = trial.random.between(1, FEW_RULES);
                random_plans::any(&mut trial.random, n)
            }
            2 => {
                let draft = families::leaves(u128::MAX >> trial.random.between(1, 127));
                random_plans::divided(draft, &mut trial.random)
            }
            _ => rounds::small(&mut trial.random, 60),
        };
        let draft = rounds::in_any_form(&mut trial.random, draft);
        round_trip(trial, &draft);
        count_and_write(trial, &draft);
    }
}

/// Sealed then unsealed, record length, rules and start are the same; a plan without prefix unsealed and sealed has the same bytes.
pub(super) fn round_trip(trial: &mut Trial, draft: &Draft) {
    let n = draft.n();
    let mut seal = Call::seal(draft);
    let longer = trial.random.below(20);
    seal.out = trial.random.leftovers(draft.sealed_length() + longer);
    let sealed = &trial.accepted(&seal, "a valid plan is sealed").out[..draft.sealed_length()];
    assert!(draft.plan().ends_with(sealed), "a sealed plan is the plan without its prefix");
    let mut unseal = Call::new(Operation::Unseal, draft.plan(), n);
    unseal.out = trial.random.leftovers(draft.words_length() + longer);
    let Judged { outcome, after } = trial.judge(&unseal);
    let unsealed = Unsealed { record_length: draft.format.record_length(), n: n as u16, start: draft.start };
    assert_eq!(outcome, Ok(Values::Unsealed(unsealed)), "a valid plan is unsealed");
    assert!(after.out[..draft.words_length()] == draft.words(), "unsealed, the words are the same");
    trial.judge(&Call::new(Operation::Check, draft.plan(), n));
}

/// Measure, and spread if the text isn't long. The entries are what the plan weighs by one gram for each node that is no divider.
pub(super) fn count_and_write(trial: &mut Trial, draft: &Draft) {
    let mut call = Call::new(Operation::Measure, draft.plan(), draft.n());
    let longer = trial.random.below(20);
    call.work = trial.random.leftovers(call.work.len() + longer);
    let outcome = trial.judge(&call).outcome;
    let nodes = draft.nodes();
    assert_eq!(outcome.is_ok(), nodes.is_some(), "11 of measure looks at all nodes");
    let (Ok(Values::Measured(measured)), Some(nodes)) = (outcome, nodes) else { return };
    assert_eq!(grams::weighed(trial, &call.plan, &ENTRIES), Some(measured.entries), "all nodes but the dividers");
    trial.tally.count_dividers(nodes, measured.entries);
    if nodes < 200_000 {
        call.operation = Operation::Spread;
        call.out = trial.random.leftovers(draft.format.node() * nodes as usize + longer);
        trial.judge(&call);
    }
}
