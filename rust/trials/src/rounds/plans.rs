//! Refusals 1 to 7 and 12: every damage to a plan, tried on every operation.
use crate::call::{Call, Operation};
use crate::cycles;
use crate::damage;
use crate::draft::Draft;
use crate::random_plans;
use crate::trial::Trial;
use reference::plan::{FEW_RULES, MAX_RULES, Rule};
use reference::{Format, Why};

pub fn refuse(trial: &mut Trial, rounds: usize) {
    for format in Format::BOTH {
        let damages = damage::all(format);
        for _ in 0..rounds {
            for damage in &damages {
                damaged(trial, format, damage);
            }
            twice_damaged(trial, format, &damages);
            limits(trial, format);
            long_cycles(trial, format);
        }
    }
}

/// A plan of a format damaged in a way.
fn damaged(trial: &mut Trial, format: Format, damage: &damage::Damage) {
    let draft = random_plans::all_kinds(format, &mut trial.random);
    let n = draft.n();
    let damaged = (damage.apply)(draft, &mut trial.random);
    let n = damaged.draft.as_ref().map_or(n, Draft::n);
    for operation in Operation::ALL {
        let Some(call) = prepare(trial, operation, &damaged, n) else { continue };
        trial.refused(&call, &format!("{format:?} plan, {}", damage.way), damaged.refused);
    }
}

/// The call that tries a damaged plan; seal can't be given a damaged trailer.
fn prepare(trial: &mut Trial, operation: Operation, damaged: &damage::Damaged, n: usize) -> Option<Call> {
    let mut call = match operation {
        Operation::Seal => Call::seal(damaged.draft.as_ref()?),
        _ => Call::new(operation, damaged.plan.clone(), n).with_letters(b"afn"),
    };
    call.out = trial.random.leftovers(damaged.plan.len() + 5);
    if operation.works() && trial.random.once_in(4) {
        call.work.truncate(7);
    }
    // The plan's check comes before copy's class, and before the list.
    if operation.has_list() && trial.random.once_in(2) {
        call.rows.clear();
        call.class = trial.random.pick(&[0, 3, 4, 65_535]);
    }
    Some(call)
}

/// Two damages at once: which refusal comes first is for the implementations to agree on.
fn twice_damaged(trial: &mut Trial, format: Format, damages: &[damage::Damage]) {
    let draft = random_plans::all_kinds(format, &mut trial.random);
    let n = draft.n();
    let first = &damages[trial.random.below(damages.len())];
    let second = &damages[trial.random.below(damages.len())];
    let Some(draft) = (first.apply)(draft, &mut trial.random).draft else { return };
    // The second damage may need a rule that the first one took.
    if (0..Rule::KINDS).any(|kind| draft.of_kind(kind, draft.n() - 1).iter().all(|rule| *rule < Rule::KINDS)) {
        return;
    }
    let damaged = (second.apply)(draft, &mut trial.random);
    let n = damaged.draft.as_ref().map_or(n, Draft::n);
    for operation in Operation::ALL {
        if let Some(call) = prepare(trial, operation, &damaged, n) {
            trial.judge(&call);
        }
    }
}

/// Plans of 16,384 rules and of 16,385, all of kind 0.
fn limits(trial: &mut Trial, format: Format) {
    for n in [MAX_RULES, MAX_RULES + 1] {
        let draft = Draft { format, records: vec![Rule::Empty.words(); n], start: 3, prefix: Vec::new() };
        for call in check_and_seal(trial, &draft) {
            if n > MAX_RULES {
                trial.refused(&call, &format!("{format:?} plan, 16,385 whole rules"), Why::Count.here());
            } else {
                trial.accepted(&call, "16,384 rules are accepted");
            }
        }
    }
}

/// Plans of 1,024 rules in which some rule reaches itself: all of them, some, or the last alone. Those of more are in `wards`.
fn long_cycles(trial: &mut Trial, format: Format) {
    for (way, draft, lowest) in cycles::long(FEW_RULES, &mut trial.random) {
        for call in check_and_seal(trial, &draft.in_format(format)) {
            trial.refused(&call, &format!("{format:?} plan, {way}"), Why::Cycle.at(lowest));
        }
    }
}

/// A check of a plan without prefix, and the seal of its rules.
pub(super) fn check_and_seal(trial: &mut Trial, draft: &Draft) -> [Call; 2] {
    let check = Call::new(Operation::Check, draft.plan(), draft.n());
    let mut seal = Call::seal(draft);
    seal.out = trial.random.leftovers(draft.sealed_length());
    [check, seal]
}
