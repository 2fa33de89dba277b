//! Refusals of copy: 13 of the class, 13 to 15 of the list, 16 and 8, each with what comes later too. Those of the plan's check and most of 8 are
//! with those of the other operations.
use super::{any_client, copied};
use crate::call::Call;
use crate::draft::Draft;
use crate::random::Random;
use crate::random_plans;
use crate::rounds::{self, rows, wards};
use crate::trial::Trial;
use reference::copy::{Client, MOST_COPIED, copy_bytes};
use reference::plan::work_bytes;
use reference::{Format, Why};

pub fn refuse(trial: &mut Trial, rounds: usize) {
    for format in Format::BOTH {
        let many = wards::shaped(trial, 1, MOST_COPIED + 1).in_format(format);
        for _ in 0..rounds {
            classes(trial, format, &many);
            lists(trial, format, &many);
            limit(trial, format);
            outputs(trial, format);
        }
    }
}

/// A plan that has every kind, its rules in any order, and a client for whom it can be copied.
fn any_kinds(trial: &mut Trial, format: Format) -> (Draft, Client) {
    let draft = random_plans::all_kinds(format, &mut trial.random);
    let draft = rounds::in_any_order(&mut trial.random, draft);
    let class = trial.random.below(4) as u16;
    let client = any_client(&mut trial.random, &draft, class);
    (draft, client)
}

/// A copy with less than it needs of work, of output or of both.
fn short(random: &mut Random, draft: &Draft, client: &Client) -> Call {
    let mut call = Call::copy(draft, client);
    let which = random.between(1, 3);
    if which != 2 {
        call.work.truncate(random.below(work_bytes(draft.n())));
    }
    if which != 1 {
        call.out.truncate(random.below(copy_bytes(draft.n())));
    }
    call
}

/// 13 at 0: a class above 3, before the list is read, before 16 and before 8.
fn classes(trial: &mut Trial, format: Format, many: &Draft) {
    let (draft, client) = any_kinds(trial, format);
    let any = trial.random.between(4, 65_535) as u16;
    for (name, class) in [("4", 4), ("65,535", 65_535), ("above 3", any)] {
        let above = Client { class, rows: client.rows.clone() };
        let mut unsound = above.clone();
        let (_, _, fault) = trial.random.pick(&rows::FAULTS);
        let i = trial.random.below(unsound.rows.len());
        fault(&mut unsound.rows, i, &mut trial.random);
        let calls = [
            ("a sound list", Call::copy(&draft, &above)),
            ("a list that isn't sound", Call::copy(&draft, &unsound)),
            ("no rows", Call::copy(&draft, &Client { class, rows: Vec::new() })),
            ("too little lent", short(&mut trial.random, &draft, &above)),
            ("4,097 rules", Call::copy(many, &above)),
        ];
        for (what, call) in calls {
            trial.refused(&call, &format!("{format:?} plan, class {name}, {what}"), Why::Row.here());
        }
    }
}

/// 13 to 15 at a row: every fault of a list, before 16 and before 8.
fn lists(trial: &mut Trial, format: Format, many: &Draft) {
    let (draft, Client { class, .. }) = any_kinds(trial, format);
    let count = trial.random.between(1, 60);
    let sound = rows::sound(&mut trial.random, count);
    for (way, why, fault) in rows::FAULTS {
        let mut rows = sound.clone();
        let i = trial.random.below(count);
        fault(&mut rows, i, &mut trial.random);
        let refused = why.at(rows::first_fault(&rows));
        let client = Client { class, rows };
        let calls = [
            ("", Call::copy(&draft, &client)),
            (", too little lent", short(&mut trial.random, &draft, &client)),
            (", 4,097 rules", Call::copy(many, &client)),
        ];
        for (what, call) in calls {
            trial.refused(&call, &format!("{format:?} plan, {way}{what}"), refused);
        }
    }
    let nobody = Client { class, rows: Vec::new() };
    for (what, draft) in [("", &draft), (", 4,097 rules", many)] {
        trial.refused(&Call::copy(draft, &nobody), &format!("{format:?} plan, no rows{what}"), Why::Gap.here());
    }
}

/// 16: 4,096 rules are copied and more are not, before 8.
fn limit(trial: &mut Trial, format: Format) {
    let turn = trial.random.below(7);
    let any = trial.random.between(MOST_COPIED + 1, 16_384);
    for (name, n) in [("4,096", MOST_COPIED), ("4,097", MOST_COPIED + 1), ("more", any)] {
        let draft = wards::shaped(trial, turn, n);
        let draft = if format == Format::Wide { random_plans::widened(&draft, &mut trial.random) } else { draft };
        let class = trial.random.below(4) as u16;
        let client = any_client(&mut trial.random, &draft, class);
        let call = Call::copy(&draft, &client);
        let less = short(&mut trial.random, &draft, &client);
        if n > MOST_COPIED {
            trial.refused(&call, &format!("{format:?} plan, {name} rules"), Why::TooMany.here());
            trial.refused(&less, &format!("{format:?} plan, {name} rules, too little lent"), Why::TooMany.here());
        } else {
            trial.refused(&less, &format!("{format:?} plan, {name} rules, too little lent"), Why::Lent.here());
            trial.accepted(&call, "4,096 rules are copied");
        }
    }
}

/// 8: an output as long as the copy, which is shorter than 40 × n + 10 bytes, or of any length below that.
fn outputs(trial: &mut Trial, format: Format) {
    let (draft, client) = any_kinds(trial, format);
    let needed = copy_bytes(draft.n());
    let length = copied(trial, &draft, &client).len();
    let between = trial.random.between(length, needed - 1);
    for (way, length) in
        [("as long as the copy", length), ("longer than the copy", between), ("a byte short", needed - 1)]
    {
        let mut call = Call::copy(&draft, &client);
        call.out = trial.random.leftovers(length);
        trial.refused(&call, &format!("{format:?} plan, output {way}"), Why::Lent.here());
    }
}
