//! Grams (document 02, Note 8): plans of every size by lists of every length, sums on both sides of 2^64 − 1, forests of more nodes than that, and
//! copies beside what was taken out of them; and the refusals in their order. Those of the plan's check and of work alone are with those of the
//! other operations.
use crate::call::{Call, EACH, Operation, Outcome, Values};
use crate::draft::Draft;
use crate::random::Random;
use crate::rounds::rows::{self, any_grams};
use crate::rounds::{self, copies};
use crate::trial::Trial;
use crate::{families, laws, random_plans};
use reference::copy::Client;
use reference::plan::{FEW_RULES, Rule};
use reference::rows::{LAST_LABEL, Row, grams as grams_of};
use reference::{DIVIDER, Format, Why, rules};
use std::collections::{BTreeMap, BTreeSet};

/// The list by which a node weighs one gram unless it is a divider: what a plan weighs by it are its entries.
pub(super) const ENTRIES: [Row; 2] = [Row { highest: DIVIDER, grams: 0, ..EACH }, Row { lowest: DIVIDER + 1, ..EACH }];

pub fn agree(trial: &mut Trial, rounds: usize) {
    for _ in 0..rounds {
        for _ in 0..10 {
            small(trial);
        }
        large(trial);
        for _ in 0..3 {
            beyond(trial);
            between(trial);
        }
        empty(trial);
    }
}

pub fn refuse(trial: &mut Trial, rounds: usize) {
    for format in Format::BOTH {
        for _ in 0..rounds {
            sums(trial, format);
            lists(trial, format);
        }
    }
}

/// A sound list by which labels weigh as given. What stands between them weighs anything, and all are of any class.
fn list(random: &mut Random, grams: &BTreeMap<u32, u16>) -> Vec<Row> {
    let cuts: BTreeSet<u32> = grams.keys().flat_map(|label| [*label, *label + 1]).chain([0, LAST_LABEL + 1]).collect();
    let cuts: Vec<u32> = cuts.into_iter().collect();
    let row = |cut: &[u32]| {
        let grams = grams.get(&cut[0]).copied().unwrap_or_else(|| any_grams(random));
        Row { lowest: cut[0], highest: cut[1] - 1, class: random.below(4) as u16, grams }
    };
    cuts.windows(2).map(row).collect()
}

/// A sound list for a plan: cut anywhere, or with a row for each of its labels; now and then few of these weigh anything.
fn any_list(random: &mut Random, draft: &Draft) -> Vec<Row> {
    if random.once_in(3) {
        let count = random.pick(&[1, 2, 5, 40, 300]);
        return rows::sound(random, count);
    }
    let light = random.once_in(3);
    let mut grams = |label| (label, if light && !random.once_in(8) { 0 } else { any_grams(random) });
    let grams = copies::labels_of(draft).into_iter().map(&mut grams).collect();
    list(random, &grams)
}

/// The grams of a plan by a list, with anything in work that may be longer than it need be.
fn weigh(trial: &mut Trial, plan: &[u8], rows: &[Row]) -> Outcome {
    let mut call = Call::new(Operation::Grams, plan.to_vec(), laws::rules_of(plan)).with_rows(rows);
    let longer = trial.random.below(3) * trial.random.below(40);
    call.work = trial.random.leftovers(call.work.len() + longer);
    trial.judge(&call).outcome
}

/// The same, where the list is sound: the sum, or none where that is above 2^64 − 1.
pub(super) fn weighed(trial: &mut Trial, plan: &[u8], rows: &[Row]) -> Option<u64> {
    match weigh(trial, plan, rows) {
        Ok(Values::Grams(grams)) => Some(grams),
        outcome => {
            assert_eq!(outcome, Err(Why::Output.here()), "a valid plan by a sound list, with enough work");
            None
        }
    }
}

/// Forests that are unfolded, by several lists; and by one gram for each node, which counts them.
fn small(trial: &mut Trial) {
    let most = trial.random.pick(&[4, 10, 25, 60]);
    let draft = rounds::small(&mut trial.random, most);
    let draft = rounds::in_any_form(&mut trial.random, draft);
    let plan = draft.plan();
    let list = any_list(&mut trial.random, &draft);
    let grams = weighed(trial, &plan, &list);
    let other = retold(&mut trial.random, &list);
    assert_eq!(weighed(trial, &plan, &other), grams, "by a list that says the same, a plan weighs the same");
    let nodes = trial.forest.unfold(&plan).map(|unfolded| unfolded.forest.places().count() as u64 - 1);
    assert_eq!(weighed(trial, &plan, &[EACH]), nodes, "by one gram for each, a plan weighs as many as it has nodes");
}

/// The same grams by other rows: some cut in two, and the classes others.
fn retold(random: &mut Random, list: &[Row]) -> Vec<Row> {
    let mut retold = Vec::new();
    for row in list {
        let mut rest = Row { class: random.below(4) as u16, ..*row };
        if rest.lowest < rest.highest && random.once_in(2) {
            let end = rest.lowest + random.below((rest.highest - rest.lowest) as usize) as u32;
            retold.push(Row { highest: end, ..rest });
            rest = Row { lowest: end + 1, class: random.below(4) as u16, ..*row };
        }
        retold.push(rest);
    }
    retold
}

/// Plans with forests that nobody unfolds, most of which weigh more than 2^64 − 1 grams. Those of more rules are in `wards`.
fn large(trial: &mut Trial) {
    let n = trial.random.pick(&[30, 100, 300, FEW_RULES, 2_000]);
    let draft = if trial.random.once_in(2) {
        families::any(&mut trial.random, n)
    } else {
        random_plans::any(&mut trial.random, n)
    };
    let draft = copies::varied(&mut trial.random, &draft);
    let draft = rounds::in_any_order(&mut trial.random, draft);
    of_any_size(trial, &draft);
}

/// A plan of any size, by a list at random.
pub(super) fn of_any_size(trial: &mut Trial, draft: &Draft) {
    let list = any_list(&mut trial.random, draft);
    weighed(trial, &draft.plan(), &list);
}

/// More than 2^64 − 1 nodes, of which one alone weighs anything, or none.
fn beyond(trial: &mut Trial) {
    let doubled = families::Growth::Doubled;
    let draft = match trial.random.below(4) {
        0 => families::towers(FEW_RULES),
        1 => families::rows(doubled, trial.random.between(200, FEW_RULES)),
        2 => families::spine(doubled, trial.random.between(80, FEW_RULES)),
        _ => families::leaves(1 << trial.random.between(64, 120)),
    };
    let mut draft = copies::varied(&mut trial.random, &draft);
    let mut grams: BTreeMap<u32, u16> = copies::labels_of(&draft).into_iter().map(|label| (label, 0)).collect();
    let label = random_plans::label(draft.format, &mut trial.random);
    let start = draft.start;
    draft.add(Rule::Node(label, start));
    // Another has the label, and then it weighs nothing either.
    let own = if grams.contains_key(&label) { 0 } else { any_grams(&mut trial.random) };
    grams.insert(label, own);
    let draft = rounds::in_any_order(&mut trial.random, draft);
    let list = list(&mut trial.random, &grams);
    let mut measure = Call::new(Operation::Measure, draft.plan(), draft.n());
    let measured = rules::measure(&measure.plan, &mut measure.work);
    assert_eq!(measured, Err(Why::Output.here()), "these are more than 2^64 − 1 nodes");
    assert_eq!(weighed(trial, &draft.plan(), &list), Some(own.into()), "however many weigh nothing");
    assert_eq!(weighed(trial, &draft.plan(), &[EACH]), None, "and by one gram for each they are too many");
    trial.tally.beyond += 1;
}

/// Forests that nobody unfolds, but whose grams fit, and copies of them.
fn between(trial: &mut Trial) {
    let mut draft = families::any(&mut trial.random, 120);
    random_plans::start_within(&mut draft, 1 << 48, &mut trial.random);
    let draft = copies::varied(&mut trial.random, &draft);
    let draft = rounds::in_any_order(&mut trial.random, draft);
    let class = trial.random.below(4) as u16;
    let client = copies::any_client(&mut trial.random, &draft, class);
    copies::copied(trial, &draft, &client);
}

/// Empty forests weigh nothing, whatever the list.
fn empty(trial: &mut Trial) {
    let mut draft = random_plans::all_kinds(Format::Narrow, &mut trial.random);
    let mut nothing = 0;
    for _ in 0..trial.random.below(5) {
        nothing = draft.add(if trial.random.once_in(2) { Rule::Pair(nothing, 0) } else { Rule::Pair(0, nothing) });
    }
    draft.start = nothing;
    let draft = rounds::in_any_form(&mut trial.random, draft);
    let list = any_list(&mut trial.random, &draft);
    assert_eq!(weighed(trial, &draft.plan(), &list), Some(0), "an empty forest weighs nothing");
}

/// The grams of a copy and those of the nodes taken out, summed over these, are the plan's.
pub(super) fn parted(trial: &mut Trial, plan: &[u8], client: &Client, copy: &[u8]) {
    let copied = weighed(trial, copy, &client.rows);
    let whole = weighed(trial, plan, &client.rows);
    let out = rules::taken_out(plan, client).expect("what is copied is a plan");
    let listed = trial.forest.unfold(plan).map(|unfolded| {
        let out = client.taken_out(&unfolded.forest.trees);
        out.into_iter().map(|label| u128::from(grams_of(&client.rows, label))).sum()
    });
    assert!(listed.is_none() || listed == out, "what is taken out, listed {listed:?} and by rules {out:?}");
    let parts = copied.zip(out).map(|(copied, out)| u128::from(copied) + out);
    match whole {
        Some(whole) => {
            assert_eq!(
                parts,
                Some(whole.into()),
                "a copy and what is taken out, {out:?} grams, weigh what the plan does"
            );
            trial.tally.parted[usize::from(listed.is_none())] += 1;
        }
        None => assert!(parts.is_none_or(|parts| parts > u64::MAX.into()), "the plan weighs more than {parts:?}"),
    }
}

/// A plan that weighs so many grams, and a list by which it does: leaves of as many each, and one node above them or beside them for the rest.
fn weighing(random: &mut Random, format: Format, total: u128) -> (Draft, Vec<Row>) {
    let each = random.pick(&[1, 2, 255, 256, 65_534, 65_535, 65_535]);
    let each = if random.once_in(3) { random.between(1, 65_535) as u16 } else { each };
    let mut draft = families::leaves(total / u128::from(each));
    let (leaves, rest) = (draft.start, (total % u128::from(each)) as u16);
    match random.below(3) {
        0 => draft.add(Rule::Node(u32::from(b'b'), leaves)),
        side => {
            let one = draft.add(Rule::Node(u32::from(b'b'), 0));
            draft.add(if side == 1 { Rule::Pair(one, leaves) } else { Rule::Pair(leaves, one) })
        }
    };
    let a = random_plans::label(format, random);
    let mut b = random_plans::label(format, random);
    while a == b {
        b = random_plans::label(format, random);
    }
    let draft = draft.relabelled(|old| if old == u32::from(b'a') { a } else { b }).in_format(format);
    let list = list(random, &BTreeMap::from([(a, each), (b, rest)]));
    (rounds::in_any_order(random, draft), list)
}

/// 11: sums above 2^64 − 1, and just not; also where unreached rules weigh more than the start.
fn sums(trial: &mut Trial, format: Format) {
    const ALL: u128 = 1 << 64;
    let some = u128::from(trial.random.number());
    for (way, total) in [
        ("2^64 grams", ALL),
        ("a gram more", ALL + 1),
        ("2^64 grams and more", ALL + some),
        ("far more than 2^64 grams", ALL << 40 | some),
    ] {
        let (draft, rows) = weighing(&mut trial.random, format, total);
        let call = Call::new(Operation::Grams, draft.plan(), draft.n()).with_rows(&rows);
        trial.refused(&call, &format!("{format:?} plan, {way}"), Why::Output.here());
        let short = Call { work: vec![1; trial.random.below(call.work.len())], ..call.clone() };
        trial.refused(&short, &format!("{format:?} plan, {way}, work short"), Why::Lent.here());
        let mut unsound = rows.clone();
        unsound.pop();
        let call = call.with_rows(&unsound);
        trial.refused(&call, &format!("{format:?} plan, {way}, a row left out"), Why::Gap.at(unsound.len()));
    }
    for total in [ALL - 1, ALL - 2, ALL - 1 - some / 2, some] {
        let (draft, rows) = weighing(&mut trial.random, format, total);
        assert_eq!(weighed(trial, &draft.plan(), &rows), Some(total as u64), "it was made to weigh so many grams");
    }
    let mut heavy = families::leaves(ALL << 3 | some);
    random_plans::start_within(&mut heavy, 40, &mut trial.random);
    let heavy = heavy.in_format(format);
    assert!(
        weighed(trial, &heavy.plan(), &[Row { grams: 65_535, ..EACH }]).is_some(),
        "unreached rules may weigh more"
    );
}

/// 13 to 15 at a row: every fault of a list, before 8 and 11.
fn lists(trial: &mut Trial, format: Format) {
    let draft = random_plans::all_kinds(format, &mut trial.random);
    let draft = rounds::in_any_order(&mut trial.random, draft);
    let heavy = families::leaves(1 << 90).in_format(format);
    let count = trial.random.between(1, 60);
    let sound = rows::sound(&mut trial.random, count);
    for (way, why, fault) in rows::FAULTS {
        let mut rows = sound.clone();
        let i = trial.random.below(count);
        fault(&mut rows, i, &mut trial.random);
        let refused = why.at(rows::first_fault(&rows));
        let call = Call::new(Operation::Grams, draft.plan(), draft.n()).with_rows(&rows);
        let short = Call { work: vec![1; trial.random.below(call.work.len())], ..call.clone() };
        let heavy = Call::new(Operation::Grams, heavy.plan(), heavy.n()).with_rows(&rows);
        for (what, call) in [("", call), (", work short", short), (", 2^90 nodes", heavy)] {
            trial.refused(&call, &format!("{format:?} plan, {way}{what}"), refused);
        }
    }
    let nobody = Call::new(Operation::Grams, draft.plan(), draft.n()).with_rows(&[]);
    trial.refused(&nobody, &format!("{format:?} plan, no rows"), Why::Gap.here());
}
