//! Plans for a whole ward (document 02, Note 3): every operation on plans of more rules than document 01 allowed, and on both sides of that limit
//! and of the new one; work on both sides of what each needs; places of many cells; rules that reach themselves.
use crate::call::{Call, Operation};
use crate::cursors::{self, Known, Stored};
use crate::draft::Draft;
use crate::families::{self, Growth};
use crate::rounds::{self, compares, copies, grams, plans, reasons, sizes, walks};
use crate::trial::Trial;
use crate::{cycles, random_plans};
use reference::copy::MOST_COPIED;
use reference::plan::{FEW_RULES, MAX_RULES};
use reference::{Format, LETTERS, Refused, Why, place};

/// The sizes: on both sides of where a rule's work grows, between, and on both sides of the limit.
const SIZES: [usize; 7] = [1_023, 1_024, 1_025, 2_000, 16_383, 16_384, 16_385];

pub fn agree(trial: &mut Trial, rounds: usize) {
    for round in 0..rounds {
        for (index, n) in SIZES.into_iter().enumerate() {
            for (format, turn) in Format::BOTH.into_iter().zip(round + index..) {
                let draft = shaped(trial, turn, n);
                let draft = in_format(trial, format, draft);
                let draft = rounds::in_any_order(&mut trial.random, draft);
                every_operation(trial, &draft);
            }
        }
        beside_larger(trial);
        reaching_themselves(trial);
        if round % 8 == 0 {
            [1_023, 1_024, 1_025, 2_000].into_iter().for_each(|n| long_cycles(trial, n));
        }
        // In so many rules the lowest that reaches itself may be searched for long.
        if round % 20 == 10 {
            [16_383, 16_384].into_iter().for_each(|n| long_cycles(trial, n));
        }
    }
    Format::BOTH.into_iter().for_each(|format| deepest(trial, format));
}

/// A valid narrow plan of just so many rules, of each shape in its turn.
pub(super) fn shaped(trial: &mut Trial, turn: usize, n: usize) -> Draft {
    let growth = trial.random.pick(&Growth::ALL);
    let draft = match turn % 8 {
        0 => families::nodes(n),
        1 => families::rows(growth, n),
        2 => families::spine(growth, n),
        3 => families::chained(n),
        4 => families::nested(n),
        5 => families::row_alone(Growth::Zigzag, n),
        6 => families::towers(n),
        _ => random_plans::any(&mut trial.random, n),
    };
    draft.padded(n)
}

fn in_format(trial: &mut Trial, format: Format, draft: Draft) -> Draft {
    if format == Format::Wide { random_plans::widened(&draft, &mut trial.random) } else { draft }
}

fn every_operation(trial: &mut Trial, draft: &Draft) {
    if draft.n() > MAX_RULES {
        return too_many(trial, draft);
    }
    sizes::round_trip(trial, draft);
    sizes::count_and_write(trial, draft);
    works(trial, draft);
    walks::list(trial, draft, 3);
    places(trial, draft);
    compares::compare_far(trial, draft);
    copies::of_any_size(trial, draft);
    grams::of_any_size(trial, draft);
}

/// A call that must be refused so.
fn comes(trial: &mut Trial, call: &Call, why: &str, refused: Refused) {
    assert_eq!(trial.judge(call).outcome, Err(refused), "{why}");
}

/// 2 in every operation, whatever is lent.
fn too_many(trial: &mut Trial, draft: &Draft) {
    for operation in Operation::ALL {
        let mut call = match operation {
            Operation::Seal => Call::seal(draft),
            _ => Call::new(operation, draft.plan(), draft.n()).with_letters(b"ax"),
        };
        if trial.random.once_in(2) {
            call.work.truncate(7);
            call.out = trial.random.leftovers(draft.sealed_length());
        }
        comes(trial, &call, "16,385 rules", Why::Count.here());
    }
}

/// Work of every length around 32 words a rule and 40, for one of the operations that take it.
fn works(trial: &mut Trial, draft: &Draft) {
    let n = draft.n();
    let operation = trial.random.pick(&Operation::WORKING);
    let call = Call::new(operation, draft.plan(), n).with_letters(b"az");
    let between = trial.random.between(64 * n, 80 * n);
    for bytes in [64 * n - 1, 64 * n, 64 * n + 1, between, 80 * n - 1, 80 * n, 80 * n + 1] {
        let call = Call { work: trial.random.leftovers(bytes), ..call.clone() };
        // 16 comes before 8.
        let short = bytes < if n > 1_024 { 80 * n } else { 64 * n };
        let short = short && (operation != Operation::Copy || n <= MOST_COPIED);
        let outcome = trial.judge(&call).outcome;
        assert_eq!(outcome == Err(Why::Lent.here()), short, "{operation:?} of {n} rules with {bytes} bytes of work");
    }
    if operation.has_place() {
        let mut call = call;
        let second = operation == Operation::Compare && trial.random.once_in(2);
        if second { &mut call.second } else { &mut call.cursor }.pop();
        comes(trial, &call, "the cursor needs 16 × (n + 1) words, as before", Why::Lent.here());
    }
}

/// One letter for as long as it leads somewhere, so that the place has many cells; then every letter from there, and the place damaged.
fn places(trial: &mut Trial, draft: &Draft) {
    let n = draft.n();
    let word = rounds::word(&mut trial.random, draft);
    let mut call = Call::new(Operation::Walk, draft.plan(), n).with_word(word);
    let (root, letter) = trial.random.pick(&[(b'a', b'f'), (b'z', b'l'), (b'a', b'n'), (b'z', b'p')]);
    // Of nodes over each other all, of a row the middle, which has most cells.
    let count = if b"fl".contains(&letter) { n } else { n / 2 };
    let letters = walks::mostly_moving(trial, &call, [vec![root], vec![letter; count]].concat());
    call = trial.accepted(&call.with_letters(&letters), "a walk from above");
    let Ok(cells) = place::used(&call.cursor) else { panic!("a walk leaves a place") };
    for letter in LETTERS {
        let mut call = call.clone();
        let past = 8 * (cells.len() + 1);
        let rest = trial.random.leftovers(call.cursor.len() - past);
        call.cursor[past..].copy_from_slice(&rest);
        let judged = reasons::beside_walk(trial, &Call::reason(&call, letter));
        assert!(judged.outcome.is_ok(), "a place that a walk left, whatever stands behind it");
    }
    let known = Known::of(draft.clone());
    for damage in trial.random.some(cursors::all(), 4) {
        let mut stored = Stored::of(&cells).with_word(word);
        if (damage.apply)(&mut stored, &known, &mut trial.random).is_some() {
            let mut call = call.clone().with_letters(b"s");
            stored.write(&mut call.cursor);
            reasons::beside_walk(trial, &Call::reason(&call, b's'));
        }
    }
}

/// The place of most cells that there is: the last of as many nodes over each other as rules allow, walked to from the start.
fn deepest(trial: &mut Trial, format: Format) {
    let draft = in_format(trial, format, families::nodes(MAX_RULES));
    let draft = rounds::in_any_order(&mut trial.random, draft);
    let (root, letter) = trial.random.pick(&[(b'a', b'f'), (b'z', b'l')]);
    let letters = [vec![root], vec![letter; MAX_RULES - 2]].concat();
    let call = Call::new(Operation::Walk, draft.plan(), MAX_RULES).with_letters(&letters);
    let after = trial.accepted(&call, "a walk from above");
    let cells = place::used(&after.cursor).map_or(0, |cells| cells.len());
    assert_eq!(cells, 2 * (MAX_RULES - 1), "two cells for each node");
}

/// A plan of few rules beside the same with more that nothing names: the same counts, answers and cells, with more work.
fn beside_larger(trial: &mut Trial) {
    let draft = families::any(&mut trial.random, FEW_RULES);
    let draft = rounds::in_any_format(&mut trial.random, draft);
    let n = trial.random.pick(&[1_025, 2_000]);
    let both = [draft.clone().padded(n), draft];
    let [counts, of_few] =
        [0, 1].map(|which| trial.judge(&Call::new(Operation::Measure, both[which].plan(), both[which].n())).outcome);
    assert_eq!(counts, of_few, "with more rules that nothing names, a plan has the same counts");
    let mut calls = both.map(|draft| Call::new(Operation::Walk, draft.plan(), draft.n()));
    for _ in 0..3 {
        let letters = rounds::letters(&mut trial.random, 100);
        let letters = walks::mostly_moving(trial, &calls[0], letters);
        calls = calls.map(|call| trial.accepted(&call.with_letters(&letters), "a walk from above or from a place"));
        let [many, few] = &calls;
        assert!(many.answers == few.answers, "with more rules that nothing names, a plan has the same answers");
        assert_eq!(place::used(&many.cursor), place::used(&few.cursor), "and the same places");
    }
}

/// 12 in every operation, in plans of more than 1,024 rules.
fn reaching_themselves(trial: &mut Trial) {
    for format in Format::BOTH {
        let growth = trial.random.pick(&Growth::ALL);
        let n = trial.random.between(1_000, 2_000);
        let draft = families::spine(growth, n);
        let draft = in_format(trial, format, draft);
        let cyclic = cycles::any(draft, &mut trial.random);
        let (n, lowest) = (cyclic.draft.n(), cyclic.lowest());
        for operation in Operation::ALL {
            let call = match operation {
                Operation::Seal => Call::seal(&cyclic.draft),
                _ => Call::new(operation, cyclic.draft.plan(), n).with_letters(b"ax"),
            };
            comes(trial, &call, "a rule that reaches itself", Why::Cycle.at(lowest));
        }
    }
}

/// Plans of so many rules in which some rule reaches itself by many others: check of one format, seal of the other.
fn long_cycles(trial: &mut Trial, n: usize) {
    for (turn, (way, draft, lowest)) in cycles::long(n, &mut trial.random).into_iter().enumerate() {
        let [format, other] = if turn % 2 == 0 { Format::BOTH } else { [Format::Wide, Format::Narrow] };
        let [check, _] = plans::check_and_seal(trial, &draft.clone().in_format(format));
        let [_, seal] = plans::check_and_seal(trial, &draft.in_format(other));
        comes(trial, &check, way, Why::Cycle.at(lowest));
        comes(trial, &seal, way, Why::Cycle.at(lowest));
    }
}
