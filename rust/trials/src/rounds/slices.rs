//! Refusals 1 and 2 of seal, 8, 9 and 11: slices too short, strange letters, forests too large.
use crate::call::{Call, Operation, Values};
use crate::draft::Draft;
use crate::families;
use crate::trial::Trial;
use crate::{random_plans, rounds};
use reference::plan::{MAX_RULES, Rule, TRAILER};
use reference::{DIVIDER, Format, LETTERS, Why, answers};

pub fn refuse(trial: &mut Trial, rounds: usize) {
    for format in Format::BOTH {
        for _ in 0..rounds {
            record_lengths(trial, format);
            seal_words(trial, format);
            lent(trial, format);
            letters(trial, format);
            outputs(trial, format);
            large(trial, format);
        }
    }
}

/// A plan of a format that has every kind, its rules in any order.
fn all_kinds(trial: &mut Trial, format: Format) -> Draft {
    let draft = random_plans::all_kinds(format, &mut trial.random);
    rounds::in_any_order(&mut trial.random, draft)
}

/// The length of a slice that is too short, for the number of bytes needed.
type Shorter = fn(usize) -> usize;

const SHORT: [(&str, Shorter); 6] = [
    ("by the last byte", |needed| needed - 1),
    ("by the last two bytes", |needed| needed - 2),
    ("by the last three bytes", |needed| needed - 3),
    ("by the last four bytes", |needed| needed - needed.min(4)),
    ("by half", |needed| needed / 2),
    ("wholly", |_| 0),
];

/// Seal's 1: a record length that is neither 8 nor 10, whatever else could be refused.
fn record_lengths(trial: &mut Trial, format: Format) {
    let mut draft = all_kinds(trial, format);
    let whole = Call { out: trial.random.leftovers(draft.sealed_length()), ..Call::seal(&draft) };
    let cut = Call { plan: draft.words().split_off(3), ..whole.clone() };
    let nothing = Call { plan: Vec::new(), ..whole.clone() };
    let no_room = Call { out: Vec::new(), ..whole.clone() };
    draft.records[3][0] = 6;
    let faulty = Call { out: whole.out.clone(), ..Call::seal(&draft) };
    let calls = [
        ("a fine plan", whole.clone()),
        ("cut words", cut),
        ("no words", nothing),
        ("no output", no_room),
        ("a faulty rule", faulty),
    ];
    let any = trial.random.between(11, 65_535) as u16;
    for (length, record_length) in [("0", 0), ("7", 7), ("9", 9), ("11", 11), ("65,535", 65_535), ("above 10", any)] {
        for (name, call) in &calls {
            let call = Call { record_length, ..call.clone() };
            trial.refused(&call, &format!("{format:?} plan, {name}, record length {length}"), Why::Mark.here());
        }
    }
    // The other format's record length, also for words that are whole rules in both: what comes of that is for the implementations to agree on.
    let other = if format == Format::Wide { Format::Narrow } else { Format::Wide };
    for words in [whole.plan.len(), whole.plan.len() / 40 * 40] {
        let plan = whole.plan[..words].to_vec();
        trial.judge(&Call { plan, record_length: other.record_length(), ..whole.clone() });
    }
}

/// Seal's 2: words that aren't four or five to a rule, none, or too many.
fn seal_words(trial: &mut Trial, format: Format) {
    let draft = all_kinds(trial, format);
    let whole = draft.words();
    let mut call = Call::seal(&draft);
    call.out = trial.random.leftovers(format.record() * (MAX_RULES + 10));
    let mut faulty = vec![
        ("no words".to_string(), Vec::new()),
        ("one byte".to_string(), vec![0]),
        ("16,385 rules".to_string(), vec![0; format.record() * (MAX_RULES + 1)]),
        ("more rules".to_string(), vec![0; format.record() * (MAX_RULES + 9)]),
    ];
    for few in 1..format.words() {
        faulty.push((format!("{few} words too few"), whole[..whole.len() - 2 * few].to_vec()));
        faulty.push((format!("{few} words too few, and a byte"), whole[..whole.len() - 2 * few + 1].to_vec()));
    }
    for (way, words) in faulty {
        call.plan = words;
        trial.refused(&call, &format!("{format:?} plan, {way}"), Why::Count.here());
    }
    call.plan = [&whole[..], &[7]].concat();
    trial.accepted(&call, "an odd last byte isn't counted");
}

/// 8: work, cursors, answers, and copy's output; a rest of answers isn't counted.
fn lent(trial: &mut Trial, format: Format) {
    let draft = all_kinds(trial, format);
    let letters = rounds::letters(&mut trial.random, 9);
    for operation in Operation::WORKING {
        let mut call = Call::new(operation, draft.plan(), draft.n()).with_letters(&letters);
        call.work = trial.random.leftovers(call.work.len());
        for (way, length) in SHORT {
            let mut short = call.clone();
            short.work.truncate(length(call.work.len()));
            trial.refused(&short, &format!("{format:?} plan, work short {way}"), Why::Lent.here());
            if operation.has_place() {
                let mut short = call.clone();
                short.cursor.truncate(length(call.cursor.len()));
                trial.refused(&short, &format!("{format:?} plan, cursor short {way}"), Why::Lent.here());
            }
            if operation == Operation::Compare {
                let mut short = call.clone();
                short.second.truncate(length(call.second.len()));
                trial.refused(&short, &format!("{format:?} plan, second cursor short {way}"), Why::Lent.here());
            }
            if operation == Operation::Walk {
                let mut short = call.clone();
                short.answers.truncate(length(call.answers.len()));
                trial.refused(&short, &format!("{format:?} plan, answers short {way}"), Why::Lent.here());
            }
            if operation == Operation::Copy {
                let mut short = call.clone();
                short.out.truncate(length(call.out.len()));
                trial.refused(&short, &format!("{format:?} plan, output short {way}"), Why::Lent.here());
            }
        }
        if operation == Operation::Walk {
            for rest in 0..4 {
                call.answers = trial.random.leftovers(answers::LENGTH * letters.len() + rest);
                trial.accepted(&call, "a rest of answers isn't counted");
            }
        }
    }
}

/// 9: a byte that is no letter, first, last or anywhere.
fn letters(trial: &mut Trial, format: Format) {
    let draft = all_kinds(trial, format);
    let count = trial.random.between(3, 40);
    let letters = rounds::letters(&mut trial.random, count);
    let call = Call::new(Operation::Walk, draft.plan(), draft.n()).with_letters(&letters);
    let middle = trial.random.between(1, count - 2);
    for (way, place) in [("first", 0), ("within", middle), ("last", count - 1)] {
        let mut strange = call.clone();
        let any = trial.random.number() as u8;
        strange.letters[place] = trial.random.pick(&[b'A', b'\n', 0, 255, b'b', b't', any]);
        if LETTERS.contains(&strange.letters[place]) {
            strange.letters[place] = b' ';
        }
        trial.refused(&strange, &format!("{format:?} plan, {way} byte no letter"), Why::Letter.at(place));
        let later = trial.random.between(place, count - 1);
        strange.letters[later] = b'?';
        strange.cursor = trial.random.leftovers(call.cursor.len() + 3);
        let way = format!("{format:?} plan, {way} byte no letter, with more wrong after it");
        trial.refused(&strange, &way, Why::Letter.at(place));
    }
}

/// A valid plan of a format, its rules in any order.
fn of_format(trial: &mut Trial, format: Format, draft: Draft) -> Draft {
    let draft = if format == Format::Wide { random_plans::widened(&draft, &mut trial.random) } else { draft };
    rounds::in_any_order(&mut trial.random, draft)
}

/// 11: output one byte short and shorter, for seal, unseal and spread; just long enough it is accepted. What would do for the same rules
/// in a narrow plan is too short for a wide one.
fn outputs(trial: &mut Trial, format: Format) {
    let (draft, nodes) = loop {
        let draft = rounds::small(&mut trial.random, 30);
        let draft = of_format(trial, format, draft);
        if let Some(nodes) = draft.nodes().filter(|nodes| *nodes > 0) {
            break (draft, nodes as usize);
        }
    };
    let words = |format: Format| format.record() * draft.n();
    type Needed<'a> = &'a dyn Fn(Format) -> usize;
    let operations: [(Operation, Needed); 3] = [
        (Operation::Seal, &|format| words(format) + TRAILER),
        (Operation::Unseal, &words),
        (Operation::Spread, &|format| format.node() * nodes),
    ];
    for (operation, needed) in operations {
        let mut call = match operation {
            Operation::Seal => Call::seal(&draft),
            _ => Call::new(operation, draft.plan(), draft.n()),
        };
        let (longer, needed, narrow) = (trial.random.below(2), needed(format), needed(Format::Narrow));
        call.out = trial.random.leftovers(needed + longer);
        trial.accepted(&call, "output just long enough");
        let mut short: Vec<(&str, usize)> = SHORT.map(|(way, length)| (way, length(needed))).to_vec();
        if format == Format::Wide {
            short.push(("as for a narrow plan", narrow));
            short.push(("above that", trial.random.between(narrow, needed - 1)));
        }
        for (way, length) in short {
            call.out = trial.random.leftovers(length);
            trial.refused(&call, &format!("{format:?} plan, output short {way}"), Why::Output.here());
        }
    }
}

/// 11: more than 2^64 − 1 nodes, and texts longer than that, also where unreached rules are larger than the start.
fn large(trial: &mut Trial, format: Format) {
    const ALL: u128 = 1 << 64;
    let some = u128::from(trial.random.number());
    let counts = [
        ("2^64 nodes", ALL, true),
        ("2^64 nodes and more", ALL + some, true),
        ("far more than 2^64 nodes", ALL << 20 | some, true),
        ("text too long alone", ALL - 1 - some / 4, false),
        ("text too long by little", ALL / format.node() as u128 + 1 + some % 9, false),
    ];
    for (way, count, too_many) in counts {
        let way = format!("{format:?} plan, {way}");
        let draft = families::leaves(count);
        let nested = wrapped(draft.clone());
        // A node above all leaves makes one more, unless they are too many anyway.
        for draft in [draft, nested] {
            let draft = of_format(trial, format, draft);
            let mut measure = Call::new(Operation::Measure, draft.plan(), draft.n());
            measure.work = trial.random.leftovers(measure.work.len() + 9);
            let mut spread = Call { operation: Operation::Spread, ..measure.clone() };
            spread.out = trial.random.leftovers(50);
            trial.refused(&spread, &way, Why::Output.here());
            if too_many {
                trial.refused(&measure, &way, Why::Output.here());
            } else {
                trial.judge(&measure);
            }
        }
    }
    // For 11 dividers are nodes as all others.
    for (way, count) in [("2^64 dividers", ALL), ("2^64 dividers and more", ALL + some)] {
        let draft = divided(trial, format, families::leaves(count));
        let measure = Call::new(Operation::Measure, draft.plan(), draft.n());
        trial.refused(&measure, &format!("{format:?} plan, {way}"), Why::Output.here());
    }
    let draft = divided(trial, format, families::leaves(ALL - 1 - some / 2));
    let Ok(Values::Measured(measured)) = trial.judge(&Call::new(Operation::Measure, draft.plan(), draft.n())).outcome
    else {
        panic!("so many dividers are measured")
    };
    assert_eq!((measured.entries, measured.levels), (0, 1), "and none is an entry");
    let mut draft = families::leaves(ALL << 3 | some);
    random_plans::start_within(&mut draft, 40, &mut trial.random);
    let draft = of_format(trial, format, draft);
    for operation in [Operation::Measure, Operation::Spread] {
        let mut call = Call::new(operation, draft.plan(), draft.n());
        call.out = trial.random.leftovers(200);
        trial.accepted(&call, "unreached rules may be larger");
    }
}

/// The same forest with dividers alone.
fn divided(trial: &mut Trial, format: Format, draft: Draft) -> Draft {
    rounds::in_any_order(&mut trial.random, draft.relabelled(|_| DIVIDER).in_format(format))
}

/// The same forest below one node.
fn wrapped(mut draft: Draft) -> Draft {
    let start = draft.start;
    draft.add(Rule::Node(122, start));
    draft
}
