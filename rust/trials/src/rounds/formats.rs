//! Formats (document 02, Note 2): narrow plans, each beside the same rules in a wide plan whose labels are others. Places are the same, so cells are,
//! and counts but for the dividers; answers are the same but for the labels, and nowhere stays nowhere; a text has the wide label for each narrow
//! one.
use crate::call::{Call, Operation, Values};
use crate::draft::Draft;
use crate::rounds::{grams, walks};
use crate::trial::Trial;
use crate::{families, random_plans, rounds};
use reference::plan::FEW_RULES;
use reference::rows::{LAST_LABEL, Row};
use reference::{DIVIDER, Format, Measured, NOWHERE, answers};

/// The wide label for each narrow one.
type Labels = Vec<u32>;

pub fn agree(trial: &mut Trial, plans: usize) {
    for round in 0..plans {
        let draft = match round % 3 {
            0 => families::any(&mut trial.random, FEW_RULES),
            1 => {
                let n = trial.random.between(1, FEW_RULES);
                random_plans::any(&mut trial.random, n)
            }
            _ => rounds::small(&mut trial.random, 60),
        };
        let narrow = rounds::in_any_order(&mut trial.random, draft);
        // Every fourth plan keeps its labels.
        let labels: Labels = match round % 4 {
            0 => (0..256).collect(),
            _ => (0..256).map(|_| random_plans::label(Format::Wide, &mut trial.random)).collect(),
        };
        let wide = narrow.relabelled(|old| labels[old as usize]).in_format(Format::Wide);
        let both = [&narrow, &wide];
        same_sizes(trial, both, &labels);
        same_walks(trial, both, &labels);
        trial.tally.widened += 1;
    }
}

/// The same counts but for the dividers, and the text with the wide labels if it isn't long.
fn same_sizes(trial: &mut Trial, both: [&Draft; 2], labels: &Labels) {
    let measure = |draft: &Draft| trial.judge(&Call::new(Operation::Measure, draft.plan(), draft.n())).outcome;
    let [counts, as_wide] = both.map(measure);
    let (Ok(Values::Measured(counts)), Ok(Values::Measured(as_wide))) = (counts, as_wide) else {
        return assert_eq!(counts, as_wide, "as a wide plan, a plan has too many nodes too");
    };
    let entries = grams::weighed(trial, &both[0].plan(), &entries(labels));
    let expected = Measured { entries: entries.expect("there are no more than nodes"), ..counts };
    assert_eq!(
        as_wide, expected,
        "as a wide plan, a plan has the same counts, but for labels that become dividers or cease to be"
    );
    let Some(nodes) = both[0].nodes().filter(|nodes| *nodes < 20_000) else { return };
    let [text, as_wide] = both.map(|draft| {
        let mut spread = Call::new(Operation::Spread, draft.plan(), draft.n());
        spread.out = vec![1; draft.format.node() * nodes as usize];
        trial.accepted(&spread, "the text fits").out
    });
    assert!(widened_text(&text, labels) == as_wide, "as a wide plan, a plan has the same text with its labels");
}

/// The list by which a narrow label weighs one gram where the wide one is no divider's.
fn entries(labels: &Labels) -> Vec<Row> {
    let row = |(lowest, wide): (u32, &u32)| Row { lowest, highest: lowest, class: 0, grams: (*wide != DIVIDER).into() };
    let above = Row { lowest: 256, highest: LAST_LABEL, class: 0, grams: 0 };
    (0..).zip(labels).map(row).chain([above]).collect()
}

/// A narrow text with the wide labels.
fn widened_text(text: &[u8], labels: &Labels) -> Vec<u8> {
    let mut widened = Vec::new();
    let mut bytes = text.iter();
    while let Some(bracket) = bytes.next() {
        widened.push(*bracket);
        if *bracket == b'(' {
            let label = labels[usize::from(*bytes.next().expect("a label stands behind a bracket"))];
            widened.extend(&label.to_le_bytes()[..3]);
        }
    }
    widened
}

/// The same cells and, but for the labels, the same answers, in a few calls.
fn same_walks(trial: &mut Trial, both: [&Draft; 2], labels: &Labels) {
    let word = rounds::word(&mut trial.random, both[0]);
    let mut calls = both.map(|draft| Call::new(Operation::Walk, draft.plan(), draft.n()).with_word(word));
    for _ in 0..4 {
        let letters = rounds::letters(&mut trial.random, 100);
        let letters = walks::mostly_moving(trial, &calls[0], letters);
        let walk =
            |call: Call| trial.accepted(&call.with_letters(&letters), "a walk from above or from where one ended");
        calls = calls.map(walk);
        let [narrow, wide] = &calls;
        for index in 0..letters.len() {
            let expected = match answers::get(&narrow.answers, index) {
                NOWHERE => NOWHERE,
                label => labels[label as usize],
            };
            assert_eq!(answers::get(&wide.answers, index), expected, "as a wide plan, a plan has the same answers");
        }
        assert!(narrow.cursor == wide.cursor, "as a wide plan, a plan has the same places");
        trial.tally.letters_in_both += letters.len() as u64;
    }
}
