//! Divider lines (document 02, Note 9), in both formats: measure's second number leaves label 0 out, the whole of a wide label; trees, levels, spread's
//! room and 11 go by all nodes.
use reference::copy::{self, Client};
use reference::plan::{self, Rule, WORDS, work_bytes};
use reference::rows::{LAST_LABEL, Row};
use reference::unfolded::Unfolded;
use reference::{Format, Measured, Why, rules};

fn plan_of(format: Format, rules: &[Rule], start: u16) -> Vec<u8> {
    let records: Vec<[u16; WORDS]> = rules.iter().map(|rule| rule.words()).collect();
    let words = records.iter().flat_map(|record| &record[..format.words()]);
    let mut plan: Vec<u8> = words.flat_map(|word| word.to_le_bytes()).collect();
    plan.extend(plan::trailer(format, rules.len(), start));
    plan
}

/// The sample plan of document 01 with labels for 97, 98 and 99, of which it has four, five and two.
fn sample([a, b, c]: [u32; 3]) -> [Rule; 8] {
    [
        Rule::Empty,
        Rule::Node(a, 0),
        Rule::Node(b, 0),
        Rule::Pair(1, 2),
        Rule::Part(c, 3, 2),
        Rule::Join(4, 4),
        Rule::Fill(5, 1),
        Rule::Pair(6, 3),
    ]
}

/// What measure gives and the number of nodes, by rules and, where there are few, on the forest.
fn sizes(plan: &[u8], n: usize) -> Option<([u64; 3], u64)> {
    let mut work = vec![7; work_bytes(n)];
    let measured = rules::measure(plan, &mut work);
    let nodes = rules::nodes(plan, &mut work);
    assert_eq!(measured.is_err(), nodes.is_err(), "11 looks at the nodes");
    let each = [Row { lowest: 0, highest: LAST_LABEL, class: 0, grams: 1 }];
    assert_eq!(rules::grams(plan, &each, &mut work), nodes, "by one gram each a plan weighs as many as it has nodes");
    let entry = [Row { highest: 0, grams: 0, ..each[0] }, Row { lowest: 1, ..each[0] }];
    if let Ok(measured) = measured {
        assert_eq!(
            rules::grams(plan, &entry, &mut work),
            Ok(measured.entries),
            "and by none for a divider its entries"
        );
    }
    if let Some(unfolded) = Unfolded::of(plan, 100) {
        assert_eq!(unfolded.measure(&mut work), measured);
        assert_eq!(Ok(unfolded.forest.labels().count() as u64), nodes);
    }
    let Measured { trees, entries, levels } = measured.ok()?;
    Some(([trees, entries, levels], nodes.ok()?))
}

#[test]
fn the_sample_plan() {
    for format in Format::BOTH {
        for (labels, entries) in [
            ([97, 98, 99], 11),
            ([97, 0, 99], 6),
            ([0, 98, 99], 7),
            ([97, 98, 0], 9),
            ([0, 0, 99], 2),
            ([0, 98, 0], 5),
            ([97, 0, 0], 4),
            ([0, 0, 0], 0),
        ] {
            let plan = plan_of(format, &sample(labels), 7);
            assert_eq!(sizes(&plan, 8), Some(([3, entries, 3], 11)), "labels {labels:?}");
            let mut text = vec![7; format.node() * 11];
            let short = text.len() - 1;
            let mut work = vec![7; work_bytes(8)];
            assert_eq!(rules::spread(&plan, &mut work, &mut text[..short]), Err(Why::Output.here()));
            assert_eq!(rules::spread(&plan, &mut work, &mut text), Ok(text.len() as u64), "bytes for every node");
            let unfolded = Unfolded::of(&plan, 11).expect("eleven nodes");
            assert_eq!(text, unfolded.forest.text(format));
            // A copy has them where their class is seen.
            let row = |lowest, highest, class| Row { lowest, highest, class, grams: 1 };
            let rows = vec![row(0, 0, 1), row(1, LAST_LABEL, 0)];
            assert_eq!(copy::count(&unfolded.visible(&Client { rows: rows.clone(), class: 1 })), 11);
            assert!(!copy::told(&unfolded.visible(&Client { rows, class: 0 })).contains("(0"));
        }
    }
}

#[test]
fn the_whole_label() {
    let side_by_side = [Rule::Empty, Rule::Node(0, 0), Rule::Node(65_536, 0), Rule::Pair(1, 2)];
    assert_eq!(sizes(&plan_of(Format::Wide, &side_by_side, 3), 4), Some(([2, 1, 1], 2)));
    for label in [1, 255, 256, 65_535, 65_536, 131_072, 16_711_680, 16_777_215] {
        let rules = [Rule::Empty, Rule::Node(label, 0), Rule::Node(0, 1), Rule::Part(label, 2, 0), Rule::Fill(3, 2)];
        let plan = plan_of(Format::Wide, &rules, 4);
        assert_eq!(sizes(&plan, 5), Some(([1, 3, 3], 5)), "label {label}");
    }
    let alone = [Rule::Empty, Rule::Node(0, 0)];
    for format in Format::BOTH {
        assert_eq!(sizes(&plan_of(format, &alone, 1), 2), Some(([1, 0, 1], 1)));
    }
}

#[test]
fn eleven_looks_at_all_nodes() {
    for format in Format::BOTH {
        for (label, entries) in [(0, 0), (97, 1)] {
            // 2^63 dividers, and twice as many with one node more below or beside them.
            let mut rules = vec![Rule::Empty, Rule::Node(0, 0)];
            rules.extend((1..=63).map(|row| Rule::Pair(row, row)));
            rules.extend([Rule::Node(label, 64), Rule::Pair(64, 64), Rule::Pair(65, 64), Rule::Node(label, 66)]);
            let sizes_from = |start| sizes(&plan_of(format, &rules, start), rules.len());
            let half = 1 << 63;
            assert_eq!(sizes_from(64), Some(([half, 0, 1], half)));
            assert_eq!(sizes_from(65), Some(([1, entries, 2], half + 1)));
            assert_eq!([66, 67, 68].map(sizes_from), [None; 3], "over 2^64 − 1 nodes, however few are entries");
        }
    }
}
