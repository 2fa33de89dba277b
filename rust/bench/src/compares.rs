//! What compare costs: where rules are shared, and where nothing is.
use crate::report::Report;
use crate::timing::Desk;
use crate::{FAMILIES, LETTERS, cost, tours};
use reference::Compared;
use reference::plan::Rule;
use trials::call::{Operation, Values};
use trials::draft::Draft;
use trials::families::{self, Twins};

pub fn all(report: &mut Report) {
    shared(report);
    nothing_shared(report);
}

/// Rules of each plan, so that what a call costs whatever it compares is the same for all.
const N: usize = 128;
/// The most nodes that the reference lists.
const LISTED: u128 = 1 << 21;

type Shape = fn(Twins, u32) -> (Draft, u128);

/// Two trees with all rules in common, or all but those that lead to one entry.
fn shared(report: &mut Report) {
    report.section(
        "Compare, where rules are shared",
        "Microseconds a call, as above, on plans of 128 rules, with the largest budget; the reference lists all nodes, and isn't asked where there \
         are more than two million. 'One rule': two places on the same rules. 'But for one entry': the last entry of a row doubled over and over, or \
         the one in the last hole of such a spine, is another, so that the answer is the count shown; all else is shared. Of a million nodes a figure is the \
         best of 3 rounds.",
    );
    report.header(&["two trees", "count", "compare"]);
    let shapes: [(&str, Shape, [u32; 3]); 2] =
        [("doubled rows", families::twin_rows, [10, 20, 31]), ("doubled spines", families::twin_spines, [9, 19, 30])];
    for (name, shape, sizes) in shapes {
        for (way, twins) in [("one rule", Twins::OneRule), ("but for one entry", Twins::OneEntry)] {
            for doublings in sizes {
                let (draft, number) = shape(twins, doublings);
                let found = match u32::try_from(number) {
                    Ok(number) if twins == Twins::OneEntry => Compared::Differ(number),
                    Ok(number) => Compared::Same(number),
                    Err(_) => panic!("{number} is above the largest budget"),
                };
                let mut desk = Desk::between(&draft.padded(N), b"a", b"z");
                desk.budget(u32::MAX);
                let times = if number > LISTED {
                    desk.time_library(Operation::Compare, 8, Values::Compared(found))
                } else {
                    desk.rounds = if number > 10_000 { 3 } else { desk.rounds };
                    desk.time(Operation::Compare, 1)
                };
                report.row(&format!("{name}, {way}"), number as usize, &[(times / 1000.0).shown()]);
            }
        }
    }
}

/// A family's forest twice, with no rule in common.
fn nothing_shared(report: &mut Report) {
    report.section(
        "Compare, where nothing is shared",
        "Nanoseconds a pair, as above: a call less one with a budget of 1, by the number of pairs. The forest is the family's largest of at most 20,000 \
         nodes, its rules stand in the plan twice, and either forest is below a node of its own. Beside it a letter n on the same forest, as in the \
         first table.",
    );
    report.header(&["family", "pairs", "a pair", "a letter n"]);
    for (name, family) in FAMILIES {
        let (draft, nodes) = tours::largest_below(family, 20_000.0);
        let (mut twice, starts) = draft.twice();
        let tops = starts.map(|start| twice.add(Rule::Node(122, start)));
        twice.add(Rule::Pair(tops[0], tops[1]));
        let pairs = nodes as u32 + 1;
        let mut desk = Desk::between(&twice, b"a", b"z");
        desk.budget(1);
        let without = desk.time(Operation::Compare, 8);
        desk.budget(pairs);
        let pair = (desk.time(Operation::Compare, 1) - without) / f64::from(pairs);
        let letter = cost(&draft, &tours::repeating(&draft, b'n', LETTERS));
        report.row(name, pairs as usize, &[pair.shown(), letter.shown()]);
    }
}
