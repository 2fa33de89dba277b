//! What a client's copy costs, beside a measure of the same plan.
use crate::report::{Report, shown};
use crate::timing::Desk;
use crate::{Family, tours};
use reference::copy::Client;
use reference::rows::{LAST_LABEL, Row};
use trials::call::Operation;
use trials::draft::Draft;
use trials::families::{self, Growth};
use trials::random::Random;

const SIZES: [usize; 3] = [64, 1024, 4096];
/// The size of plans whose rules are in any order too.
const IN_ANY_ORDER: usize = 1024;
/// Rows of the list, of as many labels each up to the last, which has the rest.
const ROWS: u32 = 64;
/// As many measures a copy may take at most.
pub const MOST_MEASURES: f64 = 5.0;

/// But for the doubled rows, most of which stand for more nodes than measure takes, all rules are reached.
const FAMILIES: [(&str, Family); 6] = [
    ("doubled rows", |n| families::rows(Growth::Doubled, n)),
    ("combs", |n| families::rows(Growth::Comb, n)),
    ("zigzags", |n| families::rows(Growth::Zigzag, n)),
    ("a spine", |n| families::spine(Growth::Comb, n)),
    ("a zigzag spine", |n| families::spine(Growth::Zigzag, n)),
    ("nested nodes", families::nested),
];

/// The table; gives the most measures that a copy took.
pub fn all(report: &mut Report) -> f64 {
    report.section(
        "The client's copy",
        "Microseconds a call of the library, nanoseconds of it for each rule, microseconds of a measure of the same plan, and how many measures a copy \
         takes. The families' plans start where they have most nodes of those that measure takes; their labels are below 256 at random. The list \
         has 64 rows, of classes 0 and 1 by turns: a client of class 1 sees all, one of class 0 about half of the labels, and nothing below \
         the others. Two plans are there with their rules in any order too.",
    );
    report.header(&["plan, class", "n", "copy", "a rule", "measure", "copy by measure"]);
    let mut most: f64 = 0.0;
    for (name, family) in FAMILIES {
        for n in SIZES {
            let mut draft = family(n).padded(n);
            tours::start_below(&mut draft, u64::MAX as f64 / 2.0);
            most = most.max(rows(report, name, &draft));
            if n == IN_ANY_ORDER && ["combs", "a spine"].contains(&name) {
                let order = Random::new(1).order(n);
                most = most.max(rows(report, &format!("{name} in any order"), &draft.renumbered(&order)));
            }
        }
    }
    most
}

/// The rows of a plan, for a client of either class; gives the most measures that a copy took.
fn rows(report: &mut Report, name: &str, draft: &Draft) -> f64 {
    let n = draft.n();
    let mut random = Random::new(1);
    let draft = draft.relabelled(|_| random.below(256) as u32);
    let width = 256 / ROWS;
    let highest = |i: u32| if i + 1 == ROWS { LAST_LABEL } else { width * (i + 1) - 1 };
    let rows: Vec<Row> =
        (0..ROWS).map(|i| Row { lowest: width * i, highest: highest(i), class: (i % 2) as u16, grams: 0 }).collect();
    let measure = Desk::new(&draft).time(Operation::Measure, 8).library / 1000.0;
    let mut most: f64 = 0.0;
    for class in [1, 0] {
        let mut desk = Desk::new(&draft);
        let length = desk.copies_for(&Client { rows: rows.clone(), class }, n);
        let copy = desk.time_library(Operation::Copy, 8, length).library / 1000.0;
        let cells = [copy, 1000.0 * copy / n as f64, measure, copy / measure];
        report.row(&format!("{name}, {class}"), n, &cells.map(shown));
        most = most.max(copy / measure);
    }
    most
}
