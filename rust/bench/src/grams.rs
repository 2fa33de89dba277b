//! What the grams of a plan cost, by the length of the list, beside a measure of the same plan.
use crate::report::{Report, shown};
use crate::timing::{self, Desk};
use crate::{Family, tours};
use reference::Format;
use reference::rows::Row;
use trials::call::Operation;
use trials::draft::Draft;
use trials::families::{self, Growth};
use trials::random::Random;

const SIZES: [usize; 3] = [64, 1024, 16_384];
/// Rows of the lists; one of as many has rows of any width.
const FEW_ROWS: usize = 256;
const MANY_ROWS: usize = 65_536;

/// As many measures the grams may take at most: by one row, by few of as many labels each, in plans of few rules and of more, and by few of any
/// width.
const MOST_BY_ONE: f64 = 1.3;
const MOST_OF_FEW_RULES: f64 = 3.2;
const MOST: f64 = 2.0;
const MOST_BY_UNEVEN: f64 = 4.0;

const FAMILIES: [(&str, Family); 5] = [
    ("doubled rows", |n| families::rows(Growth::Doubled, n)),
    ("combs", |n| families::rows(Growth::Comb, n)),
    ("a spine", |n| families::spine(Growth::Comb, n)),
    ("nested nodes", families::nested),
    ("node chain", families::nodes),
];

/// How many measures grams took, and how many they may take.
#[derive(Clone, Copy)]
pub struct Held {
    pub took: f64,
    pub most: f64,
}

impl Held {
    /// The one that comes nearer to its bound.
    fn tighter(self, other: Held) -> Held {
        if self.took * other.most < other.took * self.most { other } else { self }
    }
}

/// The table; gives what came nearest to its bound.
pub fn all(report: &mut Report) -> Held {
    report.section(
        "Grams",
        "Microseconds a call of the library by lists of so many rows, microseconds of a measure of the same plan, and how many measures grams by 256 \
         rows takes. The rows have as many labels each, but for the uneven ones, which end at labels at random. The families' plans are wide and start \
         where they have most nodes of those whose grams fit; their labels are any below 2^24. The list is checked in every call, row by row. Each \
         rule's label is looked up: first in the row where it is if all have as many labels, and if that isn't its row by a binary search without a \
         jump. Of nested nodes one rule in three has a label, of a node chain every rule but one; a rule without one is looked up as label 0, which the \
         first row has.",
    );
    report.header(&[
        "plan",
        "n",
        "1 row",
        "256 rows",
        "256 uneven",
        "65,536 rows",
        "measure",
        "256 by measure",
        "256 uneven by measure",
    ]);
    let mut tightest = Held { took: 0.0, most: MOST };
    for (name, family) in FAMILIES {
        for n in SIZES {
            let mut draft = family(n).padded(n).in_format(Format::Wide);
            // A node weighs less than 2^16 grams.
            tours::start_below(&mut draft, 2f64.powi(47));
            tightest = tightest.tighter(row(report, name, &draft));
        }
    }
    tightest
}

/// The row of a plan; gives what came nearest to its bound.
fn row(report: &mut Report, name: &str, draft: &Draft) -> Held {
    let mut random = Random::new(1);
    let draft = draft.relabelled(|_| random.below(1 << 24) as u32);
    let measure = Desk::new(&draft).time(Operation::Measure, 8).library / 1000.0;
    let grams = |rows: &[Row]| {
        let mut desk = Desk::new(&draft);
        let grams = desk.weighs_by(rows);
        desk.time_library(Operation::Grams, 8, grams).library / 1000.0
    };
    let [one, few, many] = [1, FEW_ROWS, MANY_ROWS].map(|count| grams(&timing::rows(count)));
    let uneven = grams(&timing::uneven_rows(FEW_ROWS));
    report.row(name, draft.n(), &[one, few, uneven, many, measure, few / measure, uneven / measure].map(shown));
    let most = if draft.n() < 1024 { MOST_OF_FEW_RULES } else { MOST };
    [(few, most), (uneven, MOST_BY_UNEVEN)]
        .map(|(took, most)| Held { took: took / measure, most })
        .into_iter()
        .fold(Held { took: one / measure, most: MOST_BY_ONE }, Held::tighter)
}
