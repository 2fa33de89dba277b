//! The library beside the baseline, if one was given: letters by family, a call, a check and a measure.
use crate::report::Report;
use crate::timing::{Desk, ROUNDS, Times};
use crate::tours::{self, Tour};
use crate::{Family, LETTERS, archive};
use trials::call::{Implementation, Operation};
use trials::draft::Draft;
use trials::families::{self, Growth};

const SIZES: [usize; 2] = [64, 1024];
/// Calls of a round, by the number of rules.
const CALLS: usize = 16_384;
/// Passes over the table, which share the rounds, so that a busy moment of the machine falls on all rows alike.
const PASSES: usize = 5;

const TITLE: &str = "Beside a baseline";
const NONE: &str = "No baseline was given: `BASELINE` named no archive when the benchmark was built.";
const ABOUT: &str = "Library / baseline (the one by the other): nanoseconds a letter; microseconds of a walk without letters where these begin, of a \
check, and of a measure of the plan started where it has most nodes of those that measure takes. 'f then u' goes down for as long as f leads \
somewhere, at most 1,000 times, and up again, 'n then p' so along a row and back. 'Mixed' letters are f, l, n, p, u at random, those that lead somewhere. \
'u nowhere' is asked in the middle of the forest's own row, s at the last node. The ratios are those of one program: where the linker puts code counts \
too, most in short loops as those of 'u nowhere' and s.";

type Way = fn(&Draft) -> Tour;

const FAMILIES: [(&str, Family, Way); 9] = [
    ("spine comb, f then u", |n| families::left_spine(Growth::Comb, n), down_and_up),
    ("doubled row, n then p", |n| families::row_alone(Growth::Doubled, n), along_and_back),
    ("doubled spine, mixed", |n| families::spine(Growth::Doubled, n), mixed),
    ("zigzag row, n then p", zigzag, along_and_back),
    ("node chain, f then u", families::nodes, down_and_up),
    ("one-sided pairs, mixed", |n| families::rows(Growth::OneSided, n), mixed),
    ("Reh and Sieber's F_n, mixed", |n| families::paper((n - 14) / 2), mixed),
    ("zigzag row, u nowhere", zigzag, |draft| tours::up_from_the_middle(draft, LETTERS)),
    ("node chain's end, s", families::nodes, |draft| tours::staying_below(draft, LETTERS)),
];

fn zigzag(n: usize) -> Draft {
    families::row_alone(Growth::Zigzag, n)
}

fn down_and_up(draft: &Draft) -> Tour {
    tours::there_and_back(draft, b'f', b'u', LETTERS)
}

fn along_and_back(draft: &Draft) -> Tour {
    tours::there_and_back(draft, b'n', b'p', LETTERS)
}

fn mixed(draft: &Draft) -> Tour {
    tours::wandering(draft, LETTERS)
}

/// The table, or that there is none.
pub fn all(report: &mut Report) {
    let Some(mut baseline) = archive::baseline() else {
        return report.section(TITLE, NONE);
    };
    report.section(TITLE, ABOUT);
    report.header(&["family", "n", "a letter", "a call", "check", "measure"]);
    let mut cases: Vec<Case> = SIZES.into_iter().flat_map(|n| FAMILIES.map(|family| Case::new(family, n))).collect();
    for _ in 0..PASSES {
        cases.iter_mut().for_each(|case| case.pass(&mut *baseline));
    }
    for case in &cases {
        report.row(case.name, case.n, &case.columns().map(Times::shown));
    }
    let means = [0, 1, 2, 3].map(|column| mean(cases.iter().map(|case| case.columns()[column].ratio())));
    report.row("geometric mean of the ratios", "", &means.map(|mean| format!("{mean:.2}")));
}

/// A family's plan of some size with its letters.
struct Case {
    name: &'static str,
    n: usize,
    /// How many letters there are.
    letters: usize,
    /// Buffers for the walk with letters, for the walk without them and the check, and for the measure.
    desks: [Desk; 3],
    /// The best nanoseconds so far of these four calls.
    best: [Times; 4],
}

impl Case {
    fn new((name, family, way): (&'static str, Family, Way), n: usize) -> Case {
        let mut draft = family(n);
        let tour = way(&draft);
        let [mut walking, mut standing] = [Desk::new(&draft), Desk::new(&draft)];
        standing.go(&tour.begin);
        walking.go(&tour.begin);
        walking.letters(&tour.letters);
        tours::start_below(&mut draft, u64::MAX as f64 / 2.0);
        let mut desks = [walking, standing, Desk::new(&draft)];
        desks.iter_mut().for_each(|desk| desk.rounds = ROUNDS / PASSES);
        Case { name, n: draft.n(), letters: tour.letters.len(), desks, best: [Times::WORST; 4] }
    }

    /// Times each call once more.
    fn pass(&mut self, baseline: &mut dyn Implementation) {
        let calls = CALLS / self.n;
        let [walking, standing, measuring] = &mut self.desks;
        let times = [
            walking.time_beside(baseline, Operation::Walk, 1),
            standing.time_beside(baseline, Operation::Walk, calls),
            standing.time_beside(baseline, Operation::Check, calls),
            measuring.time_beside(baseline, Operation::Measure, calls),
        ];
        for (best, times) in self.best.iter_mut().zip(times) {
            *best = best.min(times);
        }
    }

    /// A letter's nanoseconds, and the microseconds of a call without letters, a check and a measure.
    fn columns(&self) -> [Times; 4] {
        let [walk, call, check, measure] = self.best;
        [(walk - call) / self.letters as f64, call / 1000.0, check / 1000.0, measure / 1000.0]
    }
}

/// The geometric mean.
pub fn mean(ratios: impl ExactSizeIterator<Item = f64>) -> f64 {
    let count = ratios.len() as f64;
    (ratios.map(f64::ln).sum::<f64>() / count).exp()
}
