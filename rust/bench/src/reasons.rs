//! What the reason of a letter costs, beside a walk of that letter from the same place.
use crate::baseline::mean;
use crate::report::{Report, shown};
use crate::timing::Desk;
use crate::{FAMILIES, tours};

const SIZES: [usize; 3] = [64, 1024, 16_384];
/// As many walks of one letter a reason may take at most, in the mean.
pub const MOST_WALKS: f64 = 1.1;

/// The table; gives how many walks of one letter a reason took in the mean.
pub fn all(report: &mut Report) -> f64 {
    report.section(
        "The reason of a letter",
        "Microseconds a call of the library: reason / a walk of that one letter, by turns (the one by the other), from the middle of the forest's own row, \
         where in zigzags the place has most cells. Both read the plan anew, and that is nearly all of the time; behind it the reason of u looks down to \
         the opening of its row, where a walk makes links to all openings, and a walk stores the place and clears what is behind it.",
    );
    report.header(&["family", "n", "f", "n", "p", "u"]);
    let mut ratios: [Vec<f64>; 4] = Default::default();
    for (name, family) in FAMILIES {
        for n in SIZES {
            let draft = family(n);
            let mut desk = Desk::new(&draft);
            desk.go(&tours::up_from_the_middle(&draft, 1).begin);
            let times = b"fnpu".map(|letter| desk.time_reason(letter) / 1000.0);
            ratios.iter_mut().zip(times).for_each(|(ratios, times)| ratios.push(times.ratio()));
            report.row(name, n, &times.map(|times| times.shown()));
        }
    }
    let means = ratios.map(|ratios| mean(ratios.into_iter()));
    report.row("geometric mean of the ratios", "", &means.map(shown));
    mean(means.into_iter())
}
