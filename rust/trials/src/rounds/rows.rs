//! Lists of label rows (document 02, Note 5): sound ones, asked for the labels at the ends of their rows, and the same with a fault at every
//! row, of every kind, and with several at once. The library by its safe function and by its C function, against both references. Whatever the
//! rows weigh (Note 8), the class and the refusals are the same.
use crate::call;
use crate::random::Random;
use crate::trial::Trial;
use mealplan::c;
use reference::rows::{LAST_CLASS, LAST_LABEL, Row, by_counting, in_order};
use reference::{Refused, Why};

/// What the tally names these calls by.
#[derive(Clone, Copy, Debug)]
struct Class;

/// The most rows of a list that is also counted.
const MOST_COUNTED: usize = 300;
const SENTINEL: u16 = 0xBEEF;

/// A fault of one row, or behind the last.
pub(super) type Fault = fn(&mut Vec<Row>, usize, &mut Random);

/// Each way to a fault, with the refusal that it alone comes to. The row is there; a gap or an overlap needs one before it.
pub(super) const FAULTS: [(&str, Why, Fault); 9] = [
    ("lowest above highest", Why::Row, |rows, i, random| {
        let row = &mut rows[i];
        row.lowest = row.highest + 1 + random.below(9) as u32;
    }),
    ("highest above the last label", Why::Row, |rows, i, random| {
        rows[i].highest = random.pick(&[LAST_LABEL + 1, LAST_LABEL + 2, u32::MAX]);
    }),
    ("class above 3", Why::Row, |rows, i, random| rows[i].class = random.pick(&[4, 5, 255, 256, 65_535])),
    ("a row left out", Why::Gap, |rows, i, _| {
        rows.remove(i);
    }),
    ("begins a label late", Why::Gap, |rows, i, random| {
        let row = &mut rows[i];
        if row.lowest < row.highest {
            row.lowest += 1 + random.below((row.highest - row.lowest) as usize) as u32;
        } else {
            rows.remove(i);
        }
    }),
    ("a row twice", Why::Overlap, |rows, i, _| {
        let row = rows[i];
        rows.insert(i + 1, row);
    }),
    ("begins a label early", Why::Overlap, |rows, i, random| {
        let lowest = rows[i].lowest;
        if lowest > 0 {
            rows[i].lowest -= 1 + random.below(lowest.min(3) as usize) as u32;
        } else {
            let row = rows[i];
            rows.insert(i + 1, row);
        }
    }),
    ("a row below all", Why::Overlap, |rows, i, _| {
        rows.insert(i + 1, Row { lowest: 0, highest: 0, class: 0, grams: 0 })
    }),
    ("ends a label late", Why::Overlap, |rows, i, _| {
        if rows[i].highest < LAST_LABEL {
            rows[i].highest += 1;
        } else {
            let row = rows[i];
            rows.insert(i + 1, row);
        }
    }),
];

pub fn agree(trial: &mut Trial, lists: usize) {
    for round in 0..lists {
        let count = match round % 4 {
            0 => trial.random.between(1, 4),
            1 => trial.random.between(5, 60),
            2 => trial.random.between(61, MOST_COUNTED),
            _ => trial.random.between(MOST_COUNTED + 1, 3_000),
        };
        let rows = sound(&mut trial.random, count);
        let label = any_label(&mut trial.random, &rows);
        let _ = ask(trial, &[], label, Some(("no rows", Why::Gap.here())));
        labels(trial, &rows);
        for (way, why, fault) in FAULTS {
            let i = any_row(&mut trial.random, count);
            let mut damaged = rows.clone();
            fault(&mut damaged, i, &mut trial.random);
            let label = any_label(&mut trial.random, &rows);
            let at = first_fault(&damaged);
            assert!(at == i || at == i + 1, "a fault in row {i} is told there or behind it");
            let _ = ask(trial, &damaged, label, Some((way, why.at(at))));
        }
        several(trial, &rows);
    }
    trial.tally.lists += lists as u64;
}

/// The place of the first fault: the first row that isn't valid or doesn't begin where the one before it ends.
pub(super) fn first_fault(rows: &[Row]) -> usize {
    let begins = |i: usize| if i == 0 { 0 } else { rows[i - 1].highest.wrapping_add(1) };
    (0..rows.len()).find(|i| rows[*i].invalid() || rows[*i].lowest != begins(*i)).unwrap_or(rows.len())
}

/// A sound list of so many rows, cut anywhere, with rows of one label among them.
pub(super) fn sound(random: &mut Random, count: usize) -> Vec<Row> {
    let mut cuts = vec![0];
    while cuts.len() < count {
        let near = random.pick(&cuts);
        let cut =
            if random.once_in(2) { random.below(LAST_LABEL as usize + 1) as u32 } else { (near + 1).min(LAST_LABEL) };
        cuts.push(cut);
        cuts.sort_unstable();
        cuts.dedup();
    }
    let ends = cuts[1..].iter().copied().chain([LAST_LABEL + 1]);
    let row = |(lowest, end): (&u32, u32)| Row {
        lowest: *lowest,
        highest: end - 1,
        class: random.below(4) as u16,
        grams: any_grams(random),
    };
    cuts.iter().zip(ends).map(row).collect()
}

/// Grams of an entry: none, one, the most, few or any.
pub(super) fn any_grams(random: &mut Random) -> u16 {
    match random.below(6) {
        0 => 0,
        1 => random.pick(&[1, 65_535]),
        2 | 3 => random.below(500) as u16,
        _ => random.word(),
    }
}

/// A row, the first and the last as often as one between.
fn any_row(random: &mut Random, count: usize) -> usize {
    match random.below(3) {
        0 => 0,
        1 => count - 1,
        _ => random.below(count),
    }
}

/// A label at an end of a row, anywhere, or above the last.
fn any_label(random: &mut Random, rows: &[Row]) -> u32 {
    let row = random.pick(rows);
    match random.below(6) {
        0 => row.lowest,
        1 => row.highest,
        2 => random.pick(&[0, LAST_LABEL]),
        3 => random.pick(&[LAST_LABEL + 1, u32::MAX]),
        _ => random.below(LAST_LABEL as usize + 1) as u32,
    }
}

/// The labels at the ends of some rows, among them the first and the last, and labels above all.
fn labels(trial: &mut Trial, rows: &[Row]) {
    for i in [0, rows.len() - 1, any_row(&mut trial.random, rows.len()), any_row(&mut trial.random, rows.len())] {
        for label in [rows[i].lowest, rows[i].highest] {
            let class = ask(trial, rows, label, None).expect("a label of a sound list has a class");
            assert_eq!(class, rows[i].class, "the class is that of the row that covers the label");
            trial.tally.classes[usize::from(class)] += 1;
        }
    }
    for label in [LAST_LABEL + 1, u32::MAX] {
        let _ = ask(trial, rows, label, Some(("a label above the last", Why::Record.here())));
    }
}

/// Several faults at once.
fn several(trial: &mut Trial, rows: &[Row]) {
    let mut damaged = rows.to_vec();
    for _ in 0..trial.random.between(2, 5) {
        let (_, _, fault) = trial.random.pick(&FAULTS);
        let i = any_row(&mut trial.random, damaged.len());
        if damaged[i].highest < LAST_LABEL {
            fault(&mut damaged, i, &mut trial.random);
        }
        if damaged.is_empty() {
            break;
        }
    }
    let label = any_label(&mut trial.random, rows);
    let _ = ask(trial, &damaged, label, None);
}

/// The class of a label by every implementation, which must agree, and which must refuse it so, if it says so.
fn ask(trial: &mut Trial, rows: &[Row], label: u32, refused: Option<(&str, Refused)>) -> Result<u16, Refused> {
    let outcome = in_order(rows, label);
    if rows.len() <= MOST_COUNTED {
        assert_eq!(by_counting(rows, label), outcome, "{label} by counting (left) and in order (right): {rows:?}");
    }
    let lent = call::lent(rows);
    let before = lent.clone();
    let came = mealplan::class(&lent, label).map_err(|no| Refused { number: no.number, position: no.position });
    assert_eq!(came, outcome, "{label} by the library (left) and the reference (right): {rows:?}");
    let (mut class, mut position) = (SENTINEL, u64::MAX);
    // SAFETY: the slice is valid for its length, and the numbers are distinct locals.
    let number = unsafe { c::plan_class(lent.as_ptr(), lent.len(), label, &mut class, &mut position) };
    match outcome {
        Ok(expected) => assert_eq!((number, class, position), (0, expected, 0), "{label} by the C interface: {rows:?}"),
        Err(no) => {
            assert_eq!(
                (number, class, position),
                (no.number, SENTINEL, no.position),
                "{label} by the C interface: {rows:?}"
            )
        }
    }
    assert!(lent == before, "the rows are only read");
    trial.tally.asked += 1;
    if let Some((way, refused)) = refused {
        assert_eq!(outcome, Err(refused), "{way}: {rows:?}");
        trial.tally.way(Class, refused.number, way, true);
    }
    assert!(outcome.is_err() || outcome.is_ok_and(|class| class <= LAST_CLASS));
    outcome
}
