//! Measures the proved library against the reference by rules, in one run and on the same buffers; prints the tables and writes them to
//! docs/bench.md, with a plot in docs/bench.svg. `bench check` only prints the times of check by the order of the rules, `bench compare` those
//! of compare, `bench rows` those of the class of a label, `bench copy` those of copy, `bench grams` those of grams, `bench reason` those of the reason
//! of a letter, `bench baseline` those beside the archive that `BASELINE` named when this was built. It ends in an error where a copy takes longer than
//! five measures of the same plan, grams longer than their bounds (grams.rs): by 256 rows of as many labels each two measures, and more of few rules
//! or by uneven rows, or the reason of a letter in the mean more than a tenth longer than a walk of it.
mod archive;
mod baseline;
mod compares;
mod copies;
mod grams;
mod plot;
mod reasons;
mod report;
mod setting;
mod timing;
mod tours;

use reference::{Format, Why};
use report::Report;
use std::path::PathBuf;
use std::{fs, io};
use timing::{Desk, Times};
use tours::Tour;
use trials::call::Operation;
use trials::cycles;
use trials::draft::Draft;
use trials::families::{self, Growth};
use trials::random::Random;

const SIZES: [usize; 4] = [8, 64, 256, 1024];
/// Those of a letter and of a call, up to the most rules.
const SIZES_OF_LETTERS: [usize; 5] = [8, 64, 256, 1024, 16_384];
const SIZES_OF_CALLS: [usize; 6] = [8, 64, 256, 1024, 4096, 16_384];
const LETTERS: usize = 10_000;

type Family = fn(usize) -> Draft;

const FAMILIES: [(&str, Family); 4] = [
    ("doubled rows", |n| families::rows(Growth::Doubled, n)),
    ("doubled spines", |n| families::spine(Growth::Doubled, n)),
    ("combs", |n| families::rows(Growth::Comb, n)),
    ("zigzags", |n| families::rows(Growth::Zigzag, n)),
];

fn main() -> io::Result<()> {
    let mut report = Report::new();
    if let Some(part) = std::env::args().nth(1) {
        match part.as_str() {
            "check" => orders(&mut report),
            "compare" => compares::all(&mut report),
            "rows" => classes(&mut report),
            "baseline" => baseline::all(&mut report),
            "copy" => {
                let most = copies::all(&mut report);
                print!("{}", report.text());
                return within("a copy", most, copies::MOST_MEASURES, "measures of the same plan");
            }
            "grams" => {
                let held = grams::all(&mut report);
                print!("{}", report.text());
                return within("grams", held.took, held.most, "measures of the same plan");
            }
            "reason" => {
                let walks = reasons::all(&mut report);
                print!("{}", report.text());
                return within("a reason", walks, reasons::MOST_WALKS, "walks of one letter");
            }
            _ => return Err(io::Error::other("bench [check | compare | rows | copy | grams | reason | baseline]")),
        }
        print!("{}", report.text());
        return Ok(());
    }
    letters(&mut report);
    nowhere(&mut report);
    let by_nodes = nodes(&mut report);
    calls(&mut report);
    orders(&mut report);
    formats(&mut report);
    texts(&mut report);
    compares::all(&mut report);
    classes(&mut report);
    let most_of_copies = copies::all(&mut report);
    let of_grams = grams::all(&mut report);
    let walks = reasons::all(&mut report);
    baseline::all(&mut report);
    print!("{}", report.text());
    let docs: PathBuf = [env!("CARGO_MANIFEST_DIR"), "..", "..", "docs"].iter().collect();
    fs::write(docs.join("bench.svg"), plot::by_nodes(&by_nodes))?;
    fs::write(docs.join("bench.md"), report.text())?;
    within("a copy", most_of_copies, copies::MOST_MEASURES, "measures of the same plan")?;
    within("grams", of_grams.took, of_grams.most, "measures of the same plan")?;
    within("a reason", walks, reasons::MOST_WALKS, "walks of one letter")
}

/// An error where something took more of other calls than it may.
fn within(what: &str, took: f64, most: f64, calls: &str) -> io::Result<()> {
    if took <= most {
        return Ok(());
    }
    Err(io::Error::other(format!("{what} took {took:.2} {calls}, more than {most}")))
}

/// A letter's cost on a tour: a call with its letters less one without.
fn cost(draft: &Draft, tour: &Tour) -> Times {
    let mut desk = Desk::new(draft);
    desk.go(&tour.begin);
    let without = desk.time(Operation::Walk, 8);
    desk.letters(&tour.letters);
    (desk.time(Operation::Walk, 1) - without) / tour.letters.len() as f64
}

fn letters(report: &mut Report) {
    report.section(
        "A letter, by family and number of rules",
        "Nanoseconds a letter: library / reference (the one by the other). A column's laps begin with a or z and repeat the letter for as long as it leads \
         somewhere; those of u go down by f first. A lap's letters count all.",
    );
    report.header(&["family", "n", "f", "l", "n", "p", "u"]);
    for (name, family) in FAMILIES {
        for n in SIZES_OF_LETTERS {
            let draft = family(n);
            let costs = b"flnpu".map(|letter| cost(&draft, &tours::repeating(&draft, letter, LETTERS)).shown());
            report.row(name, n, &costs);
        }
    }
}

fn nowhere(report: &mut Report) {
    report.section(
        "A letter that leads nowhere",
        "Nanoseconds a letter, as above, for u from the middle of the forest's own row, where in zigzags the place has most cells.",
    );
    report.header(&["family", "n", "u"]);
    for (name, family) in FAMILIES {
        for n in SIZES {
            let draft = family(n);
            report.row(name, n, &[cost(&draft, &tours::up_from_the_middle(&draft, LETTERS)).shown()]);
        }
    }
}

/// The cost of a letter by the number of nodes, on one plan with one start after the other.
fn nodes(report: &mut Report) -> Vec<(String, Times)> {
    report.section(
        "A letter, by the number of nodes",
        "Nanoseconds a letter, as above, on one plan of 1,024 rules (rows doubled eight times, a node over each, and so on) whose start \
         rule decides how large the forest is. Letters f, l, n, p, u at random, those that lead somewhere. ![plot](bench.svg)",
    );
    report.header(&["nodes", "start", "f l n p u"]);
    let mut draft = families::towers(1024);
    let starts = tours::starts(&draft);
    let mut costs: Vec<(String, Times)> = starts.iter().map(|(name, _)| (name.clone(), Times::WORST)).collect();
    // Several passes, so that a busy moment of the machine falls on all points alike.
    for _ in 0..5 {
        for ((_, start), (_, best)) in starts.iter().zip(&mut costs) {
            draft.start = *start;
            *best = best.min(cost(&draft, &tours::wandering(&draft, LETTERS)));
        }
    }
    for ((name, start), (_, times)) in starts.iter().zip(&costs) {
        report.row(name, *start, &[times.shown()]);
    }
    costs
}

fn calls(report: &mut Report) {
    report.section(
        "A call",
        "Microseconds a call: library / reference (the one by the other). The walk has no letters and stands above the forest. Up to 1,024 rules a \
         call clears 64 bytes of work a rule, above that 80.",
    );
    report.header(&["family", "n", "walk without letters", "check", "measure"]);
    for (name, family) in FAMILIES {
        for n in SIZES_OF_CALLS {
            let mut draft = family(n);
            let walk = Desk::new(&draft).time(Operation::Walk, 8) / 1000.0;
            let check = Desk::new(&draft).time(Operation::Check, 64) / 1000.0;
            tours::start_below(&mut draft, u64::MAX as f64 / 2.0);
            let measure = Desk::new(&draft).time(Operation::Measure, 8) / 1000.0;
            report.row(name, n, &[walk.shown(), check.shown(), measure.shown()]);
        }
    }
}

/// What a call costs by the order of the rules, and what a refusal with 12 does.
fn orders(report: &mut Report) {
    report.section(
        "Rules in any order",
        "Microseconds a call, as above, by the order of the rules. Those of doubled rows and of combs name lower rules only; then the same backwards, \
         naming higher ones only, and in any order. The others are refused with 12: a ring of all rules, whose lowest reaches itself, and a \
         chain into a last rule that alone does, so that a search from each rule in turn goes through all behind it. Of these at 16,384 rules a \
         figure is the best of 3 rounds.",
    );
    report.header(&["rules", "n", "check", "walk without letters", "measure"]);
    for n in [1024, 16_384] {
        let (backwards, any): (Vec<u16>, Vec<u16>) = ((0..n as u16).rev().collect(), Random::new(1).order(n));
        for (name, growth) in [("doubled rows", Growth::Doubled), ("combs", Growth::Comb)] {
            let mut draft = families::rows(growth, n);
            tours::start_below(&mut draft, u64::MAX as f64 / 2.0);
            for (order, draft) in [
                ("lower only", draft.clone()),
                ("backwards", draft.renumbered(&backwards)),
                ("any order", draft.renumbered(&any)),
            ] {
                let times = [(Operation::Check, 64), (Operation::Walk, 8), (Operation::Measure, 8)];
                let times = times.map(|(operation, times)| (Desk::new(&draft).time(operation, times) / 1000.0).shown());
                report.row(&format!("{name}, {order}"), n, &times);
            }
        }
        for (name, draft, lowest) in [
            ("a ring of all", cycles::ring(n), 0),
            ("a ring of all, any order", cycles::ring(n).renumbered(&any), 0),
            ("a chain into a loop", cycles::chain_into_loop(n), n - 1),
            ("a chain into a loop, backwards", cycles::chain_into_loop(n).renumbered(&backwards), 0),
            ("a chain into a loop, any order", cycles::chain_into_loop(n).renumbered(&any), any[n - 1].into()),
        ] {
            let mut desk = Desk::refused(&draft, Why::Cycle.at(lowest));
            if n > 1024 {
                desk.rounds = 3;
            }
            let check = desk.time(Operation::Check, 1) / 1000.0;
            report.row(name, n, &[check.shown(), "–".to_string(), "–".to_string()]);
        }
    }
}

/// What a call costs by the plan's format.
fn formats(report: &mut Report) {
    const N: usize = 1024;
    report.section(
        "Wide plans",
        "Microseconds a call, as above, on the families' plans of 1,024 rules, each as a narrow plan and as a wide one of the same labels.",
    );
    report.header(&["family", "n", "check", "walk without letters", "measure"]);
    for (name, family) in FAMILIES {
        let mut draft = family(N);
        tours::start_below(&mut draft, u64::MAX as f64 / 2.0);
        for (format, draft) in in_both(draft) {
            let times = [(Operation::Check, 64), (Operation::Walk, 8), (Operation::Measure, 8)];
            let times = times.map(|(operation, times)| (Desk::new(&draft).time(operation, times) / 1000.0).shown());
            report.row(&format!("{name}, {format}"), N, &times);
        }
    }
}

/// The same rules in either format.
fn in_both(draft: Draft) -> [(&'static str, Draft); 2] {
    [("narrow", draft.clone()), ("wide", draft.in_format(Format::Wide))]
}

fn texts(report: &mut Report) {
    report.section(
        "Spread",
        "Nanoseconds a byte of output: library / reference (the one by the other). The forest is the family's largest of at most 50,000 nodes; \
         a node is three bytes in a narrow plan, five in a wide one.",
    );
    report.header(&["family", "bytes", "spread"]);
    for (name, family) in FAMILIES {
        let (draft, nodes) = tours::largest_below(family, 50_000.0);
        for (format, draft) in in_both(draft) {
            let bytes = draft.format.node() * nodes as usize;
            let mut desk = Desk::new(&draft);
            desk.room(bytes);
            let spread = desk.time(Operation::Spread, 1) / bytes as f64;
            report.row(&format!("{name}, {format}"), bytes, &[spread.shown()]);
        }
    }
}

/// The class of a label, by the number of rows.
fn classes(report: &mut Report) {
    report.section(
        "The class of a label",
        "Microseconds a call, as above, on sound lists of rows of as many labels each, for a label of the last row. The list is checked in every \
         call; the reference is one pass over the rows too, and the standard library's binary search.",
    );
    report.header(&["list", "rows", "class"]);
    for rows in [10, 1_000, 100_000] {
        report.row("sound", rows, &[(timing::class(rows) / 1000.0).shown()]);
    }
}
