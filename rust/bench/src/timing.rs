//! The clock: two implementations in turn on the same buffers, the best of many rounds.
use reference::copy::{Client, copy_bytes};
use reference::rows::{LAST_LABEL, Row, in_order};
use reference::{NOWHERE, Reason, Refused, answers};
use std::collections::BTreeSet;
use std::hint::black_box;
use std::ops::{Div, Sub};
use std::time::Instant;
use trials::call::{self, ByRules, Call, Implementation, Operation, Outcome, Slices, Values};
use trials::draft::Draft;
use trials::library::Library;
use trials::random::Random;

pub const ROUNDS: usize = 100;

/// Nanoseconds of the library, and of what it is timed beside: the reference, or the baseline.
#[derive(Clone, Copy)]
pub struct Times {
    pub library: f64,
    pub other: f64,
}

impl Times {
    pub const WORST: Times = Times { library: f64::INFINITY, other: f64::INFINITY };

    pub fn min(self, other: Times) -> Times {
        Times { library: self.library.min(other.library), other: self.other.min(other.other) }
    }

    /// The one by the other.
    pub fn ratio(self) -> f64 {
        self.library / self.other
    }

    pub fn shown(self) -> String {
        let Times { library, other } = self;
        if other.is_infinite() {
            let digits = if library < 10.0 { 2 } else { 1 };
            return format!("{library:.digits$} / –");
        }
        let digits = if library.max(other) < 10.0 { 2 } else { 1 };
        format!("{library:.digits$} / {other:.digits$} ({:.2})", self.ratio())
    }
}

impl Sub for Times {
    type Output = Times;
    fn sub(self, other: Times) -> Times {
        Times { library: self.library - other.library, other: self.other - other.other }
    }
}

impl Div<f64> for Times {
    type Output = Times;
    fn div(self, by: f64) -> Times {
        Times { library: self.library / by, other: self.other / by }
    }
}

/// The buffers that a call is lent.
pub struct Desk {
    call: Call,
    /// What the cursor holds before each round.
    place: Vec<u8>,
    /// What the plan is refused with; nothing if it is accepted.
    refused: Option<Refused>,
    /// Of how many rounds a time is the best.
    pub rounds: usize,
}

impl Desk {
    /// Buffers just large enough, written once; the place is above the forest.
    pub fn new(draft: &Draft) -> Desk {
        let call = Call::new(Operation::Walk, draft.plan(), draft.n());
        Desk { place: call.cursor.clone(), call, refused: None, rounds: ROUNDS }
    }

    /// The same for a plan that is refused.
    pub fn refused(draft: &Draft, refused: Refused) -> Desk {
        Desk { refused: Some(refused), ..Desk::new(draft) }
    }

    /// Two places to compare, each by letters from above the forest.
    pub fn between(draft: &Draft, first: &[u8], second: &[u8]) -> Desk {
        let mut desk = Desk::new(draft);
        desk.go(second);
        desk.call.second = desk.place.clone();
        desk.go(first);
        desk
    }

    pub fn budget(&mut self, budget: u32) {
        self.call.budget = budget;
    }

    /// Goes to a place by letters.
    pub fn go(&mut self, letters: &[u8]) {
        self.letters(letters);
        self.run(&mut ByRules, Operation::Walk).expect("a walk in a valid plan");
        self.place.copy_from_slice(&self.call.cursor);
        self.letters(&[]);
    }

    pub fn letters(&mut self, letters: &[u8]) {
        self.call = self.call.clone().with_letters(letters);
    }

    /// Gives the output so many bytes.
    pub fn room(&mut self, bytes: usize) {
        self.call.out = vec![1; bytes];
    }

    /// Makes copies for a client; gives the length of one.
    pub fn copies_for(&mut self, client: &Client, n: usize) -> Values {
        self.call = self.call.clone().with_client(client);
        self.room(copy_bytes(n));
        self.run(&mut Library, Operation::Copy).expect("a copy of a valid plan")
    }

    /// Weighs by a list; gives the grams.
    pub fn weighs_by(&mut self, rows: &[Row]) -> Values {
        self.call = self.call.clone().with_rows(rows);
        self.run(&mut ByRules, Operation::Grams).expect("the grams of a valid plan")
    }

    fn run(&mut self, implementation: &mut dyn Implementation, operation: Operation) -> Outcome {
        let call = &mut self.call;
        let lent = Slices {
            plan: &call.plan,
            record_length: call.record_length,
            start: call.start,
            work: &mut call.work,
            cursor: &mut call.cursor,
            letters: &call.letters,
            answers: &mut call.answers,
            out: &mut call.out,
            second: &call.second,
            budget: call.budget,
            letter: call.letter,
            rows: &call.rows,
            class: call.class,
        };
        let outcome = implementation.run(operation, lent).expect("it takes on every call");
        assert_eq!(outcome.err(), self.refused, "what is measured is accepted, or refused as it is to be");
        outcome
    }

    /// The time of one call: the best of many rounds of `times` calls, library and reference by turns.
    pub fn time(&mut self, operation: Operation, times: usize) -> Times {
        self.time_beside(&mut ByRules, operation, times)
    }

    /// The same with another implementation than the reference.
    pub fn time_beside(&mut self, beside: &mut dyn Implementation, operation: Operation, times: usize) -> Times {
        let mut best = Times::WORST;
        for _ in 0..self.rounds {
            let (library, outcome) = self.round(&mut Library, operation, times);
            let (answers, cursor) = (self.call.answers.clone(), self.call.cursor.clone());
            let (other, expected) = self.round(beside, operation, times);
            let same = answers == self.call.answers && cursor == self.call.cursor && outcome == expected;
            assert!(same, "both do the same");
            best = best.min(Times { library, other });
        }
        best
    }

    /// The same by the library alone, where the reference would take too long; what comes of it is given.
    pub fn time_library(&mut self, operation: Operation, times: usize, expected: Values) -> Times {
        let mut best = Times::WORST;
        for _ in 0..self.rounds {
            let (library, outcome) = self.round(&mut Library, operation, times);
            assert_eq!(outcome, Ok(expected), "what is known of it");
            best = best.min(Times { library, ..Times::WORST });
        }
        best
    }

    /// The library's time of the reason of a letter and, as the other, of a walk of that letter: the best of many rounds, by turns. One call a round, since
    /// a walk moves.
    pub fn time_reason(&mut self, letter: u8) -> Times {
        self.letters(&[letter]);
        self.call.letter = letter;
        let mut best = Times::WORST;
        for _ in 0..8 * self.rounds {
            let (library, why) = self.round(&mut Library, Operation::Reason, 1);
            let (other, _) = self.round(&mut Library, Operation::Walk, 1);
            let moves = answers::get(&self.call.answers, 0) != NOWHERE;
            assert_eq!(why == Ok(Values::Reason(Reason::Moves)), moves, "0 exactly where the walk doesn't say nowhere");
            best = best.min(Times { library, other });
        }
        best
    }

    /// The time of one of `times` calls, and what came of the last.
    fn round(&mut self, implementation: &mut dyn Implementation, operation: Operation, times: usize) -> (f64, Outcome) {
        self.call.cursor.copy_from_slice(&self.place);
        let began = Instant::now();
        let mut last = self.run(implementation, operation);
        for _ in 1..times {
            last = self.run(implementation, operation);
        }
        (began.elapsed().as_nanos() as f64 / times as f64, last)
    }
}

/// A sound list of rows of as many labels each, but for the last, which has the rest.
pub fn rows(count: usize) -> Vec<Row> {
    let width = (LAST_LABEL + 1) / count as u32;
    let highest = |i: u32| if i as usize + 1 == count { LAST_LABEL } else { width * (i + 1) - 1 };
    let row = |i: u32| Row { lowest: width * i, highest: highest(i), class: (i % 4) as u16, grams: i as u16 };
    (0..count as u32).map(row).collect()
}

/// A sound list of so many rows that end at labels at random.
pub fn uneven_rows(count: usize) -> Vec<Row> {
    let mut random = Random::new(2);
    let mut ends = BTreeSet::from([LAST_LABEL]);
    while ends.len() < count {
        ends.insert(random.below(LAST_LABEL as usize) as u32);
    }
    let lowest = std::iter::once(0).chain(ends.iter().map(|highest| highest + 1));
    let row = |(i, (lowest, highest)): (usize, (u32, &u32))| Row {
        lowest,
        highest: *highest,
        class: (i % 4) as u16,
        grams: i as u16,
    };
    lowest.zip(&ends).enumerate().map(row).collect()
}

/// The time of one call for the class of the last label, on a sound list of so many rows: the best of many rounds, by turns.
pub fn class(count: usize) -> Times {
    let rows = rows(count);
    let lent = call::lent(&rows);
    let expected = Some(rows[count - 1].class);
    let times = 100_000 / count + 1;
    let mut best = Times::WORST;
    for _ in 0..ROUNDS {
        let library = timed(times, || mealplan::class(black_box(&lent), LAST_LABEL).ok() == expected);
        let other = timed(times, || in_order(black_box(&rows), LAST_LABEL).ok() == expected);
        best = best.min(Times { library, other });
    }
    best
}

/// Nanoseconds of one of so many calls, each of which must come out right.
fn timed(times: usize, call: impl Fn() -> bool) -> f64 {
    let began = Instant::now();
    let right = (0..times).all(|_| call());
    let spent = began.elapsed().as_nanos() as f64 / times as f64;
    assert!(right, "what is measured comes out right");
    spent
}
