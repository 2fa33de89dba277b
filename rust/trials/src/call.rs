//! A call with the slices that it is lent, and what an implementation makes of it.
use crate::draft::Draft;
use mealplan::LabelRow;
use reference::copy::{Client, copy_bytes};
use reference::rows::{LAST_LABEL, Row};
use reference::unfolded::{Unfolded, forest::Forest};
use reference::{Checked, Compared, Format, Measured, Reason, Refused, Unsealed, answers, rules, words};
use reference::{plan, plan::cursor_bytes, plan::work_bytes};

#[derive(Clone, Copy, PartialEq, Eq, PartialOrd, Ord, Debug)]
pub enum Operation {
    Check,
    Seal,
    Unseal,
    Measure,
    Spread,
    Walk,
    Compare,
    Copy,
    Grams,
    Reason,
}

impl Operation {
    pub const ALL: [Operation; 10] = [
        Operation::Check,
        Operation::Seal,
        Operation::Unseal,
        Operation::Measure,
        Operation::Spread,
        Operation::Walk,
        Operation::Compare,
        Operation::Copy,
        Operation::Grams,
        Operation::Reason,
    ];

    /// Those that are lent work.
    pub const WORKING: [Operation; 7] = [
        Operation::Measure,
        Operation::Spread,
        Operation::Walk,
        Operation::Compare,
        Operation::Copy,
        Operation::Grams,
        Operation::Reason,
    ];

    pub fn works(self) -> bool {
        Operation::WORKING.contains(&self)
    }

    /// Whether the operation is lent a cursor; compare is lent two.
    pub fn has_place(self) -> bool {
        matches!(self, Operation::Walk | Operation::Compare | Operation::Reason)
    }

    /// Whether the operation is lent a list of rows.
    pub fn has_list(self) -> bool {
        matches!(self, Operation::Copy | Operation::Grams)
    }
}

/// A call: the operation and what every slice holds before it. Slices that the operation isn't lent are empty.
#[derive(Clone)]
pub struct Call {
    pub operation: Operation,
    /// The plan; for seal the rule words.
    pub plan: Vec<u8>,
    /// Seal's record length and start.
    pub record_length: u16,
    pub start: u16,
    pub work: Vec<u8>,
    /// The cursor of walk and of reason, or compare's first.
    pub cursor: Vec<u8>,
    pub letters: Vec<u8>,
    pub answers: Vec<u8>,
    pub out: Vec<u8>,
    /// Compare's second cursor, and its budget.
    pub second: Vec<u8>,
    pub budget: u32,
    /// Reason's letter, which may be none.
    pub letter: u8,
    /// The list of rows of copy and of grams, and the class of copy's client.
    pub rows: Vec<LabelRow>,
    pub class: u16,
}

/// The row by which each label is of class 0 and weighs one gram.
pub const EACH: Row = Row { lowest: 0, highest: LAST_LABEL, class: 0, grams: 1 };

impl Call {
    /// A call on a plan of n rules with as much work, cursor and answers as it needs; a copy with the output that it needs, for a client who sees
    /// all; grams by one gram for each node; the reason of s.
    pub fn new(operation: Operation, plan: Vec<u8>, n: usize) -> Call {
        let mut call = Call {
            operation,
            plan,
            record_length: Format::Narrow.record_length(),
            start: 0,
            work: Vec::new(),
            cursor: Vec::new(),
            letters: Vec::new(),
            answers: Vec::new(),
            out: Vec::new(),
            second: Vec::new(),
            budget: 0,
            letter: b's',
            rows: Vec::new(),
            class: 0,
        };
        if operation.works() {
            call.work = vec![0x5A; work_bytes(n)];
        }
        if operation.has_place() {
            call.cursor = vec![0; cursor_bytes(n)];
        }
        if operation == Operation::Compare {
            call.second = vec![0; cursor_bytes(n)];
        }
        if operation == Operation::Copy {
            call.out = vec![0xA5; copy_bytes(n)];
        }
        if operation.has_list() {
            call.rows = lent(&[EACH]);
        }
        call
    }

    /// The copy of a plan for a client.
    pub fn copy(draft: &Draft, client: &Client) -> Call {
        Call::new(Operation::Copy, draft.plan(), draft.n()).with_client(client)
    }

    /// The same call for another client.
    pub fn with_client(mut self, client: &Client) -> Call {
        self.class = client.class;
        self.with_rows(&client.rows)
    }

    /// The same call by another list.
    pub fn with_rows(mut self, rows: &[Row]) -> Call {
        self.rows = lent(rows);
        self
    }

    /// Whom a copy is for.
    pub fn client(&self) -> Client {
        Client { rows: taken(&self.rows), class: self.class }
    }

    /// The same call with a cursor whose word 1 of cell 0 is this one.
    pub fn with_word(mut self, word: u16) -> Call {
        words::put(&mut self.cursor, 1, word);
        self
    }

    /// The comparison of two stored places of a plan.
    pub fn compare(draft: &Draft, cursor: Vec<u8>, second: Vec<u8>, budget: u32) -> Call {
        Call { cursor, second, budget, ..Call::new(Operation::Compare, draft.plan(), draft.n()) }
    }

    /// The reason of a letter where a walk begins, with all that the walk is lent and reason is.
    pub fn reason(walk: &Call, letter: u8) -> Call {
        let (plan, work, cursor) = (walk.plan.clone(), walk.work.clone(), walk.cursor.clone());
        Call { work, cursor, letter, ..Call::new(Operation::Reason, plan, 0) }
    }

    /// The walk of reason's letter from the same place, with room for its answer.
    pub fn walk_of(reason: &Call) -> Call {
        let (plan, work, cursor) = (reason.plan.clone(), reason.work.clone(), reason.cursor.clone());
        Call { work, cursor, ..Call::new(Operation::Walk, plan, 0) }.with_letters(&[reason.letter])
    }

    /// The seal of a draft's rules, without output.
    pub fn seal(draft: &Draft) -> Call {
        let call = Call::new(Operation::Seal, draft.words(), draft.n());
        Call { record_length: draft.format.record_length(), start: draft.start, ..call }
    }

    /// The same call with these letters, and answers for them.
    pub fn with_letters(mut self, letters: &[u8]) -> Call {
        self.letters = letters.to_vec();
        self.answers = vec![0xA5; answers::LENGTH * letters.len()];
        self
    }
}

/// Rows as they are lent.
pub fn lent(rows: &[Row]) -> Vec<LabelRow> {
    let lent = |row: &Row| LabelRow::new(row.lowest, row.highest, row.class).weighing(row.grams);
    rows.iter().map(lent).collect()
}

/// Rows that are lent, as the reference takes them.
fn taken(rows: &[LabelRow]) -> Vec<Row> {
    let taken = |row: &LabelRow| {
        let LabelRow { lowest, highest, class, grams } = *row;
        Row { lowest, highest, class, grams }
    };
    rows.iter().map(taken).collect()
}

/// The slices of a call as they are lent.
pub struct Slices<'a> {
    pub plan: &'a [u8],
    pub record_length: u16,
    pub start: u16,
    pub work: &'a mut [u8],
    pub cursor: &'a mut [u8],
    pub letters: &'a [u8],
    pub answers: &'a mut [u8],
    pub out: &'a mut [u8],
    pub second: &'a [u8],
    pub budget: u32,
    pub letter: u8,
    pub rows: &'a [LabelRow],
    pub class: u16,
}

/// The values that an accepted call gives.
#[derive(Clone, Copy, PartialEq, Eq, Debug)]
pub enum Values {
    Checked(Checked),
    Unsealed(Unsealed),
    Length(u64),
    Measured(Measured),
    Walked,
    Compared(Compared),
    Grams(u64),
    Reason(Reason),
}

pub type Outcome = Result<Values, Refused>;

/// An implementation of the operations on plans. One that can't take a call on says so by `None`.
pub trait Implementation {
    fn name(&self) -> &'static str;
    fn run(&mut self, operation: Operation, lent: Slices) -> Option<Outcome>;
}

/// The reference by rules. A copy isn't made by either reference: which rules it has is left free.
pub struct ByRules;

impl Implementation for ByRules {
    fn name(&self) -> &'static str {
        "the reference by rules"
    }

    fn run(&mut self, operation: Operation, lent: Slices) -> Option<Outcome> {
        Some(match operation {
            Operation::Check => plan::check(lent.plan).map(Values::Checked),
            Operation::Seal => plan::seal(lent.plan, lent.record_length, lent.start, lent.out).map(Values::Length),
            Operation::Unseal => plan::unseal(lent.plan, lent.out).map(Values::Unsealed),
            Operation::Measure => rules::measure(lent.plan, lent.work).map(Values::Measured),
            Operation::Spread => rules::spread(lent.plan, lent.work, lent.out).map(Values::Length),
            Operation::Walk => {
                let walked = rules::walk(lent.plan, lent.work, lent.cursor, lent.letters, lent.answers);
                walked.map(|()| Values::Walked)
            }
            Operation::Compare => {
                let compared = rules::compare(lent.plan, lent.work, lent.cursor, lent.second, lent.budget);
                compared.map(Values::Compared)
            }
            Operation::Copy => return None,
            Operation::Grams => rules::grams(lent.plan, &taken(lent.rows), lent.work).map(Values::Grams),
            Operation::Reason => rules::reason(lent.plan, lent.work, lent.cursor, lent.letter).map(Values::Reason),
        })
    }
}

/// The reference on the unfolded forest, for accepted plans of small ones. It keeps the last plan unfolded.
#[derive(Default)]
pub struct OnForest {
    plan: Vec<u8>,
    unfolded: Option<Unfolded>,
}

/// The most nodes that are unfolded.
pub const MOST_NODES: usize = 3_000;

impl OnForest {
    /// The plan unfolded, unless it isn't one or its forest is too large.
    pub fn unfold(&mut self, plan: &[u8]) -> Option<&Unfolded> {
        if self.plan != plan {
            self.plan = plan.to_vec();
            self.unfolded = Unfolded::of(plan, MOST_NODES);
        }
        self.unfolded.as_ref()
    }

    /// The forest of the rule that word 1 of a cursor's cell 0 names, unless it or the plan's own is too large.
    pub fn walked(&mut self, plan: &[u8], word: u16) -> Option<&Forest> {
        self.unfold(plan)?.walked(word).ok()?
    }
}

impl Implementation for OnForest {
    fn name(&self) -> &'static str {
        "the reference on the unfolded forest"
    }

    fn run(&mut self, operation: Operation, lent: Slices) -> Option<Outcome> {
        if !operation.works() || operation == Operation::Copy {
            return None;
        }
        let unfolded = self.unfold(lent.plan)?;
        Some(match operation {
            Operation::Measure => unfolded.measure(lent.work).map(Values::Measured),
            Operation::Spread => unfolded.spread(lent.work, lent.out).map(Values::Length),
            Operation::Compare => {
                unfolded.compare(lent.work, lent.cursor, lent.second, lent.budget)?.map(Values::Compared)
            }
            Operation::Grams => unfolded.grams(&taken(lent.rows), lent.work).map(Values::Grams),
            Operation::Reason => unfolded.reason(lent.work, lent.cursor, lent.letter)?.map(Values::Reason),
            _ => unfolded.walk(lent.work, lent.cursor, lent.letters, lent.answers)?.map(|()| Values::Walked),
        })
    }
}
