//! What documents 01 and 02 say of the lent slices, asked of every call whatever the implementations agree on.
use crate::call::{Call, Operation, Outcome, Values};
use reference::plan::{TRAILER, cursor_bytes, work_bytes};
use reference::{Compared, Format, Reason, Why, answers, words};

/// Asks the laws of a call and of the slices after it.
pub fn ask(before: &Call, outcome: &Outcome, after: &Call) {
    assert!(before.plan == after.plan && before.letters == after.letters, "no call writes its plan or letters");
    if before.operation != Operation::Walk {
        assert!(before.cursor == after.cursor && before.second == after.second, "only walk writes a cursor");
        assert!(before.answers == after.answers, "only walk writes answers");
    }
    if before.operation == Operation::Seal {
        let neither = Format::of_record_length(before.record_length).is_none();
        assert_eq!(*outcome == Err(Why::Mark.here()), neither, "seal's 1 is a record length that is neither");
        return ask_front(&before.out, outcome, &after.out);
    }
    // 12 comes before 7.
    let past = |why: Why| match outcome {
        Ok(_) => true,
        Err(refused) => refused.number > why as u32 && refused.number != Why::Cycle as u32,
    };
    let n = if past(Why::Start) { rules_of(&before.plan) } else { 0 };
    if before.operation.works() {
        // The list's refusals come before 8, which is the last of copy; behind it grams has 11 alone.
        let past_lent = match before.operation {
            Operation::Copy => outcome.is_ok(),
            Operation::Grams => outcome.is_ok() || *outcome == Err(Why::Output.here()),
            _ => past(Why::Lent),
        };
        let cleared = if past_lent { work_bytes(n) } else { 0 };
        assert!(after.work[..cleared].iter().all(|byte| *byte == 0), "past 8 work is zeros");
        assert!(after.work[cleared..] == before.work[cleared..], "else work stays");
    }
    match before.operation {
        Operation::Walk => ask_walk(before, outcome, after, n),
        Operation::Compare => ask_compare(before, outcome, n),
        Operation::Reason => ask_reason(before, outcome, n),
        _ => ask_front(&before.out, outcome, &after.out),
    }
}

/// The number of rules that an accepted plan's trailer gives.
pub(crate) fn rules_of(plan: &[u8]) -> usize {
    let at = plan.len() - TRAILER;
    usize::from(u16::from_le_bytes([plan[at], plan[at + 1]]))
}

/// Output changes at its front alone; refused, nowhere. Check, measure and grams have none.
fn ask_front(before: &[u8], outcome: &Outcome, after: &[u8]) {
    let written = match outcome {
        Ok(Values::Length(length)) => *length as usize,
        Ok(Values::Unsealed(unsealed)) => usize::from(unsealed.record_length) * usize::from(unsealed.n),
        _ => 0,
    };
    assert!(before[written..] == after[written..], "later output stays");
}

fn ask_walk(before: &Call, outcome: &Outcome, after: &Call, n: usize) {
    let head = |cursor: &[u8]| cursor.get(2..8).map(<[u8]>::to_vec);
    assert_eq!(head(&before.cursor), head(&after.cursor), "word 1 stays through every walk, and so do words 2 and 3");
    if outcome.is_err() {
        assert!(before.cursor == after.cursor, "refused, the cursor is untouched");
        assert!(before.answers == after.answers, "refused, answers are untouched");
        return;
    }
    assert!(after.cursor[4..8] == [0; 4], "words 2 and 3 must be 0");
    assert!(usize::from(words::get(&after.cursor, 1)) <= n, "word 1 names no rule beyond them");
    let (needed, answered) = (cursor_bytes(n), answers::LENGTH * before.letters.len());
    let (k, k_before) = (cells(&after.cursor), cells(&before.cursor));
    assert!(k <= 3 * n, "k is at most 3 × n");
    assert!(after.cursor[8 * (k + 1)..needed].iter().all(|byte| *byte == 0), "cells past k are zero");
    assert!(after.cursor[needed..] == before.cursor[needed..], "words past those needed stay");
    assert!(after.answers[answered..] == before.answers[answered..], "answers past the letters stay");
    if before.letters.is_empty() {
        assert!(after.cursor[..8 * (k + 1)] == before.cursor[..8 * (k + 1)], "no letters: the place stays");
    }
    if let [letter] = before.letters[..]
        && !b"az".contains(&letter)
    {
        let same = 8 * (k.min(k_before).saturating_sub(16) + 1);
        assert!(after.cursor[8..same] == before.cursor[8..same], "a letter changes the last sixteen cells at most");
    }
}

fn ask_compare(call: &Call, outcome: &Outcome, n: usize) {
    let Ok(Values::Compared(compared)) = *outcome else { return };
    match compared {
        Compared::Same(count) | Compared::Differ(count) => {
            assert!((1..=call.budget).contains(&count), "a node has a pair, and the count is no larger than the budget")
        }
        Compared::Spent(count) => assert_eq!(count, call.budget, "spent, the count is the budget"),
    }
    let one_place = call.cursor[..8 * (cells(&call.cursor) + 1)] == call.second[..8 * (cells(&call.second) + 1)];
    assert!(!one_place || !matches!(compared, Compared::Differ(_)), "a place doesn't differ from itself");
    assert!([&call.cursor, &call.second].iter().all(|cursor| (1..=3 * n).contains(&cells(cursor))), "both are nodes");
}

/// Each reason is of its letters, and of a node or of above the forest; at a node a, z and s move.
fn ask_reason(call: &Call, outcome: &Outcome, n: usize) {
    let Ok(Values::Reason(reason)) = *outcome else { return };
    let k = cells(&call.cursor);
    assert!(k <= 3 * n, "k is at most 3 × n");
    let (letters, above): (&[u8], Option<bool>) = match reason {
        Reason::Moves if k == 0 => (b"az", None),
        Reason::Moves => (b"azflnpus", None),
        Reason::Above => (b"flnpus", Some(true)),
        Reason::NoTrees => (b"azflnpus", Some(true)),
        Reason::NoChildren => (b"fl", Some(false)),
        Reason::LastSibling => (b"n", Some(false)),
        Reason::FirstSibling => (b"p", Some(false)),
        Reason::Root => (b"u", Some(false)),
    };
    assert!(letters.contains(&call.letter), "{reason:?} is no reason of {}", char::from(call.letter));
    assert!(above.is_none_or(|above| above == (k == 0)), "{reason:?} at a place of {k} cells");
}

fn cells(cursor: &[u8]) -> usize {
    words::get(cursor, 0).into()
}
