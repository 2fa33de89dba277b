//! The safe functions over the C interface: slices in, values or the refusal out. What a call writes is lent by `&mut`, so it lies apart from
//! all else, and a Rust slice's pointer is never null: the borrow checker meets all that the header asks of a caller.
use crate::c;
use crate::{Checked, Compared, LabelRow, Measured, Reason, Refused, Unsealed};

/// The values, unless the C function returned a refusal's number.
fn answer<T>(number: u32, position: u64, values: T) -> Result<T, Refused> {
    if number == 0 { Ok(values) } else { Err(Refused { number, position }) }
}

/// Checks a plan.
pub fn check(plan: &[u8]) -> Result<Checked, Refused> {
    let mut checked = Checked::default();
    let mut position = 0;
    // SAFETY: the slice is valid for its length; the numbers are distinct locals.
    let number = unsafe { c::plan_check(plan.as_ptr(), plan.len(), &mut checked.n, &mut checked.start, &mut position) };
    answer(number, position, checked)
}

/// Writes rule words as a plan without cover at the front of `out`; gives its length. The record length is [`NARROW`](crate::NARROW), four words
/// to a rule, or [`WIDE`](crate::WIDE), five words; any other is refused with 1.
pub fn seal(words: &[u8], record_length: u16, start: u16, out: &mut [u8]) -> Result<u64, Refused> {
    let (mut written, mut position) = (0, 0);
    // SAFETY: as in `check`; `out` is borrowed for writing, so it lies apart from `words`.
    let number = unsafe {
        c::plan_seal(
            words.as_ptr(),
            words.len(),
            record_length,
            start,
            out.as_mut_ptr(),
            out.len(),
            &mut written,
            &mut position,
        )
    };
    answer(number, position, written)
}

/// Writes a plan's rule words at the front of `out`, as many to a rule as the plan's record length says.
pub fn unseal(plan: &[u8], out: &mut [u8]) -> Result<Unsealed, Refused> {
    let mut unsealed = Unsealed::default();
    let mut position = 0;
    // SAFETY: as in `seal`.
    let number = unsafe {
        c::plan_unseal(
            plan.as_ptr(),
            plan.len(),
            out.as_mut_ptr(),
            out.len(),
            &mut unsealed.record_length,
            &mut unsealed.n,
            &mut unsealed.start,
            &mut position,
        )
    };
    answer(number, position, unsealed)
}

/// Counts a plan's trees, entries and levels. A node with label 0 is a divider line: of the three it is left out of the entries alone. Refused with
/// 11 for more than 2^64 − 1 nodes, dividers too. `work` needs [`work_bytes`](crate::work_bytes).
pub fn measure(plan: &[u8], work: &mut [u8]) -> Result<Measured, Refused> {
    let mut measured = Measured::default();
    let mut position = 0;
    // SAFETY: as in `seal`.
    let number = unsafe {
        c::plan_measure(
            plan.as_ptr(),
            plan.len(),
            work.as_mut_ptr(),
            work.len(),
            &mut measured.trees,
            &mut measured.entries,
            &mut measured.levels,
            &mut position,
        )
    };
    answer(number, position, measured)
}

/// Writes a plan's forest as text at the front of `out`, three bytes a node or in a wide plan five; gives the text's length.
pub fn spread(plan: &[u8], work: &mut [u8], out: &mut [u8]) -> Result<u64, Refused> {
    let (mut written, mut position) = (0, 0);
    // SAFETY: as in `seal`; `work` and `out` are borrowed for writing, so they lie apart.
    let number = unsafe {
        c::plan_spread(
            plan.as_ptr(),
            plan.len(),
            work.as_mut_ptr(),
            work.len(),
            out.as_mut_ptr(),
            out.len(),
            &mut written,
            &mut position,
        )
    };
    answer(number, position, written)
}

/// Walks from the place stored in `cursor` by `letters`; each gives four bytes of `answers`: a label, or [`NOWHERE`](crate::NOWHERE). The forest is
/// that of the rule which word 1 of the cursor's cell 0 names: the start's for 0, else as [`rule_word`](crate::rule_word) has it. The word stays.
pub fn walk(
    plan: &[u8],
    work: &mut [u8],
    cursor: &mut [u8],
    letters: &[u8],
    answers: &mut [u8],
) -> Result<(), Refused> {
    let mut position = 0;
    // SAFETY: as in `spread`.
    let number = unsafe {
        c::plan_walk(
            plan.as_ptr(),
            plan.len(),
            work.as_mut_ptr(),
            work.len(),
            cursor.as_mut_ptr(),
            cursor.len(),
            letters.as_ptr(),
            letters.len(),
            answers.as_mut_ptr(),
            answers.len(),
            &mut position,
        )
    };
    answer(number, position, ())
}

/// Compares the subtrees at the places stored in two cursors, as lists of their nodes in reading order with label and level. The count is
/// never above the budget, and a larger budget changes no [`Compared::Same`] and no [`Compared::Differ`]. Each cursor names its own rule. `work` needs
/// [`work_bytes`](crate::work_bytes).
pub fn compare(plan: &[u8], work: &mut [u8], first: &[u8], second: &[u8], budget: u32) -> Result<Compared, Refused> {
    let (mut verdict, mut count, mut position) = (0, 0, 0);
    // SAFETY: as in `spread`; the cursors are only read.
    let number = unsafe {
        c::plan_compare(
            plan.as_ptr(),
            plan.len(),
            work.as_mut_ptr(),
            work.len(),
            first.as_ptr(),
            first.len(),
            second.as_ptr(),
            second.len(),
            budget,
            &mut verdict,
            &mut count,
            &mut position,
        )
    };
    let compared = match verdict {
        0 => Compared::Same(count),
        1 => Compared::Differ(count),
        _ => Compared::Spent(count),
    };
    answer(number, position, compared)
}

/// The class of a label by a list of rows in label order, which together cover 0 to [`LAST_LABEL`](crate::LAST_LABEL) once.
pub fn class(rows: &[LabelRow], label: u32) -> Result<u16, Refused> {
    let (mut class, mut position) = (0, 0);
    // SAFETY: as in `check`; a row is laid out as C has it.
    let number = unsafe { c::plan_class(rows.as_ptr(), rows.len(), label, &mut class, &mut position) };
    answer(number, position, class)
}

/// Writes the copy of a plan for a client of a class at the front of `out`; gives its length. The copy is a wide plan without cover, whose
/// forest is the plan's with every node of a higher class gone and all below it, by a list of rows as in [`class`]. `work` needs
/// [`work_bytes`](crate::work_bytes), `out` [`copy_bytes`](crate::copy_bytes).
pub fn copy(plan: &[u8], rows: &[LabelRow], class: u16, work: &mut [u8], out: &mut [u8]) -> Result<usize, Refused> {
    let (mut written, mut position) = (0, 0);
    // SAFETY: as in `spread` and `class`.
    let number = unsafe {
        c::plan_copy(
            plan.as_ptr(),
            plan.len(),
            rows.as_ptr(),
            rows.len(),
            class,
            work.as_mut_ptr(),
            work.len(),
            out.as_mut_ptr(),
            out.len(),
            &mut written,
            &mut position,
        )
    };
    answer(number, position, written as usize)
}

/// The grams of all nodes of a plan, each by the row that covers its label, of a list of rows as in [`class`]. Refused with 11 where their sum is
/// above 2^64 − 1. By one row of 1 gram for all labels it is the number of nodes. `work` needs [`work_bytes`](crate::work_bytes).
pub fn grams(plan: &[u8], rows: &[LabelRow], work: &mut [u8]) -> Result<u64, Refused> {
    let (mut grams, mut position) = (0, 0);
    // SAFETY: as in `spread` and `class`.
    let number = unsafe {
        c::plan_grams(
            plan.as_ptr(),
            plan.len(),
            rows.as_ptr(),
            rows.len(),
            work.as_mut_ptr(),
            work.len(),
            &mut grams,
            &mut position,
        )
    };
    answer(number, position, grams)
}

/// Why a letter, one of a z f l n p u s, moves or doesn't from the place stored in `cursor`, which is only read. Refused as [`walk`] of that one letter is,
/// with enough answers. The forest is that of the rule which the cursor names. `work` needs [`work_bytes`](crate::work_bytes).
pub fn reason(plan: &[u8], work: &mut [u8], cursor: &[u8], letter: u8) -> Result<Reason, Refused> {
    let (mut reason, mut position) = (0, 0);
    // SAFETY: as in `spread`; the cursor is only read.
    let number = unsafe {
        c::plan_reason(
            plan.as_ptr(),
            plan.len(),
            work.as_mut_ptr(),
            work.len(),
            cursor.as_ptr(),
            cursor.len(),
            letter,
            &mut reason,
            &mut position,
        )
    };
    // It is one of the seven, and 0 still where the call is refused.
    answer(number, position, Reason::from_number(reason).unwrap_or(Reason::Moves))
}
