//! The proved library as an implementation: by the safe functions, and by the C functions themselves.
use crate::call::{Implementation, Operation, Outcome, Slices, Values};
use mealplan::c;
use reference::{Checked, Compared, Measured, Reason, Refused, Unsealed};

/// The library by the safe functions of crate `mealplan`.
pub struct Library;

fn checked(checked: mealplan::Checked) -> Values {
    Values::Checked(Checked { n: checked.n, start: checked.start })
}

fn unsealed(unsealed: mealplan::Unsealed) -> Values {
    let mealplan::Unsealed { record_length, n, start } = unsealed;
    Values::Unsealed(Unsealed { record_length, n, start })
}

fn measured(counts: mealplan::Measured) -> Values {
    Values::Measured(Measured { trees: counts.trees, entries: counts.entries, levels: counts.levels })
}

fn compared(compared: mealplan::Compared) -> Values {
    Values::Compared(match compared {
        mealplan::Compared::Same(count) => Compared::Same(count),
        mealplan::Compared::Differ(count) => Compared::Differ(count),
        mealplan::Compared::Spent(count) => Compared::Spent(count),
    })
}

/// The reason of a number that the library gives.
fn reason(number: u32) -> Values {
    Values::Reason(Reason::of_number(number).unwrap_or_else(|| panic!("{number} is no reason")))
}

impl Implementation for Library {
    fn name(&self) -> &'static str {
        "the library"
    }

    fn run(&mut self, operation: Operation, lent: Slices) -> Option<Outcome> {
        let answer = match operation {
            Operation::Check => mealplan::check(lent.plan).map(checked),
            Operation::Seal => mealplan::seal(lent.plan, lent.record_length, lent.start, lent.out).map(Values::Length),
            Operation::Unseal => mealplan::unseal(lent.plan, lent.out).map(unsealed),
            Operation::Measure => mealplan::measure(lent.plan, lent.work).map(measured),
            Operation::Spread => mealplan::spread(lent.plan, lent.work, lent.out).map(Values::Length),
            Operation::Walk => {
                let walked = mealplan::walk(lent.plan, lent.work, lent.cursor, lent.letters, lent.answers);
                walked.map(|()| Values::Walked)
            }
            Operation::Compare => {
                mealplan::compare(lent.plan, lent.work, lent.cursor, lent.second, lent.budget).map(compared)
            }
            Operation::Copy => {
                let copied = mealplan::copy(lent.plan, lent.rows, lent.class, lent.work, lent.out);
                copied.map(|length| Values::Length(length as u64))
            }
            Operation::Grams => mealplan::grams(lent.plan, lent.rows, lent.work).map(Values::Grams),
            Operation::Reason => {
                let came = mealplan::reason(lent.plan, lent.work, lent.cursor, lent.letter);
                came.map(|came| reason(came.number()))
            }
        };
        Some(answer.map_err(|refused| Refused { number: refused.number, position: refused.position }))
    }
}

/// The library by its C functions: the numbers behind the pointers hold sentinels, which a refusal must leave, and an accepted call
/// must set the position to 0.
pub struct Interface;

const SMALL: u16 = 0xBEEF;
const MIDDLE: u32 = 0xDEAD_BEEF;
const LARGE: u64 = 0xFEED_FACE_CAFE_BEEF;

impl Implementation for Interface {
    fn name(&self) -> &'static str {
        "the C interface"
    }

    fn run(&mut self, operation: Operation, lent: Slices) -> Option<Outcome> {
        let Slices {
            plan,
            record_length,
            start,
            work,
            cursor,
            letters,
            answers,
            out,
            second,
            budget,
            letter,
            rows,
            class,
        } = lent;
        let mut small = [SMALL; 3];
        let mut middle = [MIDDLE; 2];
        let mut large = [LARGE; 3];
        let mut position = LARGE;
        let [length, n, first] = &mut small;
        let [verdict, count] = &mut middle;
        let [trees, entries, levels] = &mut large;
        let (plan, plan_len) = (plan.as_ptr(), plan.len());
        let (to, to_len) = (out.as_mut_ptr(), out.len());
        let (room, room_len) = (work.as_mut_ptr(), work.len());
        // SAFETY: every slice is valid for its length, those written are borrowed for writing, and the numbers are distinct locals.
        let number = unsafe {
            match operation {
                Operation::Check => c::plan_check(plan, plan_len, n, first, &mut position),
                Operation::Seal => c::plan_seal(plan, plan_len, record_length, start, to, to_len, trees, &mut position),
                Operation::Unseal => c::plan_unseal(plan, plan_len, to, to_len, length, n, first, &mut position),
                Operation::Measure => {
                    c::plan_measure(plan, plan_len, room, room_len, trees, entries, levels, &mut position)
                }
                Operation::Spread => c::plan_spread(plan, plan_len, room, room_len, to, to_len, trees, &mut position),
                Operation::Walk => c::plan_walk(
                    plan,
                    plan_len,
                    room,
                    room_len,
                    cursor.as_mut_ptr(),
                    cursor.len(),
                    letters.as_ptr(),
                    letters.len(),
                    answers.as_mut_ptr(),
                    answers.len(),
                    &mut position,
                ),
                Operation::Compare => c::plan_compare(
                    plan,
                    plan_len,
                    room,
                    room_len,
                    cursor.as_ptr(),
                    cursor.len(),
                    second.as_ptr(),
                    second.len(),
                    budget,
                    verdict,
                    count,
                    &mut position,
                ),
                Operation::Copy => c::plan_copy(
                    plan,
                    plan_len,
                    rows.as_ptr(),
                    rows.len(),
                    class,
                    room,
                    room_len,
                    to,
                    to_len,
                    trees,
                    &mut position,
                ),
                Operation::Grams => {
                    c::plan_grams(plan, plan_len, rows.as_ptr(), rows.len(), room, room_len, trees, &mut position)
                }
                Operation::Reason => c::plan_reason(
                    plan,
                    plan_len,
                    room,
                    room_len,
                    cursor.as_ptr(),
                    cursor.len(),
                    letter,
                    verdict,
                    &mut position,
                ),
            }
        };
        if number != 0 {
            let untouched = small == [SMALL; 3] && middle == [MIDDLE; 2] && large == [LARGE; 3];
            assert!(untouched, "a number was written though {number} refused");
            return Some(Err(Refused { number, position }));
        }
        assert_eq!(position, 0, "the position of an accepted call");
        let [record_length, n, start] = small;
        let [trees, entries, levels] = large;
        Some(Ok(match operation {
            Operation::Check => Values::Checked(Checked { n, start }),
            Operation::Unseal => Values::Unsealed(Unsealed { record_length, n, start }),
            Operation::Seal | Operation::Spread | Operation::Copy => Values::Length(trees),
            Operation::Measure => Values::Measured(Measured { trees, entries, levels }),
            Operation::Walk => Values::Walked,
            Operation::Compare => Values::Compared(match middle {
                [0, count] => Compared::Same(count),
                [1, count] => Compared::Differ(count),
                [2, count] => Compared::Spent(count),
                [verdict, _] => panic!("{verdict} is no verdict"),
            }),
            Operation::Grams => Values::Grams(trees),
            Operation::Reason => reason(middle[0]),
        }))
    }
}
