//! The archive that `BASELINE` named when this was built, as an implementation of what it is timed at. build.rs links it.
use trials::call::Implementation;

/// What the archive's objects name as their compilers.
pub const COMPILERS: Option<&str> = option_env!("BASELINE_COMPILER");

/// The baseline, if one was given.
pub fn baseline() -> Option<Box<dyn Implementation>> {
    #[cfg(baseline)]
    return Some(Box::new(linked::Baseline));
    #[cfg(not(baseline))]
    None
}

#[cfg(baseline)]
mod linked {
    use reference::{Checked, Measured, Refused};
    use trials::call::{Implementation, Operation, Outcome, Slices, Values};

    unsafe extern "C" {
        fn baseline_plan_check(
            plan: *const u8,
            plan_len: usize,
            n: *mut u16,
            start: *mut u16,
            position: *mut u64,
        ) -> u32;

        fn baseline_plan_measure(
            plan: *const u8,
            plan_len: usize,
            work: *mut u8,
            work_len: usize,
            trees: *mut u64,
            entries: *mut u64,
            levels: *mut u64,
            position: *mut u64,
        ) -> u32;

        fn baseline_plan_walk(
            plan: *const u8,
            plan_len: usize,
            work: *mut u8,
            work_len: usize,
            cursor: *mut u8,
            cursor_len: usize,
            letters: *const u8,
            letters_len: usize,
            answers: *mut u8,
            answers_len: usize,
            position: *mut u64,
        ) -> u32;
    }

    /// The archive by its C functions; of the operations it is asked for these three.
    pub struct Baseline;

    impl Implementation for Baseline {
        fn name(&self) -> &'static str {
            option_env!("BASELINE_NAME").filter(|name| !name.is_empty()).unwrap_or("the archive that BASELINE named")
        }

        fn run(&mut self, operation: Operation, lent: Slices) -> Option<Outcome> {
            match operation {
                Operation::Check => Some(check(lent)),
                Operation::Measure => Some(measure(lent)),
                Operation::Walk => Some(walk(lent)),
                _ => None,
            }
        }
    }

    /// The values, unless the C function returned a refusal's number.
    fn answer(number: u32, position: u64, values: Values) -> Outcome {
        if number == 0 { Ok(values) } else { Err(Refused { number, position }) }
    }

    fn check(lent: Slices) -> Outcome {
        let (mut n, mut start, mut position) = (0, 0, 0);
        let plan = lent.plan;
        // SAFETY: the slice is valid for its length; the numbers are distinct locals. The archive is trusted to keep to the header.
        let number = unsafe { baseline_plan_check(plan.as_ptr(), plan.len(), &mut n, &mut start, &mut position) };
        answer(number, position, Values::Checked(Checked { n, start }))
    }

    fn measure(lent: Slices) -> Outcome {
        let (mut trees, mut entries, mut levels, mut position) = (0, 0, 0, 0);
        // SAFETY: as in `check`; `work` is borrowed for writing, so it lies apart from the plan.
        let number = unsafe {
            baseline_plan_measure(
                lent.plan.as_ptr(),
                lent.plan.len(),
                lent.work.as_mut_ptr(),
                lent.work.len(),
                &mut trees,
                &mut entries,
                &mut levels,
                &mut position,
            )
        };
        answer(number, position, Values::Measured(Measured { trees, entries, levels }))
    }

    fn walk(lent: Slices) -> Outcome {
        let mut position = 0;
        // SAFETY: as in `measure`; so do `cursor` and `answers`.
        let number = unsafe {
            baseline_plan_walk(
                lent.plan.as_ptr(),
                lent.plan.len(),
                lent.work.as_mut_ptr(),
                lent.work.len(),
                lent.cursor.as_mut_ptr(),
                lent.cursor.len(),
                lent.letters.as_ptr(),
                lent.letters.len(),
                lent.answers.as_mut_ptr(),
                lent.answers.len(),
                &mut position,
            )
        };
        answer(number, position, Values::Walked)
    }
}
