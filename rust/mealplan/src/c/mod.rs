//! The C interface as include/mealplan.h declares and describes it, for who lends memory that no slice can have. Every pointer is valid for its
//! length and never null, also where the length is 0; what is written lies apart from everything else in the call. Each function returns 0, or a
//! refusal's number with the position behind the last pointer.

use crate::LabelRow;

pub(crate) mod calls;

unsafe extern "C" {
    /// [`check`](crate::check), unsafe.
    pub fn plan_check(plan: *const u8, plan_len: usize, n: *mut u16, start: *mut u16, position: *mut u64) -> u32;

    /// [`seal`](crate::seal), unsafe.
    pub fn plan_seal(
        words: *const u8,
        words_len: usize,
        record_length: u16,
        start: u16,
        out: *mut u8,
        out_len: usize,
        written: *mut u64,
        position: *mut u64,
    ) -> u32;

    /// [`unseal`](crate::unseal), unsafe.
    pub fn plan_unseal(
        plan: *const u8,
        plan_len: usize,
        out: *mut u8,
        out_len: usize,
        record_length: *mut u16,
        n: *mut u16,
        start: *mut u16,
        position: *mut u64,
    ) -> u32;

    /// [`measure`](crate::measure), unsafe.
    pub fn plan_measure(
        plan: *const u8,
        plan_len: usize,
        work: *mut u8,
        work_len: usize,
        trees: *mut u64,
        entries: *mut u64,
        levels: *mut u64,
        position: *mut u64,
    ) -> u32;

    /// [`spread`](crate::spread), unsafe.
    pub fn plan_spread(
        plan: *const u8,
        plan_len: usize,
        work: *mut u8,
        work_len: usize,
        out: *mut u8,
        out_len: usize,
        written: *mut u64,
        position: *mut u64,
    ) -> u32;

    /// [`walk`](crate::walk), unsafe.
    pub fn plan_walk(
        plan: *const u8,
        plan_len: usize,
        work: *mut u8,
        work_len: usize,
        cursor: *mut u8,
        cursor_len: usize,
        letters: *const u8,
        letters_len: usize,
        answers: *mut u8,
        answers_len: usize,
        position: *mut u64,
    ) -> u32;

    /// [`compare`](crate::compare), unsafe.
    pub fn plan_compare(
        plan: *const u8,
        plan_len: usize,
        work: *mut u8,
        work_len: usize,
        first: *const u8,
        first_len: usize,
        second: *const u8,
        second_len: usize,
        budget: u32,
        verdict: *mut u32,
        count: *mut u32,
        position: *mut u64,
    ) -> u32;

    /// [`class`](crate::class), unsafe.
    pub fn plan_class(rows: *const LabelRow, rows_len: usize, label: u32, class: *mut u16, position: *mut u64) -> u32;

    /// [`copy`](crate::copy), unsafe.
    pub fn plan_copy(
        plan: *const u8,
        plan_len: usize,
        rows: *const LabelRow,
        rows_len: usize,
        class: u16,
        work: *mut u8,
        work_len: usize,
        out: *mut u8,
        out_len: usize,
        written: *mut u64,
        position: *mut u64,
    ) -> u32;

    /// [`grams`](crate::grams), unsafe.
    pub fn plan_grams(
        plan: *const u8,
        plan_len: usize,
        rows: *const LabelRow,
        rows_len: usize,
        work: *mut u8,
        work_len: usize,
        grams: *mut u64,
        position: *mut u64,
    ) -> u32;

    /// [`reason`](crate::reason), unsafe.
    pub fn plan_reason(
        plan: *const u8,
        plan_len: usize,
        work: *mut u8,
        work_len: usize,
        cursor: *const u8,
        cursor_len: usize,
        letter: u8,
        reason: *mut u32,
        position: *mut u64,
    ) -> u32;
}
