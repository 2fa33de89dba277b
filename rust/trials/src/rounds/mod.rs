//! The rounds of a trial. Each tries one subject as often as it is told.
pub mod compares;
pub mod copies;
pub mod days;
pub mod formats;
pub mod grams;
pub mod orders;
pub mod places;
pub mod plans;
pub mod reasons;
pub mod rows;
pub mod sizes;
pub mod slices;
pub mod walks;
pub mod wards;

use crate::call::MOST_NODES;
use crate::draft::Draft;
use crate::random::Random;
use crate::{families, random_plans};
use reference::LETTERS;
use reference::plan::Sort;

/// A valid narrow plan with a forest small enough to unfold.
fn small(random: &mut Random, most_rules: usize) -> Draft {
    if random.once_in(4) {
        let mut draft = families::any(random, most_rules);
        random_plans::start_within(&mut draft, MOST_NODES as u64, random);
        return draft;
    }
    let n = random.between(1, most_rules);
    let mut draft = random_plans::any(random, n);
    let most = random.pick(&[10, 100, 1000, MOST_NODES as u64]);
    random_plans::start_within(&mut draft, most, random);
    draft
}

/// A valid narrow plan, and every other time the same as a wide one.
fn in_any_format(random: &mut Random, draft: Draft) -> Draft {
    if random.once_in(2) { draft } else { random_plans::widened(&draft, random) }
}

/// A valid plan, and every other time the same with its rules renumbered.
fn in_any_order(random: &mut Random, draft: Draft) -> Draft {
    if random.once_in(2) {
        return draft;
    }
    let number = random.numbering(draft.n());
    draft.renumbered(&number)
}

/// A valid narrow plan as it is, as a wide one, renumbered, or both.
fn in_any_form(random: &mut Random, draft: Draft) -> Draft {
    let draft = in_any_format(random, draft);
    in_any_order(random, draft)
}

/// A word 1 of cell 0 that a walk takes: every other time 0, for the start, else the number plus one of a closed rule.
fn word(random: &mut Random, draft: &Draft) -> u16 {
    if random.once_in(2) {
        return 0;
    }
    random.pick(&draft.of_sort(Sort::CLOSED, draft.n())) + 1
}

/// Letters at random: evenly, with a liking for some, or nearly all the same, so that long rows and deep spines are gone through.
fn letters(random: &mut Random, count: usize) -> Vec<u8> {
    let liked: Vec<u8> = match random.below(5) {
        0 => LETTERS.to_vec(),
        1 => b"ffllnpnpuus".to_vec(),
        2 => b"fffnnnnpu".to_vec(),
        3 => b"lllppppnu".to_vec(),
        _ => vec![random.pick(b"flnpu")],
    };
    let burst = random.pick(&[1, 1, 2, 4]);
    let mut letters = Vec::with_capacity(count + burst);
    while letters.len() < count {
        let letter = if random.once_in(40) { random.pick(&LETTERS) } else { random.pick(&liked) };
        letters.extend(std::iter::repeat_n(letter, random.between(1, burst)));
    }
    letters.truncate(count);
    letters
}
