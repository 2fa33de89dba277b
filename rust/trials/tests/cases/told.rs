//! What came of a call, told in a line.
use crate::FILL;
use reference::{Compared, NOWHERE, answers, copy, words};
use trials::call::{Call, Operation, Outcome, Values};
use trials::copies;

/// The answer, then what the call left in the slices that its operation writes.
pub fn line(before: &Call, after: &Call, outcome: &Outcome) -> String {
    let work = rest(", work", &after.work, 0);
    let left = match after.operation {
        Operation::Check => String::new(),
        Operation::Seal | Operation::Unseal => all_words(&after.out),
        Operation::Measure | Operation::Grams => work,
        Operation::Spread => format!(" {}{work}", text(&after.out)),
        Operation::Walk => all_answers(&after.answers) + &cells(&after.cursor) + &work,
        Operation::Compare | Operation::Reason if before.cursor != after.cursor => ", cursor changed".to_string(),
        Operation::Compare | Operation::Reason => work,
        Operation::Copy => return copied(after, outcome) + &work,
    };
    answer(outcome) + &left
}

/// The forest of a copy, or the refusal; what is wrong with its rules, if anything is; and whether other output was written.
fn copied(after: &Call, outcome: &Outcome) -> String {
    const MOST: usize = 1_000;
    const BASE: u64 = 0x0123_4567_89AB_CDEF;
    let (mut told, later) = match outcome {
        Ok(Values::Length(length)) => {
            let (copy, later) = after.out.split_at(*length as usize);
            let told = match copies::judge(&after.plan, &after.client(), copy, BASE) {
                Err(fault) => fault,
                Ok(()) => match copies::unfolded(copy, MOST) {
                    None => "accepted, more than 1,000 nodes".to_string(),
                    Some(forest) if forest.is_empty() => "accepted, empty".to_string(),
                    Some(forest) => format!("accepted {}", copy::told(&forest)),
                },
            };
            (told, later)
        }
        _ => (answer(outcome), &after.out[..]),
    };
    if later.iter().any(|byte| *byte != FILL) {
        told += ", output changed";
    }
    told
}

/// The answers alone, or the refusal.
pub fn answers(after: &Call, outcome: &Outcome) -> String {
    if outcome.is_ok() { all_answers(&after.answers).trim_start().to_string() } else { answer(outcome) }
}

/// The grams alone, or the refusal.
pub fn grams(outcome: &Outcome) -> String {
    if let Ok(Values::Grams(grams)) = outcome { grams.to_string() } else { answer(outcome) }
}

fn answer(outcome: &Outcome) -> String {
    match outcome {
        Ok(Values::Checked(checked)) => format!("accepted {} {}", checked.n, checked.start),
        Ok(Values::Unsealed(unsealed)) => {
            format!("accepted {} {} {}", unsealed.record_length, unsealed.n, unsealed.start)
        }
        Ok(Values::Length(length)) => format!("accepted {length}"),
        Ok(Values::Measured(size)) => format!("accepted {} {} {}", size.trees, size.entries, size.levels),
        Ok(Values::Walked) => "accepted".to_string(),
        Ok(Values::Compared(Compared::Same(count))) => format!("same {count}"),
        Ok(Values::Compared(Compared::Differ(count))) => format!("differ {count}"),
        Ok(Values::Compared(Compared::Spent(count))) => format!("spent {count}"),
        Ok(Values::Grams(grams)) => format!("accepted {grams}"),
        Ok(Values::Reason(reason)) => format!("reason {}", *reason as u32),
        Err(refused) => format!("refused {} at {}", refused.number, refused.position),
    }
}

/// The class of a label, or the refusal.
pub fn class(outcome: Result<u16, mealplan::Refused>) -> String {
    match outcome {
        Ok(class) => format!("class {class}"),
        Err(refused) => format!("refused {} at {}", refused.number, refused.position),
    }
}

/// The words of a slice: one that is as it was is a full stop.
fn all_words(slice: &[u8]) -> String {
    const FILLED: u16 = u16::from_le_bytes([FILL; 2]);
    let word = |index| match words::get(slice, index) {
        FILLED => " .".to_string(),
        word => format!(" {word}"),
    };
    (0..words::count(slice)).map(word).collect()
}

/// The answers: nowhere is -, and one that is as it was is a full stop.
fn all_answers(slice: &[u8]) -> String {
    const FILLED: u32 = u32::from_le_bytes([FILL; 4]);
    let answer = |index| match answers::get(slice, index) {
        NOWHERE => " -".to_string(),
        FILLED => " .".to_string(),
        label => format!(" {label}"),
    };
    (0..answers::count(slice)).map(answer).collect()
}

/// Bytes as text, a character each; one that doesn't print is a backslash with two hexadecimal digits.
fn text(slice: &[u8]) -> String {
    let character = |byte: &u8| match byte {
        b' '..=b'~' => char::from(*byte).to_string(),
        _ => format!("\\{byte:02x}"),
    };
    slice.iter().map(character).collect()
}

/// The cursor: its used cells, and what stands past them.
fn cells(cursor: &[u8]) -> String {
    let used = &cursor.as_chunks().0[..used(cursor)];
    let cell = |cell: &[u8; 8]| {
        let [kind, first, second, last] = words::unpack(*cell);
        format!(" ({kind},{first},{second},{last})")
    };
    format!(", cells{}{}", used.iter().map(cell).collect::<String>(), rest(", then cursor", cursor, 8 * used.len()))
}

/// How many cells are used: cell 0, and as many as its first word says; cell 0 alone if there are fewer than it says.
fn used(cursor: &[u8]) -> usize {
    let all = cursor.len() / 8;
    if all == 0 {
        return 0;
    }
    let said = 1 + usize::from(words::get(cursor, 0));
    if said <= all { said } else { 1 }
}

/// A slice from an offset on: how far it is zero, and whether it is as it was behind that. Nothing is said of one that is all zeros.
fn rest(name: &str, slice: &[u8], from: usize) -> String {
    let end = from + slice[from..].iter().take_while(|byte| **byte == 0).count();
    match &slice[end..] {
        [] => String::new(),
        past if past.iter().any(|byte| *byte != FILL) => format!("{name} changed"),
        _ if end == from => format!("{name} stays"),
        _ => format!("{name} zero to word {}", end / 2),
    }
}
