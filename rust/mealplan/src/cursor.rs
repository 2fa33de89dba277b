//! Cell 0 of a cursor: how many cells are used, and which rule's forest is walked.

/// Word 1 of a cursor's cell 0 that names a rule to walk: its number plus one. 0 is for the start rule. Number 65,535 has the word of the one before it,
/// and both are beyond the rules of every plan.
pub const fn rule_word(rule: u16) -> u16 {
    rule.saturating_add(1)
}

/// Puts a cursor above the forest of the rule that a word names, as the first [`walk`](crate::walk) wants it: [`rule_word`] for one rule alone, 0 for the
/// start. Whether there is such a rule to walk is judged by the walk, with 10.
///
/// ```
/// # let bytes = std::fs::read(concat!(env!("CARGO_MANIFEST_DIR"), "/../../samples/plan.bin")).unwrap();
/// let mut work = vec![0; mealplan::work_bytes(8)];
/// let mut cursor = vec![0; mealplan::cursor_bytes(8)];
/// let mut answers = [0; mealplan::answers_bytes(3)];
/// mealplan::stand_above(&mut cursor, mealplan::rule_word(3));
/// mealplan::walk(&bytes, &mut work, &mut cursor, b"ann", &mut answers)?;
/// assert!(mealplan::labels(&answers).eq([Some(97), Some(98), None]));
/// # Ok::<(), mealplan::Refused>(())
/// ```
pub fn stand_above(cursor: &mut [u8], word: u16) {
    let [low, high] = word.to_le_bytes();
    cursor.iter_mut().zip([0, 0, low, high, 0, 0, 0, 0]).for_each(|(byte, to)| *byte = to);
}

/// The number of used cells that a cursor's front tells.
#[cfg(feature = "alloc")]
pub(crate) fn cells(cursor: &[u8]) -> usize {
    match cursor {
        [low, high, ..] => u16::from_le_bytes([*low, *high]).into(),
        _ => 0,
    }
}

/// Word 1 of its cell 0.
#[cfg(feature = "alloc")]
pub(crate) fn word(cursor: &[u8]) -> u16 {
    match cursor {
        [_, _, low, high, ..] => u16::from_le_bytes([*low, *high]),
        _ => 0,
    }
}
