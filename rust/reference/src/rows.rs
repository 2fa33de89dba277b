//! Who may read which label (document 02, Note 5), twice: by counting, word for word as the Note says it, and in order, for long lists; and the
//! grams per entry (Note 8).
use crate::{Refused, Why};

/// A row of the list: the labels from the lowest to the highest have the class, and so many grams per entry.
#[derive(Clone, Copy, PartialEq, Eq, Debug)]
pub struct Row {
    pub lowest: u32,
    pub highest: u32,
    pub class: u16,
    pub grams: u16,
}

/// The largest label and the largest class.
pub const LAST_LABEL: u32 = 16_777_215;
pub const LAST_CLASS: u16 = 3;

impl Row {
    pub fn covers(&self, label: u32) -> bool {
        self.lowest <= label && label <= self.highest
    }

    /// Whether the row is wrong by itself.
    pub fn invalid(&self) -> bool {
        self.lowest > self.highest || self.highest > LAST_LABEL || self.class > LAST_CLASS
    }

    /// How many of its labels lie below one.
    fn labels_below(&self, label: u32) -> u64 {
        u64::from((self.highest + 1).min(label).saturating_sub(self.lowest))
    }
}

/// A class, where the list is sound and the label is one, by counting covered labels. It takes time by the square of the rows.
pub fn by_counting(rows: &[Row], label: u32) -> Result<u16, Refused> {
    for (i, row) in rows.iter().enumerate() {
        if row.invalid() {
            return Err(Why::Row.at(i));
        }
        let before = &rows[..i];
        if before.iter().map(|other| other.labels_below(row.lowest)).sum::<u64>() < u64::from(row.lowest) {
            return Err(Why::Gap.at(i));
        }
        if before.iter().any(|other| other.covers(row.lowest) || row.covers(other.lowest)) {
            return Err(Why::Overlap.at(i));
        }
    }
    if rows.iter().map(|row| row.labels_below(LAST_LABEL + 1)).sum::<u64>() <= u64::from(LAST_LABEL) {
        return Err(Why::Gap.at(rows.len()));
    }
    if label > LAST_LABEL {
        return Err(Why::Record.here());
    }
    let covering: Vec<&Row> = rows.iter().filter(|row| row.covers(label)).collect();
    assert_eq!(covering.len(), 1, "a sound list covers each label once");
    Ok(covering[0].class)
}

/// The same in one pass over the rows, and by the standard library's binary search.
pub fn in_order(rows: &[Row], label: u32) -> Result<u16, Refused> {
    check(rows)?;
    if label > LAST_LABEL {
        return Err(Why::Record.here());
    }
    Ok(class(rows, label))
}

/// Whether a list is sound: one pass over the rows, each beside where the one before it ends.
pub fn check(rows: &[Row]) -> Result<(), Refused> {
    let mut next = 0;
    for (i, row) in rows.iter().enumerate() {
        if row.invalid() {
            return Err(Why::Row.at(i));
        }
        if row.lowest != next {
            let why = if row.lowest > next { Why::Gap } else { Why::Overlap };
            return Err(why.at(i));
        }
        next = row.highest + 1;
    }
    if next <= LAST_LABEL {
        return Err(Why::Gap.at(rows.len()));
    }
    Ok(())
}

/// The row of a sound list that covers a label.
fn covering(rows: &[Row], label: u32) -> &Row {
    &rows[rows.partition_point(|row| row.highest < label)]
}

/// The class of a label by a sound list.
pub fn class(rows: &[Row], label: u32) -> u16 {
    covering(rows, label).class
}

/// The grams of an entry with a label by a sound list.
pub fn grams(rows: &[Row], label: u32) -> u16 {
    covering(rows, label).grams
}
