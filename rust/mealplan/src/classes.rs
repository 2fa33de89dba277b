//! Who may read which label, and what an entry weighs.
use crate::{Label, Refused, class};

/// A row of a list of who may read which label, and of what an entry weighs: the labels from the lowest to the highest have the class, and so many
/// grams per entry.
#[repr(C)]
#[derive(Clone, Copy, PartialEq, Eq, Hash, Debug, Default)]
pub struct LabelRow {
    /// The lowest label.
    pub lowest: Label,
    /// The highest label.
    pub highest: Label,
    /// Their class, 0 to 3.
    pub class: u16,
    /// Grams per entry, and for label 0 per divider line; [`grams`](crate::grams) alone looks at them.
    pub grams: u16,
}

impl LabelRow {
    /// The row that gives these labels a class, and by which they weigh nothing.
    pub const fn new(lowest: Label, highest: Label, class: u16) -> LabelRow {
        LabelRow { lowest, highest, class, grams: 0 }
    }

    /// The same row with so many grams per entry.
    ///
    /// ```
    /// use mealplan::LabelRow;
    /// let row = LabelRow::new(98, 98, 2).weighing(30);
    /// assert_eq!((row.class, row.grams), (2, 30));
    /// ```
    pub const fn weighing(self, grams: u16) -> LabelRow {
        LabelRow { grams, ..self }
    }
}

/// A sound list: rows in label order that together cover 0 to [`LAST_LABEL`](crate::LAST_LABEL) once.
///
/// ```
/// use mealplan::{Classes, LAST_LABEL, LabelRow};
///
/// let rows = [LabelRow::new(0, 97, 0), LabelRow::new(98, 98, 2), LabelRow::new(99, LAST_LABEL, 1)];
/// assert_eq!(Classes::new(&rows)?.class_of(98), Ok(2));
///
/// // Label 98 is left out: 14, at the row after the gap.
/// assert_eq!(Classes::new(&[rows[0], rows[2]]).unwrap_err().number, 14);
/// # Ok::<(), mealplan::Refused>(())
/// ```
#[derive(Clone, Copy, PartialEq, Eq, Debug)]
pub struct Classes<'a> {
    rows: &'a [LabelRow],
}

impl<'a> Classes<'a> {
    /// The list, where it is sound. Refused with 13, 14 or 15 at the first row at fault.
    pub fn new(rows: &'a [LabelRow]) -> Result<Classes<'a>, Refused> {
        class(rows, 0).map(|_| Classes { rows })
    }

    /// The rows as they were lent.
    pub fn rows(self) -> &'a [LabelRow] {
        self.rows
    }

    /// The class of a label. Refused with 4 for one above [`LAST_LABEL`](crate::LAST_LABEL). The whole list is judged again, in time that goes by its
    /// length.
    pub fn class_of(self, label: Label) -> Result<u16, Refused> {
        class(self.rows, label)
    }
}

impl<'a> TryFrom<&'a [LabelRow]> for Classes<'a> {
    type Error = Refused;

    fn try_from(rows: &'a [LabelRow]) -> Result<Classes<'a>, Refused> {
        Classes::new(rows)
    }
}
