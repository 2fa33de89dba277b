//! A list of who may read which label, and of what an entry weighs, as text: a row a line, its lowest label, its highest, its class and its grams
//! per entry, none where they aren't told. Behind `#` a line is a comment.
use crate::trouble::Trouble;
use mealplan::{Classes, LabelRow};

/// Rows that a text says, with the line of each.
pub struct List {
    pub rows: Vec<LabelRow>,
    lines: Vec<usize>,
    name: String,
}

impl List {
    /// Reads the text of a file of this name.
    pub fn read(name: &str, text: &str) -> Result<List, Trouble> {
        let mut list = List { rows: Vec::new(), lines: Vec::new(), name: name.to_owned() };
        for (i, line) in text.lines().enumerate() {
            let words: Vec<&str> = line.split('#').next().unwrap_or_default().split_whitespace().collect();
            if words.is_empty() {
                continue;
            }
            let wrong = || {
                Trouble::Text(
                    name.to_owned(),
                    i + 1,
                    "this is no row, as '0 97 2 120' is one: labels 0 to 97, class 2, 120 grams".into(),
                )
            };
            list.rows.push(row(&words).ok_or_else(wrong)?);
            list.lines.push(i + 1);
        }
        Ok(list)
    }

    /// The list, where it is sound; else the first row at fault, with its line.
    pub fn classes(&self) -> Result<Classes<'_>, Trouble> {
        Classes::new(&self.rows).map_err(|refused| {
            let line = usize::try_from(refused.position).ok().and_then(|row| self.lines.get(row)).copied();
            Trouble::Refused(self.name.clone(), refused, line)
        })
    }
}

fn row(words: &[&str]) -> Option<LabelRow> {
    let (lowest, highest, class, grams) = match words {
        [lowest, highest, class] => (lowest, highest, class, "0"),
        [lowest, highest, class, grams] => (lowest, highest, class, *grams),
        _ => return None,
    };
    let row = LabelRow::new(lowest.parse().ok()?, highest.parse().ok()?, class.parse().ok()?);
    Some(row.weighing(grams.parse().ok()?))
}

#[cfg(test)]
mod tests {
    use super::*;

    #[test]
    fn rows_are_read_with_their_lines() {
        let list =
            List::read("x", "# the clinic's\n0 97 0\n\n98 16777215 2 # all else\n").unwrap_or_else(|_| panic!("rows"));
        assert_eq!(list.rows, [LabelRow::new(0, 97, 0), LabelRow::new(98, 16_777_215, 2)]);
        assert!(matches!(list.classes(), Ok(classes) if classes.class_of(98) == Ok(2)));
        let list = List::read("x", "\n0 97 0\n\n97 16777215 2\n").unwrap_or_else(|_| panic!("rows"));
        let Err(Trouble::Refused(_, refused, Some(4))) = list.classes() else { panic!("an overlap on line 4") };
        assert_eq!((refused.number, refused.position), (15, 1));
    }

    #[test]
    fn a_row_of_three_numbers_weighs_nothing() {
        let list =
            List::read("x", "0 97 0 120 # each\n98 98 2\n99 16777215 1 65535\n").unwrap_or_else(|_| panic!("rows"));
        assert_eq!(list.rows.iter().map(|row| row.grams).collect::<Vec<u16>>(), [120, 0, 65_535]);
        assert!(list.classes().is_ok());
    }

    #[test]
    fn what_is_no_row_is_named() {
        for text in [
            "\n0 97",
            "\n0 97 1 2 3",
            "\na 97 1",
            "\n0 4294967296 1",
            "\n0 97 65536",
            "\n0 97 -1",
            "\n0 97 1 65536",
            "\n0 97 1 -1",
            "\n0 97 1 x",
        ] {
            assert!(matches!(List::read("x", text), Err(Trouble::Text(_, 2, _))), "{text}");
        }
    }
}
