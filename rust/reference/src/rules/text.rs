//! The text of a rule's forest, by recursion over rules, none of which reaches itself: at most 16,384 deep.
use super::table::{NONE, Table};
use crate::Format;
use crate::plan::Rule;

/// Writes the text of a closed rule, which has exactly the length of `out`.
pub fn write(table: &Table, format: Format, rule: u16, out: &mut [u8]) {
    let mut writer = Writer { table, format, out, written: 0 };
    writer.closed(rule);
}

struct Writer<'a> {
    table: &'a Table<'a>,
    format: Format,
    out: &'a mut [u8],
    written: usize,
}

impl Writer<'_> {
    fn put(&mut self, byte: u8) {
        self.out[self.written] = byte;
        self.written += 1;
    }

    fn open(&mut self, label: u32) {
        self.put(b'(');
        for byte in &label.to_le_bytes()[..self.format.label()] {
            self.put(*byte);
        }
    }

    /// A closed rule's forest. Empty rules and one-sided pairs cost nothing: the representative is written.
    fn closed(&mut self, rule: u16) {
        let representative = self.table.representative(rule);
        if representative == NONE {
            return;
        }
        match self.table.rule(representative) {
            Rule::Pair(b, c) => {
                self.closed(b);
                self.closed(c);
            }
            Rule::Node(label, c) => {
                self.open(label);
                self.closed(c);
                self.put(b')');
            }
            Rule::Fill(b, c) => {
                self.before_hole(b);
                self.closed(c);
                self.after_hole(b);
            }
            _ => (),
        }
    }

    fn before_hole(&mut self, rule: u16) {
        match self.table.rule(rule) {
            Rule::Part(label, l, _) => {
                self.open(label);
                self.closed(l);
            }
            Rule::Join(b, c) => {
                self.before_hole(b);
                self.before_hole(c);
            }
            _ => (),
        }
    }

    fn after_hole(&mut self, rule: u16) {
        match self.table.rule(rule) {
            Rule::Part(_, _, r) => {
                self.closed(r);
                self.put(b')');
            }
            Rule::Join(b, c) => {
                self.after_hole(c);
                self.after_hole(b);
            }
            _ => (),
        }
    }
}
