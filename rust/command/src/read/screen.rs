//! What the reader shows: a frame of lines that fit the window.
use super::reader::Reader;
use crate::labels::told;

/// Rows and columns of a window.
#[derive(Clone, Copy, Debug)]
pub struct Size {
    pub rows: usize,
    pub columns: usize,
}

/// To the upper left corner; clear to the end of the line; clear all below.
const HOME: &str = "\x1b[H";
const CLEAR_LINE: &str = "\x1b[K";
const CLEAR_BELOW: &str = "\x1b[J";

/// Lines that aren't the tree's, and the most children that are shown.
const OTHERS: usize = 10;
const CHILDREN: usize = 6;

/// The whole frame as the terminal takes it.
pub fn frame(reader: &Reader, size: Size) -> String {
    let clipped = |line: &String| line.chars().take(size.columns).chain(CLEAR_LINE.chars()).collect();
    let lines: Vec<String> = lines(reader, size).iter().take(size.rows).map(clipped).collect();
    format!("{HOME}{}{CLEAR_BELOW}", lines.join("\r\n"))
}

/// The lines, from the top.
fn lines(reader: &Reader, size: Size) -> Vec<String> {
    let label = reader.label().map_or("none".into(), told);
    let mut lines = vec![
        reader.title(),
        String::new(),
        format!("path   {}", reader.path().told(size.columns.saturating_sub(7))),
        format!("label  {label}"),
        format!("cells  {}", reader.cells()),
        format!("trail  {}", trail(reader, size.columns.saturating_sub(7))),
        String::new(),
    ];
    lines.extend(tree(reader, size.rows.saturating_sub(OTHERS)));
    lines.push(String::new());
    lines.push(reader.message().to_owned());
    lines.push("arrows or a z f l n p u s walk   m remember  g go back  = compare   q end".into());
    lines
}

/// The labels from the root down to here; where they are too long, the last of them.
fn trail(reader: &Reader, columns: usize) -> String {
    let labels = reader.trail(columns / 4);
    let whole = labels.join(" / ");
    if whole.len() <= columns && labels.len() == reader.path().level() {
        return whole;
    }
    let mut from = labels.len();
    let mut length = 3;
    while from > 0 && length + 3 + labels[from - 1].len() <= columns {
        from -= 1;
        length += 3 + labels[from].len();
    }
    std::iter::once("...").chain(labels[from..].iter().map(String::as_str)).collect::<Vec<&str>>().join(" / ")
}

/// The siblings around, a mark before the one where the reader stands, and its first children below it.
fn tree(reader: &Reader, rows: usize) -> Vec<String> {
    let Some(label) = reader.label().filter(|_| rows > 0) else { return Vec::new() };
    let children = CHILDREN.min((rows - 1) / 2);
    let around = reader.around(rows, rows, children + 1);
    let below = around.children.len().min(children);
    let beside = rows - 1 - below;
    // Half of the rest for those before, unless those after leave room.
    let before = around.before.len().min((beside / 2).max(beside.saturating_sub(around.after.len())));
    let after = around.after.len().min(beside - before);
    let mut lines: Vec<String> =
        around.before[..before].iter().rev().map(|label| format!("    {}", told(*label))).collect();
    let more = if around.children.len() > below { " ..." } else { "" };
    lines.push(format!("  > {}{more}", told(label)));
    lines.extend(around.children[..below].iter().map(|label| format!("        {}", told(*label))));
    lines.extend(around.after[..after].iter().map(|label| format!("    {}", told(*label))));
    lines
}

#[cfg(test)]
mod tests {
    use super::*;
    use mealplan::Plan;

    fn shown(letters: &[u8], size: Size) -> Vec<String> {
        let bytes =
            std::fs::read(concat!(env!("CARGO_MANIFEST_DIR"), "/../../samples/plan.bin")).expect("the sample plan");
        let mut reader = Reader::new("x", Plan::new(&bytes).expect("a plan").walker());
        letters.iter().for_each(|letter| reader.go(*letter));
        let frame = frame(&reader, size);
        let text = frame.strip_prefix(HOME).and_then(|text| text.strip_suffix(CLEAR_BELOW)).expect("a whole frame");
        text.split("\r\n").map(|line| line.trim_end_matches(CLEAR_LINE).to_owned()).collect()
    }

    #[test]
    fn the_sample_in_a_window() {
        let lines = shown(b"afnn", Size { rows: 24, columns: 80 });
        let expected = [
            "x: 8 narrow rules, start 7; 3 trees, 11 entries, 3 levels",
            "",
            "path   1 / 3",
            "label  99 c",
            "cells  4",
            "trail  99 c / 99 c",
            "",
            "    97 a",
            "    98 b",
            "  > 99 c",
            "        97 a",
            "        98 b",
            "        97 a",
            "        98 b",
            "    98 b",
            "",
            "",
        ];
        assert_eq!(lines[..expected.len()], expected);
        assert_eq!(lines.len(), expected.len() + 1);
    }

    #[test]
    fn every_window_holds_its_frame() {
        for rows in 0..30 {
            for columns in [0, 1, 7, 20, 80] {
                for letters in ["", "a", "afnnf", "zl"] {
                    let lines = shown(letters.as_bytes(), Size { rows, columns });
                    assert!(lines.len() <= rows.max(1) && lines.iter().all(|line| line.chars().count() <= columns));
                }
            }
        }
    }
}
