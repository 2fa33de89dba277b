//! The tables, as they are printed and as they stand in docs/bench.md.
use crate::setting;
use std::fmt::{Display, Write};

pub struct Report(String);

const ABOUT: &str = "# Measurements

Written by `cargo run --release --bin bench` in `rust/`, not by hand. The proved library (`target/staticlib/libmealplan.a`, called through the \
crate `mealplan`) against `rust/reference`, a walker without proofs with the same kind of tables: a row for each rule in the lent work, \
with jumps along either side, built anew in every call.

Both run on the same buffers. These were not cleared for the clock: they had been written once before, and each call leaves its work as \
zeros, which is promised and part of its time. What was measured with what:

";

/// A figure of few digits.
pub fn shown(figure: f64) -> String {
    let digits = if figure < 10.0 { 2 } else { 1 };
    format!("{figure:.digits$}")
}

impl Report {
    pub fn new() -> Report {
        Report(format!("{ABOUT}{}", setting::all()))
    }

    pub fn section(&mut self, title: &str, about: &str) {
        write!(self.0, "\n## {title}\n\n{about}\n\n").expect("a string takes all");
    }

    pub fn header(&mut self, columns: &[&str]) {
        let rule = "---|".repeat(columns.len());
        write!(self.0, "| {} |\n|{rule}\n", columns.join(" | ")).expect("a string takes all");
    }

    pub fn row(&mut self, name: &str, number: impl Display, cells: &[String]) {
        writeln!(self.0, "| {name} | {number} | {} |", cells.join(" | ")).expect("a string takes all");
    }

    pub fn text(&self) -> &str {
        &self.0
    }
}
