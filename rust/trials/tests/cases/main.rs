//! The cases of tests/cases.txt, which says how they are written: each is called by the safe functions, and what comes of it must be
//! the text that its line gives.
mod told;

use mealplan::LabelRow;
use std::fs;
use std::path::PathBuf;
use trials::call::{Call, Implementation, Operation, Outcome, Slices, Values};
use trials::library::Library;

/// The byte that is everywhere in lent memory before a call.
const FILL: u8 = b'.';
/// The most bytes of a plan or cursor.
const MOST: usize = 1 << 20;

#[test]
fn every_case_comes_out_as_written() {
    let text = String::from_utf8(read("tests", "cases.txt")).expect("the cases are text");
    let mut lent = Lent::nothing(read("samples", "plan.bin"), read("samples", "wide.bin"));
    let (mut ran, mut wrong) = (0, 0);
    for (number, line) in (1..).zip(text.lines()) {
        let taken = match line.as_bytes() {
            [] | [b'#', ..] => Ok(()),
            [b'|', ..] => {
                ran += 1;
                lent.run(&line[1..])
            }
            _ => lent.lend(line),
        };
        if let Err(why) = taken {
            wrong += 1;
            println!("tests/cases.txt, line {number}: {line}\n  {why}");
        }
    }
    println!("tests/cases.txt: {ran} cases");
    assert!(ran > 0, "there are no cases");
    assert_eq!(wrong, 0, "lines that went wrong");
}

/// A file of the repository.
fn read(folder: &str, name: &str) -> Vec<u8> {
    let path: PathBuf = [env!("CARGO_MANIFEST_DIR"), "..", "..", folder, name].iter().collect();
    fs::read(&path).unwrap_or_else(|error| panic!("{}: {error}", path.display()))
}

/// What the lines so far lend. The plan is the first bytes of its room, so many; those behind them stay for a line that comes later. The copy is
/// the last that was made.
struct Lent {
    sample: Vec<u8>,
    wide: Vec<u8>,
    plan: Vec<u8>,
    length: usize,
    cursor: Vec<u8>,
    second: Vec<u8>,
    rows: Vec<LabelRow>,
    copy: Vec<u8>,
}

impl Lent {
    fn nothing(sample: Vec<u8>, wide: Vec<u8>) -> Lent {
        Lent {
            sample,
            wide,
            plan: vec![0; MOST],
            length: 0,
            cursor: vec![0; MOST],
            second: vec![0; MOST],
            rows: Vec::new(),
            copy: Vec::new(),
        }
    }

    /// A line that lends.
    fn lend(&mut self, line: &str) -> Result<(), String> {
        let (name, numbers) = line.split_once(' ').unwrap_or((line, ""));
        let numbers = numbers.split_whitespace().map(number).collect::<Result<Vec<usize>, String>>()?;
        match (name, &numbers[..]) {
            ("plan" | "rules", words) => self.length = put(&bytes(words)?, &mut self.plan, 0)?,
            ("from", [at, words @ ..]) => self.length = put(&bytes(words)?, &mut self.plan, *at)?,
            ("sample", [at]) => self.length = put(&self.sample, &mut self.plan, *at)?,
            ("wide", [at]) => self.length = put(&self.wide, &mut self.plan, *at)?,
            ("zeros", [] | [_]) => {
                self.plan.fill(0);
                let length = numbers.first().copied().unwrap_or(0);
                self.length = self.plan.get(..length).ok_or("no room for so many")?.len();
            }
            ("cursor", words) => {
                self.cursor.fill(FILL);
                put(&bytes(words)?, &mut self.cursor, 0)?;
            }
            ("second", words) => {
                self.second.fill(FILL);
                put(&bytes(words)?, &mut self.second, 0)?;
            }
            ("keep", []) => self.second.copy_from_slice(&self.cursor),
            ("rows", numbers) => {
                let rows: &[[usize; 3]] = numbers.as_chunks().0;
                self.rows = rows.iter().map(row).collect::<Result<Vec<LabelRow>, String>>()?;
            }
            ("grams", grams) if grams.len() == self.rows.len() => {
                for (row, grams) in self.rows.iter_mut().zip(grams) {
                    row.grams = u16::try_from(*grams).map_err(|_| format!("{grams} is no word"))?;
                }
            }
            _ => return Err("no such line".to_string()),
        }
        Ok(())
    }

    /// A case, without its first bar. What the call leaves in the cursor is lent to the next.
    fn run(&mut self, case: &str) -> Result<(), String> {
        let fields: Vec<&str> = case.splitn(3, '|').collect();
        let [text, _, expected] = fields[..] else { return Err("a case has three fields".to_string()) };
        let came = match text.split_once(' ') {
            Some(("class", label)) => told::class(mealplan::class(&self.rows, long(label)?)),
            Some(("client", letters)) => self.answers(letters.as_bytes()),
            None if text == "weigh" => told::grams(&made(&mut self.copied(Operation::Grams))),
            _ => self.made(text)?,
        };
        if came == expected { Ok(()) } else { Err(format!("expected: {expected}\n  came:     {came}")) }
    }

    /// What comes of the call that a case's first field says.
    fn made(&mut self, text: &str) -> Result<String, String> {
        let mut call = self.call(text)?;
        let before = call.clone();
        let outcome = made(&mut call);
        self.cursor[..call.cursor.len()].copy_from_slice(&call.cursor);
        if let (Operation::Copy, Ok(Values::Length(length))) = (call.operation, outcome) {
            self.copy = call.out[..length as usize].to_vec();
        }
        Ok(told::line(&before, &call, &outcome))
    }

    /// The answers to letters on the last copy, from above its forest.
    fn answers(&self, letters: &[u8]) -> String {
        let mut call = self.copied(Operation::Walk).with_letters(letters);
        let outcome = made(&mut call);
        told::answers(&call, &outcome)
    }

    /// A call on the last copy, by the list.
    fn copied(&self, operation: Operation) -> Call {
        let n = mealplan::check(&self.copy).map_or(0, |checked| checked.n.into());
        Call { rows: self.rows.clone(), ..Call::new(operation, self.copy.clone(), n) }
    }

    /// The call that a case's first field says, with slices of just the lengths that it is lent.
    fn call(&self, text: &str) -> Result<Call, String> {
        let parts: Vec<&str> = text.splitn(5, ' ').collect();
        let (name, lengths, tail) = match parts[..] {
            [name] => (name, ["0"; 3], None),
            [name, work, cursor, out] => (name, [work, cursor, out], None),
            [name, work, cursor, out, tail] => (name, [work, cursor, out], Some(tail)),
            _ => return Err("three numbers stand behind an operation, or none".to_string()),
        };
        let [work, cursor, out] = lengths.map(number);
        let (work, out) = (vec![FILL; work?], vec![FILL; out?]);
        let cursor = lent(&self.cursor, cursor?)?;
        let plan = self.plan[..self.length].to_vec();
        let operation = operation(name)?;
        let mut call = Call { work, cursor, ..Call::new(operation, plan, 0) };
        match (operation, tail) {
            (Operation::Walk, Some(letters)) => {
                call.letters = letters.as_bytes().to_vec();
                call.answers = out;
            }
            (Operation::Compare, Some(budget)) => {
                call.second = lent(&self.second, out.len())?;
                call.budget = budget.parse().map_err(|_| format!("'{budget}' is no budget"))?;
            }
            (Operation::Seal, Some(told)) => {
                let (record_length, start) = told.split_once(' ').ok_or("seal needs a record length and a start")?;
                call.record_length = word(record_length)?;
                call.start = word(start)?;
                call.out = out;
            }
            (Operation::Copy, Some(class)) => {
                call.rows = self.rows.clone();
                call.class = word(class)?;
                call.out = out;
            }
            (Operation::Reason, Some(letter)) => {
                let [letter] = letter.as_bytes() else { return Err(format!("'{letter}' isn't one byte")) };
                call.letter = *letter;
            }
            (Operation::Grams, None) => call.rows = self.rows.clone(),
            (Operation::Copy, None) => return Err("copy needs a class".to_string()),
            (Operation::Compare, None) => return Err("compare needs a budget".to_string()),
            (Operation::Walk, None) => return Err("walk needs letters".to_string()),
            (Operation::Reason, None) => return Err("reason needs a letter".to_string()),
            (Operation::Seal, None) => return Err("seal needs a record length and a start".to_string()),
            (_, Some(tail)) => return Err(format!("{name} doesn't take {tail}")),
            (_, None) => call.out = out,
        }
        Ok(call)
    }
}

/// So many bytes of a cursor.
fn lent(cursor: &[u8], length: usize) -> Result<Vec<u8>, String> {
    Ok(cursor.get(..length).ok_or("no room for such a cursor")?.to_vec())
}

/// What the library makes of a call, which then has the slices as they are left.
fn made(call: &mut Call) -> Outcome {
    let lent = Slices {
        plan: &call.plan,
        record_length: call.record_length,
        start: call.start,
        work: &mut call.work,
        cursor: &mut call.cursor,
        letters: &call.letters,
        answers: &mut call.answers,
        out: &mut call.out,
        second: &call.second,
        budget: call.budget,
        letter: call.letter,
        rows: &call.rows,
        class: call.class,
    };
    Library.run(call.operation, lent).expect("it takes on every call")
}

fn operation(name: &str) -> Result<Operation, String> {
    Ok(match name {
        "check" => Operation::Check,
        "seal" => Operation::Seal,
        "unseal" => Operation::Unseal,
        "measure" => Operation::Measure,
        "spread" => Operation::Spread,
        "walk" => Operation::Walk,
        "compare" => Operation::Compare,
        "copy" => Operation::Copy,
        "grams" => Operation::Grams,
        "reason" => Operation::Reason,
        _ => return Err(format!("{name} is no operation")),
    })
}

fn number(text: &str) -> Result<usize, String> {
    text.parse().map_err(|_| format!("'{text}' is no number"))
}

fn word(text: &str) -> Result<u16, String> {
    text.parse().map_err(|_| format!("'{text}' is no word"))
}

fn long(text: &str) -> Result<u32, String> {
    text.parse().map_err(|_| format!("'{text}' is no label"))
}

/// A row of three numbers, which weighs the most until its grams are told.
fn row([lowest, highest, class]: &[usize; 3]) -> Result<LabelRow, String> {
    let told = |number: &usize| u32::try_from(*number).map_err(|_| format!("{number} is no label"));
    let class = u16::try_from(*class).map_err(|_| format!("{class} is no word"))?;
    Ok(LabelRow::new(told(lowest)?, told(highest)?, class).weighing(65_535))
}

/// Numbers as 16-bit words.
fn bytes(words: &[usize]) -> Result<Vec<u8>, String> {
    let word = |word: &usize| u16::try_from(*word).map(u16::to_le_bytes).map_err(|_| format!("{word} is no word"));
    Ok(words.iter().map(word).collect::<Result<Vec<_>, _>>()?.concat())
}

/// Some bytes into a room behind so many others: where they end.
fn put(bytes: &[u8], room: &mut [u8], at: usize) -> Result<usize, String> {
    let end = at + bytes.len();
    room.get_mut(at..end).ok_or("no room for it")?.copy_from_slice(bytes);
    Ok(end)
}
