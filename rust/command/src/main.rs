//! The command `mealplan`: what a person does with plans, over crate `mealplan`. Exit status: 0 done, 1 the input was refused, 2 the command was
//! called wrongly or a file can't be read or written.
#![deny(unsafe_code)]

mod arguments;
mod commands;
mod files;
mod labels;
mod list;
mod operations;
mod progress;
mod read;
mod rules;
mod show;
mod trouble;

use std::process::ExitCode;
use trouble::Trouble;

fn main() -> ExitCode {
    let words: Result<Vec<String>, _> = std::env::args_os().skip(1).map(|word| word.into_string()).collect();
    let words =
        words.map_err(|word| Trouble::Usage(format!("{} is no UTF-8; a file can be lent as -", word.display())));
    match words.and_then(|words| commands::run(&words)) {
        Ok(()) => ExitCode::SUCCESS,
        Err(trouble) => trouble.end(),
    }
}
