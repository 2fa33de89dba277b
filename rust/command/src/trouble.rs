//! What a command ends with where it isn't done.
use mealplan::Refused;
use std::io::{self, Write};
use std::process::ExitCode;

#[derive(Debug)]
pub enum Trouble {
    /// Called wrongly: what is wrong.
    Usage(String),
    /// A file that can't be read or written.
    File(String, io::Error),
    /// What was refused, the refusal, and the line of the text that is at fault, where there is one.
    Refused(String, Refused, Option<usize>),
    /// A text that says no rules or rows: its name, the line, and what is wrong.
    Text(String, usize, String),
    /// Nobody reads the output any more.
    Unread,
}

pub type Outcome = Result<(), Trouble>;

impl Trouble {
    /// What was refused is named as the user named it.
    pub fn refused(what: &str) -> impl FnOnce(Refused) -> Trouble {
        let what = what.to_owned();
        move |refused| Trouble::Refused(what, refused, None)
    }

    /// Standard output can't be written; where nobody reads it, that is no fault.
    pub fn output(error: io::Error) -> Trouble {
        match error.kind() {
            io::ErrorKind::BrokenPipe => Trouble::Unread,
            _ => Trouble::File("standard output".into(), error),
        }
    }

    /// Says it on standard error; gives the exit status.
    pub fn end(self) -> ExitCode {
        let (status, message) = match self {
            Trouble::Usage(wrong) => (2, wrong),
            Trouble::File(name, error) => (2, format!("{name}: {error}")),
            Trouble::Refused(what, refused, None) => (1, format!("{what}: {refused}")),
            Trouble::Refused(what, refused, Some(line)) => (1, format!("{what}, line {line}: {refused}")),
            Trouble::Text(name, line, wrong) => (1, format!("{name}, line {line}: {wrong}")),
            Trouble::Unread => return ExitCode::SUCCESS,
        };
        // Nobody who can't be told is told.
        let _ = writeln!(io::stderr(), "mealplan: {message}");
        ExitCode::from(status)
    }
}
