//! Files read and written; `-` is standard input or output.
use crate::trouble::{Outcome, Trouble};
use std::fs;
use std::io::{self, IsTerminal, Read, Write};

/// A file's bytes.
pub fn read(name: &str) -> Result<Vec<u8>, Trouble> {
    let read = match name {
        "-" => {
            let mut bytes = Vec::new();
            io::stdin().lock().read_to_end(&mut bytes).map(|_| bytes)
        }
        _ => fs::read(name),
    };
    read.map_err(|error| Trouble::File(name.to_owned(), error))
}

/// A file's text.
pub fn read_text(name: &str) -> Result<String, Trouble> {
    let before = |bytes: &[u8]| bytes.iter().filter(|byte| **byte == b'\n').count();
    String::from_utf8(read(name)?).map_err(|error| {
        let line = 1 + before(&error.as_bytes()[..error.utf8_error().valid_up_to()]);
        Trouble::Text(name.to_owned(), line, "this is no text".into())
    })
}

/// Writes a plan to the file named, or to standard output where that isn't a terminal.
pub fn write_plan(name: Option<&str>, plan: &[u8]) -> Outcome {
    match name {
        Some(name) if name != "-" => fs::write(name, plan).map_err(|error| Trouble::File(name.to_owned(), error)),
        None if io::stdout().is_terminal() => {
            Err(Trouble::Usage("a plan's bytes are not for a terminal: name a file with -o".into()))
        }
        _ => print(plan),
    }
}

/// Writes to standard output, at once.
pub fn print(bytes: &[u8]) -> Outcome {
    let mut out = io::stdout().lock();
    out.write_all(bytes).and_then(|()| out.flush()).map_err(Trouble::output)
}
