//! The reader in the terminal: `mealplan read PLAN`.
mod keys;
mod path;
mod reader;
mod screen;
#[allow(unsafe_code)]
mod terminal;

use crate::arguments::Arguments;
use crate::trouble::{Outcome, Trouble};
use crate::{files, operations};
use keys::{Key, Keys};
use mealplan::Plan;
use reader::Reader;
use std::fs::File;
use std::io::{self, IsTerminal, Read, Write};
use std::os::fd::AsFd;
use terminal::Event;

pub const HELP: &str = "  --rule R  the forest of this rule alone; of the start if not given\n\
     Keys: a, z or Home, End first, last root; f or right first child; l last child; n, p or down, up next, previous\n\
     sibling; u or left parent; s stay; m remembers the place, g goes back there, = compares with it; q ends.\n\
     It shows the path (the place among the siblings at each level, from 1), the label and how many cells the place has. A key\n\
     that leads nowhere says why.\n";

/// Reads a plan until q or the end of the input.
pub fn run(arguments: &Arguments) -> Outcome {
    let [name] = arguments.words()?;
    if name == "-" {
        return Err(Trouble::Usage("standard input has the keys, so the plan is in a file".into()));
    }
    if !io::stdin().is_terminal() || !io::stdout().is_terminal() {
        return Err(Trouble::Usage("a reader needs a terminal for its keys and its screen".into()));
    }
    let rule = arguments.given("--rule")?;
    let bytes = files::read(name)?;
    let plan = Plan::new(&bytes).map_err(Trouble::refused(name))?;
    let mut reader = Reader::new(name, operations::walker_of(plan, rule)?);
    let trouble = |error| Trouble::File("the terminal".into(), error);
    let ended = {
        let raw = terminal::Raw::begin().map_err(trouble)?;
        let ended = attend(&mut reader);
        drop(raw);
        ended
    };
    ended.map_err(trouble)?;
    files::print(format!("stopped at {}, {} cells\n", reader.path(), reader.cells()).as_bytes())
}

/// Draws and takes keys by turns.
fn attend(reader: &mut Reader) -> io::Result<()> {
    // Not through the buffer of standard input, which may hold keys that the wait doesn't see.
    let mut input = File::from(io::stdin().as_fd().try_clone_to_owned()?);
    let mut keys = Keys::default();
    let mut bytes = [0; 64];
    loop {
        draw(reader)?;
        if terminal::wait()? == Event::Stale {
            continue;
        }
        let count = match input.read(&mut bytes) {
            Ok(0) => return Ok(()),
            Ok(count) => count,
            Err(error) if error.kind() == io::ErrorKind::Interrupted => continue,
            Err(error) => return Err(error),
        };
        for key in bytes.iter().take(count).filter_map(|byte| keys.take(*byte)) {
            match key {
                Key::End => return Ok(()),
                Key::Stop => terminal::stop(),
                Key::Letter(letter) => reader.go(letter),
                Key::Remember => reader.remember(),
                Key::Return => reader.go_back(),
                Key::Compare => reader.compare(),
                Key::Other => reader.say("no such key"),
            }
        }
    }
}

fn draw(reader: &Reader) -> io::Result<()> {
    let mut out = io::stdout().lock();
    out.write_all(screen::frame(reader, terminal::size()).as_bytes())?;
    out.flush()
}
