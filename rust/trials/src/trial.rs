//! Calls run by every implementation on guarded memory, and compared.
use crate::call::{ByRules, Call, Implementation, OnForest, Operation, Outcome, Slices, Values};
use crate::copies;
use crate::laws;
use crate::library::{Interface, Library};
use crate::random::Random;
use crate::room::Room;
use crate::tally::Tally;
use mealplan::LabelRow;
use reference::Refused;
use reference::copy::{self, Client};

pub struct Trial {
    pub random: Random,
    pub tally: Tally,
    pub forest: OnForest,
    rooms: Rooms,
    seed: u64,
}

/// What all implementations agreed on: the outcome, and the slices after the call.
pub struct Judged {
    pub outcome: Outcome,
    pub after: Call,
}

impl Trial {
    pub fn new(seed: u64) -> Trial {
        Trial {
            random: Random::new(seed),
            tally: Tally::default(),
            forest: OnForest::default(),
            rooms: Rooms::default(),
            seed,
        }
    }

    /// Runs a call by every implementation. All must agree on the outcome and on every byte, but for the rules of a copy.
    pub fn judge(&mut self, call: &Call) -> Judged {
        if call.operation == Operation::Copy {
            return self.judge_copy(call);
        }
        let _told = Told { call, seed: self.seed };
        let odd = self.random.once_in(2);
        let outcome = self.rooms.run(&mut ByRules, call, odd).expect("it takes on every call");
        let after = self.rooms.taken_back(call);
        laws::ask(call, &outcome, &after);
        let others: [&mut dyn Implementation; 3] = [&mut self.forest, &mut Library, &mut Interface];
        for other in others {
            let Some(answer) = self.rooms.run(other, call, odd) else { continue };
            let name = other.name();
            assert_eq!(answer, outcome, "{name} answers otherwise (left) than {} (right)", ByRules.name());
            self.rooms.compare([name, ByRules.name()], &after);
        }
        self.tally.count(call, &outcome, &after);
        Judged { outcome, after }
    }

    /// Runs a copy by the library, by its safe function and by its C function, which must do the same. The reference says whether it is refused,
    /// and what must hold of a copy is asked of what was written.
    fn judge_copy(&mut self, call: &Call) -> Judged {
        let _told = Told { call, seed: self.seed };
        let odd = self.random.once_in(2);
        let client = call.client();
        let refused = client.judge(&call.plan, call.work.len(), call.out.len()).err();
        let outcome = self.rooms.run(&mut Library, call, odd).expect("it takes on every call");
        assert_eq!(outcome.err(), refused, "{} refuses otherwise (left) than the reference (right)", Library.name());
        let after = self.rooms.taken_back(call);
        laws::ask(call, &outcome, &after);
        let answer = self.rooms.run(&mut Interface, call, odd).expect("it takes on every call");
        let names = [Interface.name(), Library.name()];
        assert_eq!(answer, outcome, "{} answers otherwise (left) than {} (right)", names[0], names[1]);
        self.rooms.compare(names, &after);
        if let Ok(Values::Length(length)) = outcome {
            self.ask_copy(&call.plan, &client, &after.out[..length as usize]);
        }
        self.tally.count(call, &outcome, &after);
        Judged { outcome, after }
    }

    /// Asks of a copy what must hold of it, and where the plan's forest is small, that the copy's is what the client sees of it.
    fn ask_copy(&mut self, plan: &[u8], client: &Client, copy: &[u8]) {
        let base = self.random.number();
        if let Err(fault) = copies::judge(plan, client, copy, base) {
            panic!("{fault}: the copy is {}", hex(copy, 600));
        }
        let Some(unfolded) = self.forest.unfold(plan) else {
            return self.tally.count_copy(client.class, None);
        };
        let (seen, all) = (unfolded.visible(client), copy::nodes(&unfolded.forest.trees));
        match copies::unfolded(copy, copy::count(&seen)) {
            Some(copied) if copied == seen => (),
            Some(copied) => panic!("the copy is {}, and seen is {}", copy::told(&copied), copy::told(&seen)),
            None => panic!("the copy is larger than what is seen, {}", copy::told(&seen)),
        }
        self.tally.count_copy(client.class, Some([copy::count(&all), copy::count(&seen)]));
    }

    /// A call that would take the references too long: the library must give what is known of it from how it was made.
    pub fn told(&mut self, call: &Call, outcome: &Outcome, why: &str) {
        let _told = Told { call, seed: self.seed };
        let odd = self.random.once_in(2);
        let others: [&mut dyn Implementation; 2] = [&mut Library, &mut Interface];
        for other in others {
            let answer = self.rooms.run(other, call, odd).expect("it takes on every call");
            assert_eq!(answer, *outcome, "{} answers otherwise (left) than is known (right): {why}", other.name());
            laws::ask(call, outcome, &self.rooms.taken_back(call));
        }
        self.tally.count(call, outcome, call);
        self.tally.told += 1;
    }

    /// A call that must be accepted; gives the slices after it.
    pub fn accepted(&mut self, call: &Call, why: &str) -> Call {
        let Judged { outcome, after } = self.judge(call);
        let _told = Told { call, seed: self.seed };
        assert!(outcome.is_ok(), "{why}, not refused with {outcome:?}");
        after
    }

    /// A call that must be refused so.
    pub fn refused(&mut self, call: &Call, way: &str, refused: Refused) {
        let outcome = self.judge(call).outcome;
        let _told = Told { call, seed: self.seed };
        assert_eq!(outcome, Err(refused), "{way}");
        self.tally.way(call.operation, refused.number, way, true);
    }

    /// A call that may be refused with this number.
    pub fn perhaps_refused(&mut self, call: &Call, way: &str, number: u32) {
        let outcome = self.judge(call).outcome;
        let came_up = outcome.is_err_and(|refused| refused.number == number);
        self.tally.way(call.operation, number, way, came_up);
    }
}

/// The memory that is lent, one room a slice.
#[derive(Default)]
struct Rooms {
    plan: Room,
    work: Room,
    cursor: Room,
    letters: Room,
    answers: Room,
    out: Room,
    second: Room,
    rows: Vec<LabelRow>,
}

impl Rooms {
    fn run(&mut self, implementation: &mut dyn Implementation, call: &Call, odd: bool) -> Option<Outcome> {
        self.plan.fill(&call.plan, odd);
        self.work.fill(&call.work, odd);
        self.cursor.fill(&call.cursor, odd);
        self.letters.fill(&call.letters, odd);
        self.answers.fill(&call.answers, odd);
        self.out.fill(&call.out, odd);
        self.second.fill(&call.second, odd);
        self.rows.clone_from(&call.rows);
        let lent = Slices {
            plan: self.plan.lend(),
            record_length: call.record_length,
            start: call.start,
            work: self.work.lend(),
            cursor: self.cursor.lend(),
            letters: self.letters.lend(),
            answers: self.answers.lend(),
            out: self.out.lend(),
            second: self.second.lend(),
            budget: call.budget,
            letter: call.letter,
            rows: &self.rows,
            class: call.class,
        };
        let outcome = implementation.run(call.operation, lent);
        for (name, room) in self.named() {
            assert!(room.guarded(), "{} wrote outside {name}", implementation.name());
        }
        assert!(self.rows == call.rows, "{} wrote its rows", implementation.name());
        outcome
    }

    fn named(&self) -> [(&'static str, &Room); 7] {
        [
            ("plan", &self.plan),
            ("work", &self.work),
            ("cursor", &self.cursor),
            ("letters", &self.letters),
            ("answers", &self.answers),
            ("output", &self.out),
            ("second cursor", &self.second),
        ]
    }

    /// The slices as the last call left them.
    fn taken_back(&self, call: &Call) -> Call {
        let [plan, work, cursor, letters, answers, out, second] = self.named().map(|(_, room)| room.content().to_vec());
        let rows = self.rows.clone();
        Call { plan, work, cursor, letters, answers, out, second, rows, ..*call }
    }

    /// What the last call left is what an implementation left before, byte by byte.
    fn compare(&self, [name, before]: [&str; 2], after: &Call) {
        let Call { plan, work, cursor, letters, answers, out, second, .. } = after;
        let wanted = [plan, work, cursor, letters, answers, out, second];
        for ((slice, room), wanted) in self.named().into_iter().zip(wanted) {
            let differs = room.content().iter().zip(wanted).position(|(got, want)| got != want);
            if let Some(byte) = differs {
                let (got, want) = (&room.content()[byte & !7..], &wanted[byte & !7..]);
                panic!(
                    "{name} left other {slice} than {before} at byte {byte}: {:?}, not {:?}",
                    &got[..got.len().min(16)],
                    &want[..want.len().min(16)]
                );
            }
        }
    }
}

/// Tells the call that was tried if the trial ends in panic.
struct Told<'a> {
    call: &'a Call,
    seed: u64,
}

impl Drop for Told<'_> {
    fn drop(&mut self) {
        if !std::thread::panicking() {
            return;
        }
        let Call {
            operation,
            plan,
            record_length,
            start,
            work,
            cursor,
            letters,
            answers,
            out,
            second,
            budget,
            letter,
            rows,
            class,
        } = self.call;
        eprintln!("TRIALS_SEED={}: {operation:?}, seal's record length {record_length} and start {start}", self.seed);
        eprintln!("  plan ({} bytes) {}", plan.len(), hex(plan, 600));
        eprintln!("  cursor ({} bytes) {}", cursor.len(), hex(cursor, 200));
        eprintln!("  second cursor ({} bytes) {}, budget {budget}", second.len(), hex(second, 200));
        let some = String::from_utf8_lossy(&letters[..letters.len().min(200)]);
        eprintln!("  letters ({}) {some}; reason's is {}", letters.len(), letter.escape_ascii());
        eprintln!("  bytes of work {}, answers {}, output {}", work.len(), answers.len(), out.len());
        if operation.has_list() {
            let row = |row: &LabelRow| [row.lowest, row.highest, row.class.into(), row.grams.into()];
            let some: Vec<[u32; 4]> = rows.iter().take(60).map(row).collect();
            eprintln!("  rows ({}) {some:?}, class {class}", rows.len());
        }
    }
}

fn hex(bytes: &[u8], most: usize) -> String {
    let shown = bytes.iter().take(most).map(|byte| format!("{byte:02x}")).collect::<String>();
    if bytes.len() > most { shown + ".." } else { shown }
}
