//! What has been tried, and whether it was enough.
use crate::call::{Call, Operation, Outcome, Values};
use crate::laws;
use reference::plan::FEW_RULES;
use reference::{Compared, NOWHERE, Reason, Why, answers, words};
use std::collections::BTreeMap;
use std::fmt;

/// How often each way to a refusal must have come up.
pub const LEAST_EACH_WAY: u64 = 100;
pub const LEAST_LETTERS: u64 = 1_000_000;
/// How many plans must have been compared with themselves in another order.
pub const LEAST_RENUMBERED: u64 = 1_000;
/// How many narrow plans must have been compared with themselves as wide ones.
pub const LEAST_WIDENED: u64 = 1_000;
/// How many calls on plans of more than 1,024 rules must have been compared, letters walked there, and the most cells of a place reached.
pub const LEAST_CALLS_OF_WARDS: u64 = 2_000;
pub const LEAST_LETTERS_OF_WARDS: u64 = 100_000;
pub const LEAST_CELLS: usize = 32_766;
/// How often each verdict of compare must have come; how often on subtrees of which it was known beforehand, since nobody lists them; and how
/// often with a count above 2^31.
pub const LEAST_EACH_VERDICT: u64 = 5_000;
pub const LEAST_TOLD: u64 = 5_000;
pub const LEAST_FAR: u64 = 500;
/// How many lists of rows must have been tried, and how often each class must have come.
pub const LEAST_LISTS: u64 = 200;
pub const LEAST_EACH_CLASS: u64 = 100;
/// How many copies must have been made for clients of each class; how many must have been held to the unfolded forest with all of it seen, some and
/// none, and how many with more than is unfolded; how often each place of a hidden node must have been tried; how many pairs of plans that differ
/// in what isn't seen must have had copies of other bytes; and how many letters must have been walked on such copies, and beside a look at the whole
/// forest.
pub const LEAST_COPIES: u64 = 1_000;
pub const LEAST_EACH_SIGHT: u64 = 200;
pub const LEAST_EACH_PLACE: u64 = 100;
pub const LEAST_DISGUISED: u64 = 500;
pub const LEAST_LETTERS_OF_COPIES: u64 = 100_000;
pub const LEAST_LETTERS_LOOKED: u64 = 5_000;
/// How many calls must have weighed more than nothing; how many copies must have been weighed beside what was taken out of them, with that listed
/// and of forests that nobody lists; and how many forests of more than 2^64 − 1 nodes must have been weighed.
pub const LEAST_WEIGHED: u64 = 10_000;
pub const LEAST_PARTED: [u64; 2] = [5_000, 200];
pub const LEAST_BEYOND: u64 = 300;
/// How many forests must have been measured with dividers among other nodes, and of dividers alone.
pub const LEAST_DIVIDED: [u64; 2] = [300, 50];
/// How many rules must have been walked by number beside the plan started there: the start, others that it reaches, and those that it doesn't; how many
/// empty ones; how many letters there; and how often places of two words must have been compared.
pub const LEAST_DAYS: [u64; 4] = [200; 4];
pub const LEAST_LETTERS_OF_DAYS: u64 = 50_000;
pub const LEAST_WORDS_COMPARED: u64 = 1_000;
/// How often each reason must have come, and how many of them beside a walk of the letter.
pub const LEAST_EACH_REASON: u64 = 2_000;
pub const LEAST_BESIDE_WALKS: u64 = 100_000;
/// The last refusal.
const LAST: u32 = Why::TooMany as u32;

#[derive(Default)]
pub struct Tally {
    calls: BTreeMap<Operation, u64>,
    pub letters: u64,
    /// Letters f, l, n, p, u that led to a node.
    pub moves: u64,
    /// Plans that were compared with the same plan renumbered, and letters walked on both.
    pub renumbered: u64,
    pub letters_on_both: u64,
    /// Narrow plans that were compared with the same rules in a wide plan, and letters walked on both.
    pub widened: u64,
    pub letters_in_both: u64,
    /// Accepted calls on plans of more than 1,024 rules, letters walked on them, and the most cells of a place that a walk left.
    pub calls_of_wards: u64,
    pub letters_of_wards: u64,
    pub most_cells: usize,
    /// How often compare said same, differ and spent; with a count above 2^31; and how often what it was to say was known beforehand.
    pub verdicts: [u64; 3],
    pub far: u64,
    pub told: u64,
    /// Lists of rows, calls on them, and how often each class came.
    pub lists: u64,
    pub asked: u64,
    pub classes: [u64; 4],
    /// Copies for clients of each class; those with all nodes of the forest, with some, with none of several, and those of forests that aren't
    /// unfolded; and by the place of the hidden node.
    copies: [u64; 4],
    sights: [u64; 4],
    places: BTreeMap<&'static str, u64>,
    /// Pairs of plans that differ in what isn't seen alone, those whose copies have other bytes, and letters walked on both copies; and letters
    /// walked on a copy beside a look at the whole forest.
    pub disguised: u64,
    pub of_other_bytes: u64,
    pub letters_on_copies: u64,
    pub letters_looked: u64,
    /// Calls that weighed more than nothing; copies that were weighed beside what was taken out of them, with that listed and of forests that
    /// aren't unfolded; and forests of more than 2^64 − 1 nodes that were weighed.
    weighed: u64,
    pub parted: [u64; 2],
    pub beyond: u64,
    /// Forests that were measured with dividers among other nodes, and of dividers alone.
    divided: [u64; 2],
    /// Rules that were walked by number: the start, those that it reaches, those that it doesn't, and empty ones; letters there and on the plan started
    /// there; and comparisons of places of two words.
    pub days: [u64; 4],
    pub letters_of_days: u64,
    pub words_compared: u64,
    /// How often each reason came, by its number; and how often reason was asked beside a walk of the letter, those that were refused too.
    reasons: [u64; Reason::ALL.len()],
    pub beside_walks: u64,
    /// How often a refusal came up: by its number, the way to it, and the operation's name.
    ways: BTreeMap<(u32, String, String), u64>,
}

impl Tally {
    pub fn count(&mut self, call: &Call, outcome: &Outcome, after: &Call) {
        let answers = &after.answers;
        *self.calls.entry(call.operation).or_default() += 1;
        if outcome.is_ok() && rules_of(call) > FEW_RULES {
            self.calls_of_wards += 1;
            self.letters_of_wards += call.letters.len() as u64;
        }
        if call.operation == Operation::Walk && outcome.is_ok() {
            let moved =
                |index: usize| b"flnpu".contains(&call.letters[index]) && answers::get(answers, index) != NOWHERE;
            self.letters += call.letters.len() as u64;
            self.moves += (0..call.letters.len()).filter(|index| moved(*index)).count() as u64;
            self.most_cells = self.most_cells.max(words::get(&after.cursor, 0).into());
        }
        if let Ok(Values::Compared(compared)) = outcome {
            self.count_verdict(*compared);
        }
        if let Ok(Values::Grams(grams)) = outcome {
            self.weighed += u64::from(*grams > 0);
        }
        if let Ok(Values::Reason(reason)) = outcome {
            self.reasons[*reason as usize] += 1;
        }
    }

    /// Counts a copy, for a client of a class; and where the forest is small, by how many nodes it has and how many of them are seen.
    pub fn count_copy(&mut self, class: u16, nodes: Option<[usize; 2]>) {
        self.copies[usize::from(class)] += 1;
        let sight = match nodes {
            Some([all, seen]) if all == seen => 0,
            Some([_, 0]) => 2,
            Some(_) => 1,
            None => 3,
        };
        self.sights[sight] += 1;
    }

    /// Counts a forest that was measured, of so many nodes and entries.
    pub fn count_dividers(&mut self, nodes: u64, entries: u64) {
        if entries < nodes {
            self.divided[usize::from(entries == 0)] += 1;
        }
    }

    /// Notes that a hidden node was tried at a place.
    pub fn place(&mut self, place: &'static str) {
        *self.places.entry(place).or_default() += 1;
    }

    fn count_verdict(&mut self, compared: Compared) {
        let (verdict, count) = match compared {
            Compared::Same(count) => (0, count),
            Compared::Differ(count) => (1, count),
            // What was found is the budget, however far that is.
            Compared::Spent(_) => (2, 0),
        };
        self.verdicts[verdict] += 1;
        self.far += u64::from(count > 1 << 31);
    }

    /// Notes that a way is to be tried, and whether it came up now.
    pub fn way(&mut self, operation: impl fmt::Debug, number: u32, way: &str, came_up: bool) {
        *self.ways.entry((number, way.to_string(), format!("{operation:?}"))).or_default() += u64::from(came_up);
    }

    /// What is still missing; nothing if all was tried often enough.
    pub fn missing(&self) -> Vec<String> {
        let rare = self.ways.iter().filter(|(_, count)| **count < LEAST_EACH_WAY);
        let mut missing: Vec<String> =
            rare.map(|((number, way, operation), count)| format!("{operation} {number}, {way}: {count}")).collect();
        missing.extend(
            (1..=LAST).filter(|number| !self.ways.keys().any(|key| key.0 == *number)).map(|number| format!("{number}")),
        );
        if self.letters < LEAST_LETTERS {
            missing.push(format!("{} letters", self.letters));
        }
        if self.renumbered < LEAST_RENUMBERED {
            missing.push(format!("{} plans renumbered", self.renumbered));
        }
        if self.widened < LEAST_WIDENED {
            missing.push(format!("{} plans widened", self.widened));
        }
        if self.calls_of_wards < LEAST_CALLS_OF_WARDS || self.letters_of_wards < LEAST_LETTERS_OF_WARDS {
            let Tally { calls_of_wards, letters_of_wards, .. } = self;
            missing.push(format!("{calls_of_wards} calls and {letters_of_wards} letters on more than 1,024 rules"));
        }
        if self.most_cells < LEAST_CELLS {
            missing.push(format!("{} cells", self.most_cells));
        }
        if self.verdicts.iter().any(|came| *came < LEAST_EACH_VERDICT) || self.told < LEAST_TOLD || self.far < LEAST_FAR
        {
            let Tally { verdicts, told, far, .. } = self;
            missing.push(format!("verdicts {verdicts:?}, {told} known beforehand, {far} above 2^31"));
        }
        if self.lists < LEAST_LISTS || self.classes.iter().any(|count| *count < LEAST_EACH_CLASS) {
            missing.push(format!("{} lists of rows, classes {:?}", self.lists, self.classes));
        }
        if self.copies.iter().any(|count| *count < LEAST_COPIES)
            || self.sights.iter().any(|count| *count < LEAST_EACH_SIGHT)
        {
            missing.push(format!("copies {:?}, with all, some, none and not unfolded {:?}", self.copies, self.sights));
        }
        let rare = self.places.iter().filter(|(_, count)| **count < LEAST_EACH_PLACE);
        missing.extend(rare.map(|(place, count)| format!("copies with a hidden node, {place}: {count}")));
        if self.of_other_bytes < LEAST_DISGUISED || self.letters_on_copies < LEAST_LETTERS_OF_COPIES {
            let Tally { of_other_bytes, letters_on_copies, .. } = self;
            missing
                .push(format!("{of_other_bytes} pairs of copies of other bytes, {letters_on_copies} letters on both"));
        }
        if self.letters_looked < LEAST_LETTERS_LOOKED {
            missing.push(format!("{} letters on copies beside a look at the whole forest", self.letters_looked));
        }
        let parted = self.parted.iter().zip(LEAST_PARTED).any(|(count, least)| *count < least);
        if self.weighed < LEAST_WEIGHED || parted || self.beyond < LEAST_BEYOND {
            let Tally { weighed, parted, beyond, .. } = self;
            missing.push(format!("{weighed} calls weighed, {parted:?} copies parted, {beyond} of over 2^64 - 1 nodes"));
        }
        if self.divided.iter().zip(LEAST_DIVIDED).any(|(count, least)| *count < least) {
            missing.push(format!("dividers among other nodes and alone: {:?} forests", self.divided));
        }
        if self.days.iter().zip(LEAST_DAYS).any(|(count, least)| *count < least)
            || self.letters_of_days < LEAST_LETTERS_OF_DAYS
            || self.words_compared < LEAST_WORDS_COMPARED
        {
            let Tally { days, letters_of_days, words_compared, .. } = self;
            missing.push(format!("rules by number {days:?}, {letters_of_days} letters, {words_compared} compared"));
        }
        if self.reasons.iter().any(|count| *count < LEAST_EACH_REASON) || self.beside_walks < LEAST_BESIDE_WALKS {
            missing.push(format!("reasons {:?}, {} beside a walk", self.reasons, self.beside_walks));
        }
        if 3 * self.moves < self.letters {
            missing.push(format!("{} moves of {} letters", self.moves, self.letters));
        }
        missing
    }
}

/// The number of rules that an accepted call was about.
fn rules_of(call: &Call) -> usize {
    match call.operation {
        Operation::Seal => call.plan.len() / usize::from(call.record_length),
        _ => laws::rules_of(&call.plan),
    }
}

impl fmt::Display for Tally {
    fn fmt(&self, f: &mut fmt::Formatter) -> fmt::Result {
        for (operation, calls) in &self.calls {
            writeln!(f, "{operation:?}: {calls} calls")?;
        }
        writeln!(f, "letters: {}, of which {} moved", self.letters, self.moves)?;
        writeln!(
            f,
            "renumbered: {} plans beside the same with its rules in any order, {} letters on both",
            self.renumbered, self.letters_on_both
        )?;
        writeln!(
            f,
            "widened: {} narrow plans beside the same with other labels as a wide one, {} letters on both",
            self.widened, self.letters_in_both
        )?;
        writeln!(
            f,
            "more than 1,024 rules: {} calls, {} letters; the most cells of a place are {}",
            self.calls_of_wards, self.letters_of_wards, self.most_cells
        )?;
        let [same, differ, spent] = self.verdicts;
        writeln!(
            f,
            "compared: {same} same, {differ} differ, {spent} spent; {} known beforehand, {} with a count above 2^31",
            self.told, self.far
        )?;
        writeln!(f, "rows: {} lists, {} calls, classes {:?}", self.lists, self.asked, self.classes)?;
        let [all, some, none, more] = self.sights;
        writeln!(
            f,
            "copies: by class {:?}; {all} with all nodes, {some} with some, {none} with none, {more} of forests that aren't unfolded; hidden \
             nodes in {} places",
            self.copies,
            self.places.len()
        )?;
        writeln!(
            f,
            "copies of plans that differ in what isn't seen: {} pairs, {} of other bytes, {} letters on both; {} letters beside a look at the whole \
             forest",
            self.disguised, self.of_other_bytes, self.letters_on_copies, self.letters_looked
        )?;
        let [among, alone] = self.divided;
        writeln!(f, "dividers: {among} forests measured with some among other nodes, {alone} of dividers alone")?;
        let [listed, by_rules] = self.parted;
        writeln!(
            f,
            "grams: {} calls weighed more than nothing, {} forests of more than 2^64 - 1 nodes; copies beside what was taken out: {listed} with that \
             listed, {by_rules} of forests that aren't unfolded",
            self.weighed, self.beyond
        )?;
        let [start, reached, others, empty] = self.days;
        writeln!(
            f,
            "rules by number beside the plan started there: {start} starts, {reached} that it reaches, {others} that it doesn't, {empty} empty; {} \
             letters on both; {} comparisons of places of two words",
            self.letters_of_days, self.words_compared
        )?;
        writeln!(f, "reasons: by number {:?}; {} asked beside a walk of the letter", self.reasons, self.beside_walks)?;
        for number in 1..=LAST {
            let of_number = self.ways.iter().filter(|(key, _)| key.0 == number);
            let counts: Vec<u64> = of_number.map(|(_, count)| *count).collect();
            let (least, total) = (counts.iter().min().unwrap_or(&0), counts.iter().sum::<u64>());
            writeln!(f, "refusal {number}: {total} times in {} ways, each at least {least} times", counts.len())?;
        }
        Ok(())
    }
}
