//! The operations by rules alone: tables of rules in the lent work, nothing unfolded, and nothing allocated where rules name only
//! lower ones; else the order of the rules is. Compare has two walkers, and allocates what the second one needs and copies of both cursors;
//! reason lets a walker go on a copy of the cursor.
//!
//! A good walker without proofs, for plans of any size: it serves as the second opinion and as the benchmark's other side.
mod counts;
mod grams;
mod moves;
mod prints;
mod stored;
mod subtree;
mod table;
mod text;

use crate::plan::{self, Plan, cursor_bytes, work_bytes};
use crate::rows::{self, Row};
use crate::{Compared, Measured, Reason, Refused, Why, answers, compare::pair_by_pair, first_stranger};
pub use grams::taken_out;
use moves::Walker;
pub use prints::visible as visible_print;
use subtree::Subtree;
use table::Table;

/// Runs a use of the words of work that a plan needs, and clears them; 8 if there are fewer.
fn with_work<T>(plan: &Plan, work: &mut [u8], run: impl FnOnce(&mut [u8]) -> Result<T, Refused>) -> Result<T, Refused> {
    let work = work.get_mut(..work_bytes(plan.rules.count())).ok_or(Why::Lent.here())?;
    let outcome = run(work);
    work.fill(0);
    outcome
}

/// The number of nodes, whatever their labels, and the size. 11 looks at the nodes.
fn counted(plan: &[u8], work: &mut [u8]) -> Result<(u64, Measured), Refused> {
    let plan = plan::read(plan)?;
    with_work(&plan, work, |work| counts::of_start(&plan, work).ok_or(Why::Output.here()))
}

pub fn measure(plan: &[u8], work: &mut [u8]) -> Result<Measured, Refused> {
    counted(plan, work).map(|(_, measured)| measured)
}

/// The number of nodes, which no operation gives by itself; refused as measure is.
pub fn nodes(plan: &[u8], work: &mut [u8]) -> Result<u64, Refused> {
    counted(plan, work).map(|(nodes, _)| nodes)
}

pub fn spread(plan: &[u8], work: &mut [u8], out: &mut [u8]) -> Result<u64, Refused> {
    let plan = plan::read(plan)?;
    with_work(&plan, work, |work| {
        let (nodes, _) = counts::of_start(&plan, work).ok_or(Why::Output.here())?;
        let length = nodes.checked_mul(plan.format().node() as u64).filter(|length| *length <= out.len() as u64);
        let length = length.ok_or(Why::Output.here())?;
        text::write(&Table::build(&plan, work).0, plan.format(), plan.start, &mut out[..length as usize]);
        Ok(length)
    })
}

/// The grams of all nodes: the plan is judged first, then the list, then work, and the sum last.
pub fn grams(plan: &[u8], list: &[Row], work: &mut [u8]) -> Result<u64, Refused> {
    let plan = plan::read(plan)?;
    rows::check(list)?;
    with_work(&plan, work, |work| grams::of_start(&plan, list, work).ok_or(Why::Output.here()))
}

pub fn walk(plan: &[u8], work: &mut [u8], cursor: &mut [u8], letters: &[u8], out: &mut [u8]) -> Result<(), Refused> {
    let plan = plan::read(plan)?;
    let needed = cursor_bytes(plan.rules.count());
    if cursor.len() < needed || answers::count(out) < letters.len() {
        return Err(Why::Lent.here());
    }
    with_work(&plan, work, |work| {
        if let Some(position) = first_stranger(letters) {
            return Err(Why::Letter.at(position));
        }
        let mut walker = Walker::at(&plan, work, &mut cursor[..needed]).ok_or(Why::Place.here())?;
        for (answer, letter) in out.as_chunks_mut().0.iter_mut().zip(letters) {
            *answer = walker.answer(*letter).to_le_bytes();
        }
        walker.store();
        Ok(())
    })
}

pub fn compare(plan: &[u8], work: &mut [u8], first: &[u8], second: &[u8], budget: u32) -> Result<Compared, Refused> {
    let plan = plan::read(plan)?;
    let needed = cursor_bytes(plan.rules.count());
    if first.len() < needed || second.len() < needed {
        return Err(Why::Lent.here());
    }
    with_work(&plan, work, |work| {
        let mut more_work = vec![0; work.len()];
        let [mut one, mut other] = [first, second].map(|cursor| cursor[..needed].to_vec());
        let first = Subtree::at(&plan, work, &mut one).ok_or(Why::Place.here())?;
        let second = Subtree::at(&plan, &mut more_work, &mut other).ok_or(Why::Place.here())?;
        Ok(pair_by_pair(first, second, budget))
    })
}

/// Why a letter moves or doesn't: where a walk of it leads nowhere, there is one reason that its letter can have at a node.
pub fn reason(plan: &[u8], work: &mut [u8], cursor: &[u8], letter: u8) -> Result<Reason, Refused> {
    let plan = plan::read(plan)?;
    let cursor = cursor.get(..cursor_bytes(plan.rules.count())).ok_or(Why::Lent.here())?;
    with_work(&plan, work, |work| {
        if let Some(position) = first_stranger(&[letter]) {
            return Err(Why::Letter.at(position));
        }
        let mut copy = cursor.to_vec();
        Ok(Walker::at(&plan, work, &mut copy).ok_or(Why::Place.here())?.reason(letter))
    })
}
