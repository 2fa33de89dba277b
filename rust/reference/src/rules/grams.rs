//! Grams of every rule (document 02, Note 8), by one pass over the rules in their order.
use crate::Refused;
use crate::copy::Client;
use crate::plan::{self, Plan, Rule};
use crate::rows::{self, Row as LabelRow};

/// A rule has at least these bytes of work, however many rules there are.
type Row = [u8; 64];

/// A rule's grams in its row, or none where they pass 2^64 − 1.
fn write(grams: Option<u64>, row: &mut Row) {
    row[0] = grams.is_some().into();
    row[8..16].copy_from_slice(&grams.unwrap_or(0).to_le_bytes());
}

fn read(row: &Row) -> Option<u64> {
    let grams = row[8..].first_chunk().expect("a row is longer");
    (row[0] == 1).then_some(u64::from_le_bytes(*grams))
}

/// The grams of the start rule's forest by a sound list, in work; none if they are above 2^64 − 1.
pub fn of_start(plan: &Plan, list: &[LabelRow], work: &mut [u8]) -> Option<u64> {
    let table: &mut [Row] = work.as_chunks_mut().0;
    for number in plan.order() {
        let rule = plan.rules.get(number);
        let own = rule.label().map_or(0, |label| rows::grams(list, label).into());
        let grams = rule.named().try_fold(own, |sum: u64, named| sum.checked_add(read(&table[usize::from(named)])?));
        write(grams, &mut table[usize::from(number)]);
    }
    read(&table[usize::from(plan.start)])
}

/// Of a rule's forest the grams that a client doesn't see and those of all nodes, each none where it passes 2^128 − 1; and whether the rule has
/// a hole that is seen.
#[derive(Clone, Copy)]
struct Parted {
    out: Option<u128>,
    all: Option<u128>,
    open: bool,
}

/// The grams of the nodes that a client's copy of a plan is without, each that isn't seen and all below it, for forests that nobody unfolds.
/// They are summed over those nodes, not taken as a remainder; none where they pass 2^128 − 1.
pub fn taken_out(plan: &[u8], client: &Client) -> Result<Option<u128>, Refused> {
    let plan = plan::read(plan)?;
    let mut parted = vec![Parted { out: Some(0), all: Some(0), open: false }; plan.rules.count()];
    for number in plan.order() {
        let of = |rule: u16| parted[usize::from(rule)];
        let rule = plan.rules.get(number);
        let own = rule.label().map_or(0, |label| rows::grams(&client.rows, label).into());
        let all = rule.named().try_fold(own, |grams: u128, named| grams.checked_add(of(named).all?));
        let out = rule.named().try_fold(0, |grams: u128, named| grams.checked_add(of(named).out?));
        let seen = rule.label().is_none_or(|label| client.sees(label));
        parted[usize::from(number)] = match rule {
            Rule::Node(..) | Rule::Part(..) if !seen => Parted { out: all, all, open: false },
            Rule::Part(..) => Parted { out, all, open: true },
            // What is in a hole that isn't seen is below a node that isn't.
            Rule::Fill(b, c) | Rule::Join(b, c) if !of(b).open => {
                let out = of(b).out.zip(of(c).all).and_then(|(out, all)| out.checked_add(all));
                Parted { out, all, open: false }
            }
            Rule::Join(_, c) => Parted { out, all, open: of(c).open },
            _ => Parted { out, all, open: false },
        };
    }
    Ok(parted[usize::from(plan.start)].out)
}
