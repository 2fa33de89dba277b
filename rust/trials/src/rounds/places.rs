//! Refusal 10 of walk, of compare and of reason, and walks from every place of small forests, with the reason of each letter there.
use crate::call::{Call, Operation};
use crate::cursors::{self, Known, Stored};
use crate::draft::Draft;
use crate::rounds::{self, reasons};
use crate::trial::Trial;
use reference::place::Cell;
use reference::plan::Rule;
use reference::{LETTERS, Why};

/// Places damaged in every way.
pub fn refuse(trial: &mut Trial, rounds: usize) {
    let damages = cursors::all();
    for _ in 0..rounds {
        let draft = with_one_sided(rounds::small(&mut trial.random, 40));
        let draft = rounds::in_any_form(&mut trial.random, draft);
        let Some((word, places)) = places_of(trial, &draft) else { continue };
        let known = Known::of(draft);
        for damage in &damages {
            let place = trial.random.pick(&places);
            let mut stored = Stored::of(&place).with_word(word);
            let applied = (damage.apply)(&mut stored, &known, &mut trial.random).is_some();
            let walk = call_from(trial, &known.draft, &stored);
            let other = Stored::of(&trial.random.pick(&places)).with_word(word);
            let letter = trial.random.pick(&LETTERS);
            for call in [compared_with(trial, &walk, &other), Call::reason(&walk, letter), walk] {
                if applied {
                    trial.perhaps_refused(&call, &damage.way, Why::Place as u32);
                } else {
                    trial.tally.way(call.operation, Why::Place as u32, &damage.way, false);
                }
            }
        }
        empty_forest(trial);
    }
}

/// Every place and every letter of small forests, and every word of every place changed.
pub fn walk_from_every(trial: &mut Trial, forests: usize) {
    for _ in 0..forests {
        let mut draft = rounds::small(&mut trial.random, 14);
        crate::random_plans::start_within(&mut draft, 40, &mut trial.random);
        let draft = rounds::in_any_form(&mut trial.random, draft);
        let Some((word, places)) = places_of(trial, &draft) else { continue };
        let mut call = Call::new(Operation::Walk, draft.plan(), draft.n());
        for place in &places {
            let stored = Stored::of(place).with_word(word);
            for letter in LETTERS {
                call = from_place(call, &stored);
                let judged = reasons::beside_walk(trial, &Call::reason(&call, letter));
                assert!(judged.outcome.is_ok(), "every node's place is accepted");
            }
            change_every_word(trial, call.clone(), &stored, draft.n() as u16);
        }
    }
}

/// One word of the place at a time, cell 0 among them, to its neighbours and to a few others; now and then with the reason of the letter.
fn change_every_word(trial: &mut Trial, mut call: Call, stored: &Stored, n: u16) {
    for cell in 0..=stored.cells.len() {
        for word in 0..4 {
            let was = if cell == 0 { stored.head[word] } else { stored.cells[cell - 1].0[word] };
            let others = [was.wrapping_add(1), was.wrapping_sub(1), trial.random.word() % 6, trial.random.word() % n];
            for other in others {
                let mut changed = stored.clone();
                match cell {
                    0 => changed.head[word] = other,
                    _ => changed.cells[cell - 1].0[word] = other,
                }
                let letter = trial.random.pick(&LETTERS);
                call = from_place(call, &changed).with_letters(&[letter]);
                if trial.random.once_in(4) {
                    reasons::beside_walk(trial, &Call::reason(&call, letter));
                } else {
                    trial.judge(&call);
                }
            }
        }
    }
}

fn from_place(mut call: Call, stored: &Stored) -> Call {
    call.cursor.fill(0);
    stored.write(&mut call.cursor);
    call
}

/// The places of a rule's nodes, and that above its forest, with the word that names the rule; of the start where the forest of another is too large or
/// has no node, and none where its own has.
pub(super) fn places_of(trial: &mut Trial, draft: &Draft) -> Option<(u16, Vec<Vec<Cell>>)> {
    let word = rounds::word(&mut trial.random, draft);
    places_by(trial, draft, word).or_else(|| places_by(trial, draft, 0))
}

fn places_by(trial: &mut Trial, draft: &Draft, word: u16) -> Option<(u16, Vec<Vec<Cell>>)> {
    let mut places: Vec<Vec<Cell>> = trial.forest.walked(&draft.plan(), word)?.places().cloned().collect();
    // A table's order isn't the same from run to run.
    places.sort_by_key(|place| place.iter().map(|cell| cell.0).collect::<Vec<_>>());
    (places.len() > 1).then_some((word, places))
}

/// The same plan with a one-sided pair over every tenth rule or so, so that some rule stands in for another.
fn with_one_sided(mut draft: Draft) -> Draft {
    let start = draft.start;
    let closed: Vec<u16> = (0..draft.n() as u16).filter(|rule| draft.kind((*rule).into()) <= 3).collect();
    for (index, rule) in closed.iter().enumerate() {
        if index % 3 == 0 || *rule == start {
            draft.add(if index % 2 == 0 { Rule::Pair(*rule, 0) } else { Rule::Pair(0, *rule) });
        }
    }
    draft.start = start;
    draft
}

/// A walk from stored cells, with anything in the slices and a few letters.
fn call_from(trial: &mut Trial, draft: &Draft, stored: &Stored) -> Call {
    let count = trial.random.below(4);
    let letters = rounds::letters(&mut trial.random, count);
    let mut call = Call::new(Operation::Walk, draft.plan(), draft.n()).with_letters(&letters);
    let longer = trial.random.below(2 * call.cursor.len());
    call.work = trial.random.leftovers(call.work.len() + longer % 20);
    call.cursor = trial.random.leftovers(call.cursor.len() + longer);
    call.answers = trial.random.leftovers(call.answers.len() + longer % 7);
    stored.write(&mut call.cursor);
    call
}

/// The place that a walk begins at compared with another, in either sequence.
fn compared_with(trial: &mut Trial, walk: &Call, other: &Stored) -> Call {
    let mut second = walk.cursor.clone();
    other.write(&mut second);
    let mut cursor = walk.cursor.clone();
    if trial.random.once_in(2) {
        std::mem::swap(&mut cursor, &mut second);
    }
    let budget = trial.random.pick(&[0, 1, 10, u32::MAX]);
    let (plan, work) = (walk.plan.clone(), walk.work.clone());
    Call { work, cursor, second, budget, ..Call::new(Operation::Compare, plan, 0) }
}

/// An empty forest has no place but the one above it.
fn empty_forest(trial: &mut Trial) {
    let mut draft = Draft::default();
    let empty = draft.add(Rule::Empty);
    let leaf = draft.add(Rule::Node(97, empty));
    draft.add(Rule::Pair(empty, empty));
    for (way, cells) in [
        ("empty forest: a row", vec![Cell([Cell::ROW, 0, draft.start, 0])]),
        ("empty forest: a node", vec![Cell([Cell::ROW, 0, leaf, 0]), Cell::spine(leaf)]),
        ("empty forest: a row over no rule", vec![Cell([Cell::ROW, 0, u16::MAX, 0]), Cell::spine(u16::MAX)]),
    ] {
        let call = call_from(trial, &draft, &Stored::of(&cells));
        trial.refused(&call, way, Why::Place.here());
        trial.refused(&Call::reason(&call, b'a'), way, Why::Place.here());
        let call = compared_with(trial, &call, &Stored::of(&cells));
        trial.refused(&call, way, Why::Place.here());
    }
    let call = call_from(trial, &draft, &Stored::of(&[]));
    trial.accepted(&call, "above an empty forest is a place");
}
