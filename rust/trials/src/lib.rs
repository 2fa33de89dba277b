//! The proved library tried against the reference: generated plans, places and letters, valid and damaged, each call run by every
//! implementation on guarded memory and compared in every byte.

pub mod call;
pub mod copies;
pub mod cursors;
pub mod cycles;
pub mod damage;
pub mod draft;
pub mod families;
mod laws;
pub mod library;
pub mod random;
pub mod random_plans;
mod room;
pub mod rounds;
pub mod tally;
pub mod trial;

use std::thread;
use trial::Trial;

/// All rounds. At an effort of 100 or more the tally has what it asks for.
pub fn try_all(trial: &mut Trial, effort: usize) {
    rounds::plans::refuse(trial, effort);
    rounds::slices::refuse(trial, effort);
    rounds::places::refuse(trial, 25 * effort);
    rounds::places::walk_from_every(trial, 8 * effort);
    rounds::walks::small(trial, 40 * effort, 12);
    rounds::walks::large(trial, 12 * effort, 12);
    rounds::sizes::agree(trial, 20 * effort);
    rounds::orders::agree(trial, 10 * effort);
    rounds::formats::agree(trial, 10 * effort);
    rounds::compares::agree(trial, 12 * effort);
    rounds::days::agree(trial, 12 * effort);
    rounds::reasons::agree(trial, 12 * effort);
    rounds::wards::agree(trial, effort.div_ceil(5));
    rounds::rows::agree(trial, 2 * effort);
    rounds::copies::refuse(trial, effort);
    rounds::copies::agree(trial, effort);
    rounds::grams::refuse(trial, effort);
    rounds::grams::agree(trial, effort);
}

/// Runs something on a stack that has room for deep forests.
pub fn with_deep_stack(run: impl FnOnce() + Send + 'static) {
    let running = thread::Builder::new().stack_size(256 << 20).spawn(run).expect("a thread can be started");
    if let Err(panic) = running.join() {
        std::panic::resume_unwind(panic);
    }
}
