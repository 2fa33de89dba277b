//! Tries the library for a while with ever new inputs: `fuzz [SECONDS]`, an hour by default. Each turn has a seed of its own and prints it;
//! `TRIALS_SEED` gives the first.
use std::time::{Duration, Instant};
use trials::random::Random;
use trials::trial::Trial;

const HOUR: u64 = 3_600;
/// A turn takes a few seconds.
const EFFORT: usize = 5;

fn main() {
    let seconds = std::env::args().nth(1).map_or(HOUR, |seconds| seconds.parse().expect("fuzz [SECONDS]"));
    trials::with_deep_stack(move || {
        let end = Instant::now() + Duration::from_secs(seconds);
        let (mut turns, mut letters, mut moves) = (0, 0, 0);
        let mut seed = Random::seed();
        while Instant::now() < end {
            println!("TRIALS_SEED={seed}");
            let mut trial = Trial::new(seed);
            trials::try_all(&mut trial, EFFORT);
            turns += 1;
            letters += trial.tally.letters;
            moves += trial.tally.moves;
            seed = seed.wrapping_add(1);
        }
        println!("{turns} turns, {letters} letters, of which {moves} moved: no difference");
    });
}
