//! The trials, with the counts that they must reach. `TRIALS_SEED` gives the seed; without it, the clock does.
use trials::random::Random;
use trials::trial::Trial;

#[test]
fn the_library_does_as_the_reference() {
    let seed = Random::seed();
    println!("TRIALS_SEED={seed}");
    trials::with_deep_stack(move || {
        let mut trial = Trial::new(seed);
        trials::try_all(&mut trial, 110);
        println!("{}", trial.tally);
        let missing = trial.tally.missing();
        assert!(missing.is_empty(), "tried too seldom: {missing:#?}");
    });
}
