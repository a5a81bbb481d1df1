//! A short run of comparisons.

use boundary::fuzz;

#[test]
fn twenty_thousand_calls_agree_and_meet_every_number() {
    let tally = fuzz::run(1, 20_000).unwrap_or_else(|difference| panic!("{difference}"));
    assert_eq!(tally.calls, 20_000);
    assert_eq!(tally.missing(), Vec::<usize>::new());
}

#[test]
fn a_run_depends_on_its_seed_alone() {
    let run = |seed| fuzz::run(seed, 2_000).unwrap_or_else(|difference| panic!("{difference}"));
    assert_eq!(run(5), run(5));
    assert_ne!(run(5).numbers, run(6).numbers);
}
