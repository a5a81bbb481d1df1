//! Demand 3 over random tables: the engine against the step rules. `SEED` in the environment changes the seed.

use second::demand3;
use std::io::Write;

fn seed() -> u64 {
    std::env::var("SEED").ok().and_then(|text| text.parse().ok()).unwrap_or(20_250)
}

#[test]
fn the_engine_keeps_demand_3() {
    for seed in seed()..seed() + 4 {
        let tally = demand3::run(seed, 50_000).unwrap();
        // Not `eprintln!`, which a passing test keeps to itself.
        let _ = writeln!(std::io::stderr(), "{tally}");
        assert!(tally.tables_opened > 500, "too few tables opened");
        assert!(tally.sent > 5_000 && tally.received > 5_000 && tally.full > 100);
        assert!(tally.left * 50 < tally.tables_opened, "too many sessions left early");
    }
}

#[test]
fn a_run_depends_on_its_seed_alone() {
    assert_eq!(demand3::run(7, 2_000), demand3::run(7, 2_000));
}
