//! The comparison agrees where it has to, and can fail.

use compare::implementations::Second;
use compare::run::{run, Until};
use compare::self_test::{control, try_each};

const SEED: u64 = 1;

fn calls(calls: u64) -> Until {
    Until { calls, time: None }
}

#[test]
fn the_variant_without_a_fault_agrees() {
    assert!(control(SEED, calls(5_000)).is_ok());
}

#[test]
fn every_wrong_variant_is_found() {
    let mut missed = Vec::new();
    try_each(SEED, calls(20_000), |tried| {
        if tried.found().is_none() {
            missed.push((tried.words, tried.in_both));
        }
    });
    assert!(missed.is_empty(), "not found: {missed:?}");
}

#[test]
fn every_number_is_met_in_20_000_calls() {
    let tally = run(&Second, &Second, SEED, calls(20_000), |_| ()).expect("the same implementation twice");
    assert!(tally.calls() >= 20_000);
    assert!(tally.not_met().is_empty(), "not met: {:?}", tally.not_met());
    assert!(tally.fresh_runs > 1_000, "{} readings compared with a fresh run", tally.fresh_runs);
    assert!(tally.pictures_written > 100, "{} pictures written after a load", tally.pictures_written);
}

#[test]
fn the_same_seed_does_the_same() {
    let tally = || run(&Second, &Second, 7, calls(2_000), |_| ()).expect("the same implementation twice").to_string();
    assert_eq!(tally(), tally());
}
