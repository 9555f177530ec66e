//! The program with no seed given: the fixed seed, then a fresh one that is told and can be repeated.

use std::process::{Command, Output};

fn compare(words: &str) -> (bool, String) {
    let program = env!("CARGO_BIN_EXE_compare");
    let Output { status, stdout, .. } = Command::new(program).args(words.split(' ')).output().expect("it runs");
    (status.success(), String::from_utf8(stdout).expect("its words are text"))
}

/// What a run without a seed writes: before it tells the fresh seed, that seed, and what follows.
fn without_a_seed() -> (String, String, String) {
    let (fine, text) = compare("--itself --calls 2500");
    assert!(fine, "{text}");
    let (fixed, rest) = text.split_once("compare: fresh seed ").expect("the fresh seed is told");
    let (seed, fresh) = rest.split_once('\n').expect("on a line of its own");
    (fixed.to_string(), seed.to_string(), fresh.to_string())
}

#[test]
fn both_runs_can_be_repeated() {
    let (fixed, seed, fresh) = without_a_seed();
    assert_eq!(compare("--itself --calls 2500 --seed 1"), (true, fixed));
    assert_eq!(compare(&format!("--itself --calls 500 --seed {seed}")), (true, fresh));
}

#[test]
fn each_time_the_seed_is_another() {
    assert_ne!(without_a_seed().1, without_a_seed().1);
}

#[test]
fn a_seed_or_a_case_that_is_given_runs_alone() {
    for words in ["--itself --calls 500 --seed 5", "--itself --case 3"] {
        let (fine, text) = compare(words);
        assert!(fine && !text.contains("fresh seed"), "{text}");
    }
}
