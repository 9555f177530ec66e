//! The comparison over pipes: with a server that has the second implementation, and with bad ones.

use std::process::{Command, Output};

const THIS: &str = env!("CARGO_BIN_EXE_compare");

/// Whether it is fine, and what it writes.
fn compare(words: &[&str]) -> (bool, String) {
    let Output { status, stdout, .. } = Command::new(THIS).args(words).output().expect("it runs");
    (status.success(), String::from_utf8(stdout).expect("its words are text"))
}

fn served_by(server: &[&str]) -> (bool, String) {
    compare(&[&["--calls", "2500", "--seed", "1", "--served"], server].concat())
}

fn itself() -> String {
    let (fine, text) = compare(&["--calls", "2500", "--seed", "1", "--itself"]);
    assert!(fine, "{text}");
    text
}

#[test]
fn a_server_gives_what_the_implementation_gives() {
    assert_eq!(served_by(&[THIS, "--serve"]), (true, itself()));
}

#[test]
fn the_fresh_seed_runs_over_the_same_server() {
    let (fine, text) = compare(&["--calls", "500", "--served", THIS, "--serve"]);
    assert!(fine && text.contains("fresh seed"), "{text}");
    assert_eq!(text.matches(" 0 differences").count(), 2, "{text}");
}

#[test]
fn a_server_that_sends_the_request_back_is_found() {
    let (fine, text) = served_by(&["cat"]);
    assert!(!fine && text.contains("a difference: seed 1, case 0, after 0 calls"), "{text}");
}

#[test]
fn a_server_that_is_gone_is_found() {
    let (fine, text) = served_by(&["true"]);
    assert!(!fine && text.contains("a difference: seed 1, case 0, after 0 calls"), "{text}");
}

#[test]
fn a_server_that_ends_badly_is_found() {
    let (fine, text) = served_by(&["sh", "-c", "\"$0\" --serve; exit 1", THIS]);
    assert!(!fine);
    assert_eq!(text, itself() + "compare: the server ended with exit status: 1\n");
}

#[test]
fn a_server_that_is_not_there_is_told() {
    let Output { status, stderr, .. } = Command::new(THIS).args(["--served", "./none"]).output().expect("it runs");
    assert_eq!(status.code(), Some(2));
    assert!(String::from_utf8_lossy(&stderr).contains("compare: ./none: "));
}
