//! Each check passes where it has to, and finds what it has to.

mod common;

use common::{text, told, told_with, untold_of};

const READING: &str = "docs/READING.md";

#[test]
fn nothing_is_found_in_the_small_library() {
    assert_eq!(told(&[]).differences, [""; 0]);
}

#[test]
fn the_sizes_are_told() {
    let sizes = [
        "reading: numbers: 2 definitions, 5 lines",
        "reading: clew: 1 definitions, 2 lines",
        "reading: facts: 2 definitions, 4 lines",
        "reading: clew_c: 1 definitions, 2 lines",
        "reading: the promises rest on 4 definitions in 9 lines",
        "reading: the statements are 1 in 2 lines, and rest on 1 more definitions in 2 lines",
        "reading: to believe: 6 definitions in 13 lines, and 2 types of the code in 8 lines",
    ];
    assert_eq!(told(&[]).sizes, sizes);
    assert_eq!(told_with(READING, "`told`", "told").sizes, sizes);
}

#[test]
fn sizes_that_the_document_does_not_say_are_found() {
    let all = "6 definitions in 13 lines, and 2 types of the code in 8 lines";
    let said = format!("{}\nThere are {all}.\n", text(READING));
    assert_eq!(untold_of(&said), None);
    let other = said.replace("13 lines", "12 lines");
    assert_eq!(untold_of(&other), Some(format!("{READING}: it does not say: {all}")));
}

#[test]
fn a_finds_a_definition_that_is_not_named() {
    let missing = ["crates/clew_c/specs/Flat.antt: `told` is believed, and docs/READING.md does not name it"];
    assert_eq!(told_with(READING, "`told`", "told").differences, missing);
    assert_eq!(told_with(READING, "`told`", "`told n`").differences, missing);
    assert_eq!(told_with(READING, "`told`;", "\n\n    `told`\n\n").differences, missing);
}

#[test]
fn a_finds_a_type_that_is_not_named() {
    let missing = ["crates/numbers/src/side.rt: `Side` is believed, and docs/READING.md does not name it"];
    assert_eq!(told_with(READING, "`Side`", "side").differences, missing);
}

#[test]
fn b_finds_a_name_that_is_not_believed() {
    let found = ["docs/READING.md:4: `Small` of crates/numbers/specs/Asked.antt is not believed"];
    assert_eq!(told_with(READING, "`Small p`", "`Small`").differences, found);
}

#[test]
fn b_takes_a_name_of_which_one_is_believed() {
    let other = [("crates/numbers/specs/Other.antt", "pub told : ℕ\ntold = 0\n")];
    assert_eq!(told(&other).differences, [""; 0]);
}

#[test]
fn c_takes_what_the_sources_declare() {
    let proofs = "  pub record Kept : Type 0 where\n    pub held-so : ℕ\nabbrev half : ℕ\nhalf = 0\n";
    let words = "`Kept` `held-so` `half` `Short` `left` `few` `q'` `ab` `.old` `-ℤ` `/` `a::b` `clew_call`";
    let reading = format!("{}{words}\n", text(READING));
    let others = [("crates/clew/proofs/call/Proof.antt", proofs), (READING, &reading)];
    assert_eq!(told(&others).differences, [""; 0]);
}

#[test]
fn c_finds_a_word_that_nothing_declares() {
    assert_eq!(told_with(READING, "`call`", "`calls`").differences, ["docs/READING.md:4: `calls` is not known"]);
    assert_eq!(told_with(READING, "`p`", "`.end`").differences, ["docs/READING.md:4: `.end` is not known"]);
}

#[test]
fn c_looks_at_the_proofs_page_too() {
    let found = told(&[("docs/PROOFS.md", "By `doubles` and\n`halves`.\n")]).differences;
    assert_eq!(found, ["docs/PROOFS.md:2: `halves` is not known"]);
}

#[test]
fn c_finds_a_path_that_leads_nowhere() {
    for path in ["clew/src/lib.rs", "Calls.antt", "crates/runs/", "/crates"] {
        let found = told_with(READING, "specs/Calls.antt", path).differences;
        assert_eq!(found, [format!("docs/READING.md:5: there is no `{path}`")]);
    }
}

#[test]
fn d_finds_two_meanings_of_a_name() {
    let definition = "pub Side : ℕ\nSide = 0\n\nabbrev pub told : ℕ → ℕ\ntold n = Side\n";
    let found = ["`Side` is believed in crates/clew_c/specs/Flat.antt and in crates/numbers/src/side.rt"];
    assert_eq!(told(&[("crates/clew_c/specs/Flat.antt", definition)]).differences, found);
}

#[test]
fn d_takes_a_second_meaning_that_is_not_believed() {
    let more = format!("{}\npub record twice : Type 0 where\n", text("crates/numbers/specs/Asked.antt"));
    let more = more.replace("use Rattle.numbers.specs.Total.{twice}\n", "");
    assert_eq!(told(&[("crates/numbers/specs/Asked.antt", &more)]).differences, [""; 0]);
}

#[test]
fn e_finds_the_few_that_are_not_believed() {
    let path = "crates/numbers/specs/Total.antt";
    let more = format!("{}\npub thrice : Pair → ℕ\nthrice p = twice p + sum_of p\n", text(path));
    assert_eq!(told(&[(path, &more)]).differences, [format!("{path}: these are not believed: `thrice`")]);
}

#[test]
fn e_finds_the_few_that_are_believed() {
    let path = "crates/clew_c/specs/Flat.antt";
    let more = format!("{}\npub one : ℕ\none = 1\n\npub two : ℕ\ntwo = told one\n", text(path));
    assert_eq!(told(&[(path, &more)]).differences, [format!("{path}: only these are believed: `told`")]);
}

#[test]
fn a_backtick_that_stands_alone_is_told() {
    let found = told_with(READING, "# What", "# `What").differences;
    assert_eq!(found, ["docs/READING.md:1: a backtick stands alone"]);
}
