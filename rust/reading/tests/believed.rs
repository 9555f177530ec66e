//! What is believed, and what cannot be followed.

mod common;

use common::{told_with, tree};
use reading::believed::Believed;
use reading::library::Library;

/// The names that are believed, in the small library with other texts for some files.
fn names(others: &[(&str, &str)]) -> Vec<String> {
    let tree = tree(others);
    let believed = Believed::of(&tree, &Library::of(&tree));
    let mut names: Vec<String> = believed.all.into_iter().map(|key| key.name).collect();
    names.sort();
    names
}

const ALL: [&str; 8] = ["Doubles", "Pair", "Side", "Step", "call_of", "sum_of", "told", "twice"];

#[test]
fn promises_statements_and_all_they_rest_on() {
    assert_eq!(names(&[]), ALL);
}

#[test]
fn without_a_root_what_only_it_rests_on_is_not_believed() {
    let left = |gone: &[&str]| ALL.into_iter().filter(|name| !gone.contains(name)).collect::<Vec<_>>();
    let (by_name, by_c) = (("crates/clew_c/src/lib.rt", ""), ("crates/clew_export/src/lib.rt", ""));
    assert_eq!(names(&[by_name]), ALL);
    assert_eq!(names(&[by_c]), ALL);
    assert_eq!(names(&[by_name, by_c]), left(&["told"]));
    assert_eq!(names(&[("crates/facts/proofs/Demand.antt", "")]), left(&["Doubles", "Step"]));
}

#[test]
fn a_promise_of_the_lines_counts_too() {
    let line = "ghost use Rattle.numbers.specs.Asked.{Small};
pub fn list()
    ensures { Small 0 }
{
}
";
    assert!(names(&[("crates/lines/src/line.rt", line)]).contains(&"Small".to_string()));
}

#[test]
fn a_variant_and_a_constructor_stand_for_their_type() {
    let flat = "use Rattle.numbers.specs.declared.side.Side.TheVariants.{Long as Far}
use Rattle.facts.specs.Demand.Step.{again}
pub told : ℕ
told = again Far
";
    let code = "ghost use Rattle.clew_c.specs.Flat.{told};
pub extern \"C\" fn clew_call()
    ensures { told }
{
}
";
    let others = [
        ("crates/clew/src/lib.rt", ""),
        ("crates/clew_c/specs/Flat.antt", flat),
        ("crates/clew_c/src/lib.rt", ""),
        ("crates/clew_export/src/lib.rt", code),
        ("crates/facts/proofs/Demand.antt", ""),
    ];
    assert_eq!(names(&others), ["Side", "Step", "told"]);
}

#[test]
fn a_field_access_is_no_use() {
    let flat = "abbrev pub told : ℕ → ℕ\ntold n = n.other + (f n).other\n\npub other : ℕ\nother = 0\n";
    assert_eq!(names(&[("crates/clew_c/specs/Flat.antt", flat)]), ALL);
}

#[test]
fn what_is_used_and_not_there_is_told() {
    let found = told_with("crates/clew/specs/Calls.antt", "twice as doubled", "thrice as doubled").differences;
    assert!(found.contains(&"crates/numbers/specs/Total.antt: `thrice` is used, and is not defined there".to_string()));
}

#[test]
fn what_is_handed_out_and_not_followed_is_told() {
    let found = told_with("crates/lines/src/lib.rt", "line::list", "line::lost").differences;
    assert_eq!(found, ["crates/lines/src/lib.rt: `lost` is neither a function nor a type of crates/lines/src/line.rt"]);
    let found = told_with("crates/lines/src/lib.rt", "mod line", "pub mod line").differences;
    assert_eq!(found, ["crates/lines/src/lib.rt: `pub mod line` is not followed"]);
}

#[test]
fn what_is_handed_on_from_another_crate_is_followed() {
    let lib = "crates/clew/src/lib.rt";
    let handed = "pub use calling::call;\npub use numbers::pair::";
    let found = told_with(lib, "pub use calling::call;\n", &format!("{handed}Pair;\n")).differences;
    assert!(found.is_empty(), "{found:?}");
    let found = told_with(lib, "pub use calling::call;\n", &format!("{handed}Lost;\n")).differences;
    assert_eq!(
        found,
        ["crates/clew/src/lib.rt: `Lost` is neither a function nor a type of crates/numbers/src/pair.rt"]
    );
}

#[test]
fn a_line_of_no_definition_is_told() {
    let found = told_with("crates/clew_c/specs/Flat.antt", "told n = n\n", "told n = n\n\nhidden : ℕ\n").differences;
    assert_eq!(found, ["crates/clew_c/specs/Flat.antt:4: this line belongs to no definition"]);
}
