//! Each sort of file is read as it stands.

mod common;

use common::tree;
use reading::specs::Sort;
use reading::uses::{of_code, of_specs};
use reading::words::words;
use reading::{code, doc, proofs, specs};

const SPECS: &str = "-- A file.
use Rattle.std.specs.Prelude.{
  List, [],
}

abbrev pub zero-point' : ℕ
zero-point' = record {
  -- a field
  value = 0;
}

pub record Held (n : ℕ) : Type 0 where
  pub low : (i : ℕ)
      → i ≤ n

  pub high : n ≤ 9

module _ (L : Model) where
  unfoldable pub inner : ℕ
  inner = 1

  pub record Deep : Type 0 where
    pub net : L

pub data Call : Type 0 where
  change : (first : ℕ) → Call
  update : Call
";

#[test]
fn words_end_at_brackets_and_dots() {
    let found: Vec<&str> = words("f x.first (λ t. g' t.0.1){a-b;c_d} (h y).e Y.off Calls.of .z").collect();
    assert_eq!(found, ["f", "x", "t", "g'", "t", "a-b", "c_d", "h", "y", "Y", "Calls", "of"]);
}

#[test]
fn a_definition_runs_on_to_the_next() {
    let parsed = specs::parse(SPECS);
    let sizes: Vec<_> = parsed.definitions.iter().map(|d| (d.name.as_str(), d.sort, d.lines.len())).collect();
    let expected = [
        ("zero-point'", Sort::Value, 4),
        ("Held", Sort::Record, 4),
        ("inner", Sort::Value, 2),
        ("Deep", Sort::Record, 2),
        ("Call", Sort::Data, 3),
    ];
    assert_eq!(sizes, expected);
    assert_eq!(parsed.strays, [0; 0]);
}

#[test]
fn fields_and_constructors_belong_to_their_definition() {
    let parsed = specs::parse(SPECS);
    let members: Vec<_> = parsed.definitions.iter().map(|definition| definition.members.join(" ")).collect();
    assert_eq!(members, ["", "low high", "", "net", "change update"]);
}

#[test]
fn a_module_s_parameters_are_its_definitions() {
    let parsed = specs::parse(SPECS);
    let within: Vec<_> = parsed.definitions.iter().map(|definition| definition.text().contains("Model")).collect();
    assert_eq!(within, [false, false, true, true, false]);
}

#[test]
fn lines_of_no_definition_are_strays() {
    assert_eq!(specs::parse("hidden : ℕ\n\npub f : ℕ\nf = 0\n\nopaque pub g : ℕ\n").strays, [1, 6]);
}

#[test]
fn use_lines_lead_to_files() {
    let text = "use Rattle.std.specs.Prelude.{ℕ}
use Rattle.io.specs.Counts.{count}
use Rattle.clew.specs.Calls.{
  call_of as f,
  g
}
use Rattle.clew_c.specs.Flat.{told}
use Rattle.numbers.specs.declared.side.Side.TheVariants.{Short}
use Rattle.facts.specs.Demand.Step.{again}
use Rattle.clew.proofs.Answers.{answer}
";
    let scope = of_specs(text, "use", &tree(&[]));
    let found: Vec<_> = scope.iter().map(|(here, key)| format!("{here}: {} {}", key.file, key.name)).collect();
    let expected = [
        "Short: crates/numbers/src/side.rt Side",
        "again: crates/facts/specs/Demand.antt Step",
        "f: crates/clew/specs/Calls.antt call_of",
        "g: crates/clew/specs/Calls.antt g",
        "told: crates/clew_c/specs/Flat.antt told",
    ];
    assert_eq!(found, expected);
}

#[test]
fn use_lines_of_the_code_do_too() {
    let text =
        "use crate::a::B;\nuse numbers::side::{Side, C as D};\nuse calling::call;\nuse libc::X;\nuse crate::print;\n";
    let tree = tree(&[("crates/clew/src/user.rt", text)]);
    let source = tree.code().find(|source| source.path.ends_with("user.rt")).expect("it is there");
    let found: Vec<_> = of_code(&source, &tree).into_iter().map(|(here, key)| (here, key.file, key.name)).collect();
    let expected = [
        ("B", "crates/clew/src/a.rt", "B"),
        ("D", "crates/numbers/src/side.rt", "C"),
        ("Side", "crates/numbers/src/side.rt", "Side"),
        ("call", "crates/clew/src/calling.rt", "call"),
        ("print", "crates/clew/src/lib.rt", "print"),
    ];
    assert_eq!(found, expected.map(|(here, file, name)| (here.to_string(), file.to_string(), name.to_string())));
}

const CODE: &str = "// A file.
#[derive]
pub struct Pair {
    // one
    pub left: [Side; 17],
    #[small]
    right: u8,
}

enum Side {
    Short(Pair, u8),
    Long,
}

fn hidden(
    left: u8,
) -> u8
    requires { Asked left }
    ensures given { Given result }
    ensures more {
        More result
    }
{
    let ensures = Other { left };
    left
}

pub extern \"C\" fn clew_one() {
    ensures();
}
";

#[test]
fn types_have_members_and_lines() {
    let types = code::types(CODE);
    let found: Vec<_> = types.iter().map(|kind| (kind.name.as_str(), kind.lines, kind.members.join(" "))).collect();
    assert_eq!(found, [("Pair", 4, "left right".to_string()), ("Side", 4, "Short Long".to_string())]);
    assert!(types[0].held.contains("Side") && types[1].held.contains("Pair"));
    assert!(!types[1].held.contains("Short"));
}

#[test]
fn functions_have_their_promises_and_no_more() {
    let functions = code::functions(CODE);
    let found: Vec<_> =
        functions.iter().map(|f| (f.name.as_str(), f.public, f.ensures.matches("result").count())).collect();
    assert_eq!(found, [("hidden", false, 2), ("clew_one", true, 0)]);
    assert!(!functions[0].ensures.contains("Asked") && !functions[0].ensures.contains("Other"));
}

#[test]
fn a_library_hands_on_by_name() {
    assert_eq!(code::handed_on("mod a;\nuse c::d;\npub use a::b;\n"), [("a", "b")]);
}

#[test]
fn proofs_declare_names_at_any_depth() {
    let text = "-- no : name\npub a-b : ℕ → ℕ\na-b x = x\n  abbrev c : ℕ\npub record D (n : ℕ) : Type 0 where\n    let e : ℕ = 0 in\n";
    assert_eq!(proofs::declared(text).collect::<Vec<_>>(), ["a-b", "c", "D"]);
}

#[test]
fn a_statement_is_the_whole_type_of_a_law() {
    let text = "pub a : Whole\npub b : Part → ℕ\nc : Hidden\npub d : Held 0\n";
    assert_eq!(proofs::whole_types(text).collect::<Vec<_>>(), ["Whole"]);
}

#[test]
fn single_words_in_backticks_are_read() {
    let found = doc::parse("`a` b `c d` `e/f.rt`\n    `g`\n   `h` `a`\n`i` ` j\n");
    let words: Vec<_> = found.words.iter().map(|(word, line)| (word.as_str(), *line)).collect();
    assert_eq!(words, [("a", 1), ("e/f.rt", 1), ("h", 3), ("i", 4)]);
    assert_eq!(found.unpaired, [4]);
}
