//! A small library with nothing to find, and what is found where some of its files are others.

#![allow(dead_code)] // each test file uses its own part

use std::collections::BTreeMap;

use reading::tree::Tree;
use reading::{report, untold, Report};

const FILES: [(&str, &str); 17] = [
    (
        "crates.txt",
        "# Crates.\nnumbers:\nclew: numbers\nfacts: numbers clew\nclew_c: clew\nclew_export staticlib: clew_c\nlines\n",
    ),
    ("crates/numbers/specs/Lib.antt", "pub mod Total\npub mod Asked\n"),
    (
        "crates/numbers/specs/Total.antt",
        "-- Totals.
use Rattle.std.specs.Prelude.{ℕ, ◌+◌}
use Rattle.numbers.specs.declared.pair.Pair.{Pair}

-- the sum of both
abbrev pub sum_of : Pair → ℕ
sum_of p = p.left + p.right

unfoldable pub twice : Pair → ℕ
twice p =
    sum_of p + sum_of p
",
    ),
    (
        "crates/numbers/specs/Asked.antt",
        "use Rattle.numbers.specs.Total.{twice}
use Rattle.numbers.specs.declared.pair.Pair.{Pair}

pub record Small (p : Pair) : Type 0 where
  pub few : twice p ≤ 9
",
    ),
    (
        "crates/numbers/src/pair.rt",
        "use crate::side::Side;

// Two of them.
pub struct Pair {
    // the first
    pub left: Side,
    pub right: Side,
}
",
    ),
    ("crates/numbers/src/side.rt", "#[small]\npub enum Side {\n    Short(u8),\n    Long,\n}\n"),
    (
        "crates/clew/specs/Calls.antt",
        "use Rattle.numbers.specs.Total.{twice as doubled}
use Rattle.numbers.specs.declared.pair.Pair.{Pair}

unfoldable pub call_of : Pair → ℕ
call_of p = doubled p
",
    ),
    ("crates/clew/src/lib.rt", "mod calling;\n\npub use calling::call;\n"),
    (
        "crates/clew/src/calling.rt",
        "ghost use Rattle.std.specs.Prelude.{◌≡◌};
ghost use Rattle.numbers.specs.Asked.{Small};
ghost use Rattle.clew.specs.Calls.{call_of};

pub fn call(p: Pair) -> u8
    requires { Small p }
    ensures { result ≡ call_of p }
{
    helped(p)
}
",
    ),
    ("crates/clew_c/specs/Flat.antt", "abbrev pub told : ℕ → ℕ\ntold n = n\n"),
    (
        "crates/clew_c/src/lib.rt",
        "ghost use Rattle.clew.specs.Calls.{call_of};
ghost use Rattle.clew_c.specs.Flat.{told};

pub fn clew_call(left: u8) -> u8
    ensures { result ≡ told (call_of left) }
{
    0
}
",
    ),
    (
        "crates/clew_export/src/lib.rt",
        "ghost use Rattle.clew.specs.Calls.{call_of};
ghost use Rattle.clew_c.specs.Flat.{told};

#[unsafe(no_mangle)]
pub extern \"C\" fn clew_call(left: u8) -> u8
    ensures { result ≡ told (call_of left) }
{
    clew_c::clew_call(left)
}
",
    ),
    ("crates/lines/src/lib.rt", "mod line;\npub use line::list;\n"),
    ("crates/lines/src/line.rt", "pub fn list() -> u8\n    ensures { result ≤ 9 }\n{\n    0\n}\n"),
    (
        "crates/facts/specs/Demand.antt",
        "use Rattle.clew.specs.Calls.{call_of}

pub data Step : Type 0 where
  again : Step → Step

pub record Doubles : Type 0 where
  pub each : (p : ℕ) → Step → call_of p ≡ p + p
",
    ),
    (
        "crates/facts/proofs/Demand.antt",
        "use Rattle.facts.specs.Demand.{Doubles}
use Rattle.numbers.specs.Asked.{Small}

-- a law of another crate's definition
pub small : Small
pub each-step : Doubles → ℕ
pub doubles : Doubles
doubles = record { each = each-step }
",
    ),
    (
        "docs/READING.md",
        "# What to believe

`sum_of` and `twice` of a `Pair` with a `Side` each; `call_of`, `told`; `Step` and `Doubles`, proved by `doubles`.
Its field is `each`, its constructor `again`. `call` asks for `Small p`, and `p` is `&[u8]` long in `numbers`.
Files: `crates/`, `clew/src/lib.rt`, `specs/Calls.antt`. By `nat_abs`:

    `Small` and `nothing` count for nothing here
",
    ),
];

/// The paths of the small library.
pub fn exists(path: &str) -> bool {
    FILES.iter().any(|(file, _)| *file == path || file.starts_with(&format!("{}/", path.trim_end_matches('/'))))
}

/// The small library with other texts for some files.
pub fn tree(others: &[(&str, &str)]) -> Tree {
    let files = FILES.iter().chain(others).map(|(path, text)| (path.to_string(), text.to_string()));
    Tree::of(files.collect::<BTreeMap<_, _>>())
}

/// The text of a file of the small library.
pub fn text(path: &str) -> &'static str {
    FILES.iter().find(|(file, _)| *file == path).expect("the file is there").1
}

/// What is told of the small library with other texts for some files.
pub fn told(others: &[(&str, &str)]) -> Report {
    report(&tree(others), &exists)
}

/// What is told where one text of a file is another.
pub fn told_with(path: &str, old: &str, new: &str) -> Report {
    assert!(text(path).contains(old), "{path} has no {old}");
    told(&[(path, &text(path).replace(old, new))])
}

/// What docs/READING.md does not say of the sizes, where it is another text.
pub fn untold_of(reading: &str) -> Option<String> {
    let tree = tree(&[("docs/READING.md", reading)]);
    untold(&tree, &report(&tree, &exists))
}
