//! Which definitions have to be believed, worked out from the sources, and whether docs/READING.md names just these.
//!
//! * [`tree`]: the files that are looked at
//! * [`words`]: the words and the lines of a text
//! * [`uses`]: what `use` lines bring in
//! * [`specs`], [`code`], [`proofs`]: what a file of each sort declares
//! * [`library`]: all definitions and types, with what each of them uses
//! * [`believed`]: the promises, the statements, and what they rest on
//! * [`doc`]: the words that a document has in backticks
//! * [`known`]: what else such a word may be
//! * [`checks`]: docs/READING.md and docs/PROOFS.md against the sources
//! * [`sizes`]: how much there is to believe

pub mod believed;
pub mod checks;
pub mod code;
pub mod doc;
pub mod known;
pub mod library;
pub mod proofs;
pub mod sizes;
pub mod specs;
pub mod tree;
pub mod uses;
pub mod words;

use believed::Believed;
use library::Library;
use tree::{Tree, READING};

/// What is told of a tree: a line for each difference, and then the sizes.
pub struct Report {
    pub differences: Vec<String>,
    pub sizes: Vec<String>,
}

/// The whole work; `exists` says whether there is a file or a folder at a path from the root.
pub fn report(tree: &Tree, exists: &dyn Fn(&str) -> bool) -> Report {
    let library = Library::of(tree);
    let believed = Believed::of(tree, &library);
    let differences = checks::all(tree, &library, &believed, exists);
    Report { differences, sizes: sizes::lines(tree, &library, &believed) }
}

/// A line where docs/READING.md does not say how much there is to believe.
pub fn untold(tree: &Tree, report: &Report) -> Option<String> {
    let all = report.sizes.last()?.strip_prefix("reading: to believe: ")?;
    let says = tree.text(READING).is_some_and(|text| text.contains(all));
    (!says).then(|| format!("{READING}: it does not say: {all}"))
}
