//! What a word in backticks may be, besides a definition.

use std::collections::BTreeSet;

use crate::tree::Tree;
use crate::words::{is_name, is_of_name};
use crate::{code, proofs, specs};

/// The words of the kit: no source here declares them.
const KIT: [&str; 10] = ["nat_abs", "shr_z", "-ℤ", "/", "ensures", "requires", "result", ".new", ".old", ".now"];

/// What a path ends in, if it has no slash.
const ENDINGS: [&str; 5] = [".antt", ".rt", ".md", ".rs", ".h"];

/// All names that the sources declare and that are no definitions, with the crates' and the kit's.
pub fn names(tree: &Tree) -> BTreeSet<String> {
    let mut names: BTreeSet<String> = KIT.iter().map(|word| word.to_string()).collect();
    names.extend(tree.crates.iter().cloned());
    for source in tree.code() {
        for kind in code::types(source.text) {
            names.insert(kind.name);
            names.extend(kind.members);
        }
        names.extend(code::functions(source.text).into_iter().map(|function| function.name));
    }
    for source in tree.specs() {
        names.extend(specs::parse(source.text).definitions.into_iter().flat_map(|definition| definition.members));
    }
    for source in tree.proofs() {
        names.extend(proofs::declared(source.text).map(String::from));
    }
    names
}

/// Whether a word is passed over: it has something in it that no name and no path has.
pub fn is_passed_over(word: &str) -> bool {
    word.chars().any(|c| !is_of_name(c) && !"./".contains(c))
}

/// Whether a word is a parameter's: one or two characters, a letter first.
pub fn is_letter(word: &str) -> bool {
    is_name(word) && word.starts_with(char::is_alphabetic) && word.chars().count() <= 2
}

/// Whether a word is meant as a path.
pub fn is_path(word: &str) -> bool {
    word.contains('/') || ENDINGS.iter().any(|ending| word.ends_with(ending))
}

/// Whether there is such a file or folder at the root, below crates/, or in a crate.
pub fn is_there(path: &str, tree: &Tree, exists: &dyn Fn(&str) -> bool) -> bool {
    let inner = tree.crates.iter().map(|name| format!("crates/{name}/{path}"));
    let mut places = [path.to_string(), format!("crates/{path}")].into_iter().chain(inner);
    !path.starts_with('/') && places.any(|place| exists(&place))
}
