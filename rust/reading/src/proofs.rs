//! The names and the laws of a proof file.

use crate::words::{counted, is_name};

/// What may stand before a declared name.
const BEFORE: [&str; 3] = ["pub", "abbrev", "unfoldable"];

/// All names that a proof file declares, at any depth, the fields of its records too.
pub fn declared(text: &str) -> impl Iterator<Item = &str> {
    counted(text, &["--"]).filter_map(|(_, line)| {
        let mut words = line.split_whitespace().skip_while(|word| BEFORE.contains(word));
        let (first, second) = (words.next()?, words.next()?);
        match (first, second) {
            ("record" | "data", name) if is_name(name) => Some(name),
            (name, ":") if is_name(name) => Some(name),
            _ => None,
        }
    })
}

/// The words that are the whole type of a law: NAME of a line `pub LAW : NAME`.
pub fn whole_types(text: &str) -> impl Iterator<Item = &str> {
    counted(text, &["--"]).filter_map(|(_, line)| {
        let words: Vec<&str> = line.split_whitespace().collect();
        match words[..] {
            ["pub", _, ":", name] => Some(name),
            _ => None,
        }
    })
}
