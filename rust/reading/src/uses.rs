//! What `use` lines bring in.

use std::collections::BTreeSet;

use crate::tree::{Source, Tree};
use crate::words::words;

/// A definition or a type of the code: the path of its file, and its name.
#[derive(Clone, Debug, PartialEq, Eq, PartialOrd, Ord)]
pub struct Key {
    pub file: String,
    pub name: String,
}

impl Key {
    pub fn new(file: impl Into<String>, name: impl Into<String>) -> Key {
        Key { file: file.into(), name: name.into() }
    }

    /// Whether it is a type of the code.
    pub fn is_type(&self) -> bool {
        self.file.ends_with(".rt")
    }
}

/// Names as a file has them, with what they stand for.
pub type Scope = BTreeSet<(String, Key)>;

/// What the words of a text stand for.
pub fn meant(text: &str, scope: &Scope) -> BTreeSet<Key> {
    let words: BTreeSet<&str> = words(text).collect();
    scope.iter().filter(|(name, _)| words.contains(name.as_str())).map(|(_, key)| key.clone()).collect()
}

/// What `use` or `ghost use` lines in the language of the proofs bring in of our crates; the kit's do not count.
pub fn of_specs(text: &str, keyword: &str, tree: &Tree) -> Scope {
    let mut scope = Scope::new();
    for statement in statements(text, keyword) {
        let (path, names) = path_and_names(statement, '.');
        let Some((file, inner)) = specs_place(path, tree) else { continue };
        for (name, here) in names {
            scope.insert((here.to_string(), Key::new(&file, inner.unwrap_or(name))));
        }
    }
    scope
}

/// The file that a path leads to, and the type in it whose variants or constructors the path names.
fn specs_place<'a>(path: &'a str, tree: &Tree) -> Option<(String, Option<&'a str>)> {
    let (owner, inner) = path.strip_prefix("Rattle.")?.split_once(".specs.")?;
    if !tree.crates.iter().any(|name| name == owner) {
        return None;
    }
    let parts: Vec<&str> = inner.split('.').filter(|part| *part != "TheVariants").collect();
    Some(match parts.as_slice() {
        ["declared", modules @ .., name] => (format!("crates/{owner}/src/{}.rt", modules.join("/")), Some(name)),
        [modules @ .., name] if !modules.is_empty() => {
            (format!("crates/{owner}/specs/{}.antt", modules.join("/")), Some(name))
        }
        _ => (format!("crates/{owner}/specs/{inner}.antt"), None),
    })
}

/// What `use` lines of the code bring in of our crates.
pub fn of_code(source: &Source<'_>, tree: &Tree) -> Scope {
    let mut scope = Scope::new();
    for statement in statements(source.text, "use") {
        let (path, names) = path_and_names(statement, ':');
        let Some(file) = code_place(path, source.owner, tree) else { continue };
        for (name, here) in names {
            scope.insert((here.to_string(), Key::new(&file, name)));
        }
    }
    scope
}

/// The file of a module: of this crate, of another of ours, or, with no crate named, one beside this.
fn code_place(path: &str, owner: &str, tree: &Tree) -> Option<String> {
    let parts: Vec<&str> = path.split("::").collect();
    let (owner, modules) = match parts.as_slice() {
        ["crate", modules @ ..] => (owner, modules),
        [first, modules @ ..] if tree.crates.iter().any(|name| name == first) => (*first, modules),
        modules => {
            let beside = format!("crates/{owner}/src/{}.rt", modules.join("/"));
            return tree.text(&beside).is_some().then_some(beside);
        }
    };
    let module = if modules.is_empty() { "lib".to_string() } else { modules.join("/") };
    Some(format!("crates/{owner}/src/{module}.rt"))
}

/// The statements that begin a line with a keyword, each from there to its end.
pub fn statements<'a>(text: &'a str, keyword: &str) -> Vec<&'a str> {
    let mut found = Vec::new();
    let mut at = 0;
    for line in text.split_inclusive('\n') {
        if let Some(rest) = line.strip_prefix(keyword).and_then(|rest| rest.strip_prefix(' ')) {
            let end = if rest.contains('{') { '}' } else { '\n' };
            let from = at + line.len() - rest.len();
            found.push(text[from..].split(end).next().unwrap_or_default());
        }
        at += line.len();
    }
    found
}

/// A statement's path, and its names: as they are there, and as they are here.
pub fn path_and_names(statement: &str, dot: char) -> (&str, Vec<(&str, &str)>) {
    let statement = statement.trim().trim_end_matches(';');
    let (path, names) = match statement.split_once('{') {
        Some(parts) => parts,
        None => statement.rsplit_once(dot).unwrap_or(("", statement)),
    };
    let names = names.split(',').map(str::trim).filter(|name| !name.is_empty());
    let pairs = names.map(|name| name.split_once(" as ").unwrap_or((name, name)));
    (path.trim_end_matches(dot), pairs.collect())
}
