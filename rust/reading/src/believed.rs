//! The promises, the statements, and what they rest on.

use std::collections::BTreeSet;

use crate::code::{self, Function};
use crate::library::Library;
use crate::proofs;
use crate::tree::Tree;
use crate::uses::{self, Key};

/// The crates whose functions make the promises.
const PROMISING: [&str; 4] = ["clew", "clew_c", "clew_export", "lines"];

/// The folder of the statements' definitions.
const STATEMENTS: &str = "crates/facts/specs/";

/// The folder of the laws that prove them.
const LAWS: &str = "crates/facts/proofs/";

#[derive(Default)]
pub struct Believed {
    /// What the promises rest on, types included.
    pub promises: BTreeSet<Key>,
    /// The statements alone.
    pub statements: BTreeSet<Key>,
    /// What promises and statements rest on, with the statements.
    pub all: BTreeSet<Key>,
    /// What could not be followed.
    pub strays: Vec<String>,
}

impl Believed {
    /// Follows the uses from both kinds of roots.
    pub fn of(tree: &Tree, library: &Library) -> Believed {
        let mut strays = Vec::new();
        let promised = promised(tree, library, &mut strays);
        let statements = statements(tree);
        let roots = promised.union(&statements).cloned().collect();
        let all = closure(library, roots);
        strays.extend(lost(library, &all));
        let there = |keys: BTreeSet<Key>| keys.into_iter().filter(|key| library.items.contains_key(key)).collect();
        Believed { promises: there(closure(library, promised)), statements: there(statements), all: there(all), strays }
    }

    /// The believed definitions.
    pub fn definitions(&self) -> impl Iterator<Item = &Key> {
        self.all.iter().filter(|key| !key.is_type())
    }

    /// The believed types of the code.
    pub fn types(&self) -> impl Iterator<Item = &Key> {
        self.all.iter().filter(|key| key.is_type())
    }

    /// Whether something of that name is believed.
    pub fn has(&self, name: &str) -> bool {
        self.all.iter().any(|key| key.name == name)
    }
}

/// What the `ensures` clauses of all functions that are handed out name.
fn promised(tree: &Tree, library: &Library, strays: &mut Vec<String>) -> BTreeSet<Key> {
    let mut found = BTreeSet::new();
    for owner in PROMISING {
        let path = format!("crates/{owner}/src/lib.rt");
        let Some(text) = tree.text(&path) else {
            strays.push(format!("{path} is missing"));
            continue;
        };
        let own = code::functions(text).into_iter().filter(|function| function.public);
        found.extend(own.flat_map(|function| named(tree, text, &function)));
        for module in uses::statements(text, "pub mod") {
            strays.push(format!("{path}: `pub mod {}` is not followed", module.trim_end_matches(';')));
        }
        for (module, name) in code::handed_on(text) {
            let file = module_file(tree, owner, module);
            match handed(tree, &file, name) {
                Some(keys) => found.extend(keys),
                None if library.items.contains_key(&Key::new(&file, name)) => {}
                None => strays.push(format!("{path}: `{name}` is neither a function nor a type of {file}")),
            }
        }
    }
    found
}

/// The file of a module that a crate hands on from: one of its own, or, where the path begins with a crate's name, of that crate.
fn module_file(tree: &Tree, owner: &str, module: &str) -> String {
    match module.split_once("::") {
        Some((other, inner)) if tree.crates.iter().any(|name| name == other) => {
            format!("crates/{other}/src/{inner}.rt")
        }
        _ => format!("crates/{owner}/src/{module}.rt"),
    }
}

/// What the function of that name in a file promises, if there is one.
fn handed(tree: &Tree, file: &str, name: &str) -> Option<BTreeSet<Key>> {
    let text = tree.text(file)?;
    let function = code::functions(text).into_iter().find(|function| function.name == name)?;
    Some(named(tree, text, &function))
}

/// What the `ensures` clauses of a function name, as the file's `ghost use` lines say.
fn named(tree: &Tree, text: &str, function: &Function) -> BTreeSet<Key> {
    uses::meant(&function.ensures, &uses::of_specs(text, "ghost use", tree))
}

/// The definitions that are the whole type of a law.
fn statements(tree: &Tree) -> BTreeSet<Key> {
    let mut found = BTreeSet::new();
    for source in tree.proofs().filter(|source| source.path.starts_with(LAWS)) {
        let scope = uses::of_specs(source.text, "use", tree);
        let types = proofs::whole_types(source.text).flat_map(|name| uses::meant(name, &scope));
        found.extend(types.filter(|key| key.file.starts_with(STATEMENTS)));
    }
    found
}

/// The roots and all that they use, and what those use, and so on.
fn closure(library: &Library, roots: BTreeSet<Key>) -> BTreeSet<Key> {
    let mut seen = roots.clone();
    let mut next: Vec<Key> = roots.into_iter().collect();
    while let Some(key) = next.pop() {
        for used in library.items.get(&key).into_iter().flat_map(|item| &item.uses) {
            if seen.insert(used.clone()) {
                next.push(used.clone());
            }
        }
    }
    seen
}

/// A line for each thing that is used and not there.
fn lost(library: &Library, all: &BTreeSet<Key>) -> Vec<String> {
    let missing = all.iter().filter(|key| !library.items.contains_key(key));
    missing.map(|key| format!("{}: `{}` is used, and is not defined there", key.file, key.name)).collect()
}
