//! All definitions and all types of the code, with what each of them uses.

use std::collections::{BTreeMap, BTreeSet};

use crate::code;
use crate::specs::{self, Definition, Sort};
use crate::tree::{Source, Tree};
use crate::uses::{self, Key, Scope};

/// How many lines something has, and what it uses.
#[derive(Clone, Debug)]
pub struct Item {
    pub lines: usize,
    pub uses: BTreeSet<Key>,
}

/// Definitions and types by their keys, and what could not be followed.
#[derive(Default)]
pub struct Library {
    pub items: BTreeMap<Key, Item>,
    pub strays: Vec<String>,
    /// The data type of each constructor.
    constructors: BTreeMap<Key, Key>,
}

impl Library {
    /// Reads all of a tree.
    pub fn of(tree: &Tree) -> Library {
        let mut library = Library::default();
        for source in tree.specs() {
            library.add_definitions(&source, tree);
        }
        for source in tree.code() {
            library.add_types(&source, tree);
        }
        library.name_data();
        library
    }

    /// In what is used, also from another file, the name of a constructor stands for its type.
    fn name_data(&mut self) {
        for item in self.items.values_mut() {
            let named = |key: Key| self.constructors.get(&key).cloned().unwrap_or(key);
            item.uses = std::mem::take(&mut item.uses).into_iter().map(named).collect();
        }
    }

    /// The keys of all definitions.
    pub fn definitions(&self) -> impl Iterator<Item = &Key> {
        self.items.keys().filter(|key| !key.is_type())
    }

    /// The definitions of a specs/ file; the name of a constructor stands for its type.
    fn add_definitions(&mut self, source: &Source<'_>, tree: &Tree) {
        let parsed = specs::parse(source.text);
        let mut scope = uses::of_specs(source.text, "use", tree);
        for definition in &parsed.definitions {
            scope.extend(names(definition).map(|name| (name.clone(), Key::new(source.path, &definition.name))));
        }
        for number in parsed.strays {
            self.strays.push(format!("{}:{number}: this line belongs to no definition", source.path));
        }
        for definition in &parsed.definitions {
            let key = Key::new(source.path, &definition.name);
            let made = names(definition).map(|name| (Key::new(source.path, name), key.clone()));
            self.constructors.extend(made);
            self.add(key, definition.lines.len(), &definition.text(), &scope);
        }
    }

    /// The types of a file of the code.
    fn add_types(&mut self, source: &Source<'_>, tree: &Tree) {
        let types = code::types(source.text);
        let mut scope = uses::of_code(source, tree);
        scope.extend(types.iter().map(|kind| (kind.name.clone(), Key::new(source.path, &kind.name))));
        for kind in &types {
            let text = kind.held.replace(|c: char| !c.is_alphanumeric() && c != '_', " ");
            self.add(Key::new(source.path, &kind.name), kind.lines, &text, &scope);
        }
    }

    /// One definition or type, of which the file has no other with its name.
    fn add(&mut self, key: Key, lines: usize, text: &str, scope: &Scope) {
        let mut uses = uses::meant(text, scope);
        uses.remove(&key);
        if self.items.contains_key(&key) {
            self.strays.push(format!("{}: `{}` is defined twice", key.file, key.name));
        }
        self.items.insert(key, Item { lines, uses });
    }
}

/// The names by which a definition is used: its own, and a data type's constructors.
fn names(definition: &Definition) -> impl Iterator<Item = &String> {
    let constructors: &[String] = if definition.sort == Sort::Data { &definition.members } else { &[] };
    constructors.iter().chain([&definition.name])
}
