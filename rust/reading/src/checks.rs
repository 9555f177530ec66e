//! docs/READING.md and docs/PROOFS.md against the sources, a line for each difference.

use std::collections::{BTreeMap, BTreeSet};

use crate::believed::Believed;
use crate::doc::{self, Doc};
use crate::known;
use crate::library::Library;
use crate::tree::{Tree, PROOFS, READING};
use crate::uses::Key;

/// All differences, those that make the others doubtful first.
pub fn all(tree: &Tree, library: &Library, believed: &Believed, exists: &dyn Fn(&str) -> bool) -> Vec<String> {
    let doc = doc::parse(tree.text(READING).unwrap_or_default());
    let mut found = library.strays.clone();
    found.extend(believed.strays.iter().cloned());
    found.extend(all_are_named(believed, &doc));
    found.extend(named_are_believed(library, believed, &doc));
    for path in [READING, PROOFS] {
        found.extend(words_are_known(tree, library, path, exists));
    }
    found.extend(names_are_single(believed));
    found.extend(files_are_whole(library, believed));
    found
}

/// Check a: every believed definition and type is named.
pub fn all_are_named(believed: &Believed, doc: &Doc) -> Vec<String> {
    let unnamed = believed.all.iter().filter(|key| !doc.words.contains_key(&key.name));
    unnamed.map(|key| format!("{}: `{}` is believed, and {READING} does not name it", key.file, key.name)).collect()
}

/// Check b: every definition that is named is believed.
pub fn named_are_believed(library: &Library, believed: &Believed, doc: &Doc) -> Vec<String> {
    let mut found = Vec::new();
    for (word, line) in doc.words.iter().filter(|(word, _)| !believed.has(word)) {
        let files: Vec<&str> = library.definitions().filter(|key| key.name == *word).map(|key| &*key.file).collect();
        if !files.is_empty() {
            found.push(format!("{READING}:{line}: `{word}` of {} is not believed", files.join(" and ")));
        }
    }
    found
}

/// Check c: every word of a document is known, and no backtick stands alone there.
pub fn words_are_known(tree: &Tree, library: &Library, path: &str, exists: &dyn Fn(&str) -> bool) -> Vec<String> {
    let doc = doc::parse(tree.text(path).unwrap_or_default());
    let mut names = known::names(tree);
    names.extend(library.definitions().map(|key| key.name.clone()));
    let others = doc.words.iter().filter(|(word, _)| !known::is_passed_over(word) && !names.contains(*word));
    let alone = doc.unpaired.iter().map(|line| format!("{path}:{line}: a backtick stands alone"));
    let mut found: Vec<String> = alone.collect();
    for (word, line) in others.filter(|(word, _)| !known::is_letter(word)) {
        if !known::is_path(word) {
            found.push(format!("{path}:{line}: `{word}` is not known"));
        } else if !known::is_there(word, tree, exists) {
            found.push(format!("{path}:{line}: there is no `{word}`"));
        }
    }
    found
}

/// Check d: no two believed definitions or types share a name.
pub fn names_are_single(believed: &Believed) -> Vec<String> {
    let mut files: BTreeMap<&str, Vec<&str>> = BTreeMap::new();
    for Key { file, name } in &believed.all {
        files.entry(name).or_default().push(file);
    }
    let shared = files.into_iter().filter(|(_, files)| files.len() > 1);
    shared.map(|(name, files)| format!("`{name}` is believed in {}", files.join(" and in "))).collect()
}

/// Check e: a specs/ file is believed wholly or not at all.
pub fn files_are_whole(library: &Library, believed: &Believed) -> Vec<String> {
    let files: BTreeSet<&str> = library.definitions().map(|key| &*key.file).collect();
    let mut found = Vec::new();
    for file in files {
        let keys = library.definitions().filter(|key| key.file == file);
        let (within, without): (Vec<&Key>, Vec<&Key>) = keys.partition(|key| believed.all.contains(*key));
        if within.is_empty() || without.is_empty() {
            continue;
        }
        let (fewer, words) = if within.len() < without.len() {
            (within, "only these are believed")
        } else {
            (without, "these are not believed")
        };
        let names: Vec<String> = fewer.iter().map(|key| format!("`{}`", key.name)).collect();
        found.push(format!("{file}: {words}: {}", names.join(", ")));
    }
    found
}
