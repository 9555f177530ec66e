//! How much there is to believe.

use crate::believed::Believed;
use crate::library::Library;
use crate::tree::Tree;
use crate::uses::Key;

/// The lines of the sizes: each crate's, those of promises and statements, and all.
pub fn lines(tree: &Tree, library: &Library, believed: &Believed) -> Vec<String> {
    let mut found = crate_lines(tree, library, believed);
    let promised = |key: &Key| believed.promises.contains(key);
    let stated = |key: &Key| believed.statements.contains(key);
    let size = |test: &dyn Fn(&Key) -> bool| size(library, believed.definitions().filter(|key| test(key)));
    let (count, lines) = size(&promised);
    found.push(format!("reading: the promises rest on {count} definitions in {lines} lines"));
    let (count, lines) = size(&stated);
    let (more, rest) = size(&|key| !promised(key) && !stated(key));
    let statements = format!("the statements are {count} in {lines} lines");
    found.push(format!("reading: {statements}, and rest on {more} more definitions in {rest} lines"));
    let (count, lines) = size(&|_| true);
    let (types, rest) = self::size(library, believed.types());
    let definitions = format!("{count} definitions in {lines} lines");
    found.push(format!("reading: to believe: {definitions}, and {types} types of the code in {rest} lines"));
    found
}

/// A line for each crate that has something to believe.
fn crate_lines(tree: &Tree, library: &Library, believed: &Believed) -> Vec<String> {
    let mut found = Vec::new();
    for name in &tree.crates {
        let folder = format!("crates/{name}/");
        let (count, lines) = size(library, believed.definitions().filter(|key| key.file.starts_with(&folder)));
        if count > 0 {
            found.push(format!("reading: {name}: {count} definitions, {lines} lines"));
        }
    }
    found
}

/// How many these are, and how many lines they have.
fn size<'a>(library: &Library, keys: impl Iterator<Item = &'a Key>) -> (usize, usize) {
    let items = keys.filter_map(|key| library.items.get(key));
    items.fold((0, 0), |(count, lines), item| (count + 1, lines + item.lines))
}
