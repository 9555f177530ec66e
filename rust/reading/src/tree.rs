//! The files that are looked at, in memory.

use std::collections::BTreeMap;
use std::fs;
use std::path::Path;

pub const CRATES: &str = "crates.txt";
pub const READING: &str = "docs/READING.md";
pub const PROOFS: &str = "docs/PROOFS.md";

/// The crates in the order of crates.txt, and the files' texts by their paths from the root.
pub struct Tree {
    pub crates: Vec<String>,
    files: BTreeMap<String, String>,
}

/// A file of a crate.
pub struct Source<'a> {
    pub owner: &'a str,
    pub path: &'a str,
    pub text: &'a str,
}

impl Tree {
    /// A tree of these files, crates.txt among them.
    pub fn of(files: BTreeMap<String, String>) -> Tree {
        let listed = files.get(CRATES).map_or("", String::as_str);
        let lines = listed.lines().map(|line| line.split('#').next().unwrap_or_default());
        // A kind may follow the name, and no library need.
        let names = lines.filter_map(|line| line.split(':').next().unwrap_or_default().split_whitespace().next());
        let crates = names.map(String::from).collect();
        Tree { crates, files }
    }

    /// The tree below a root, or the path that cannot be read.
    pub fn read(root: &Path) -> Result<Tree, String> {
        let mut files = BTreeMap::new();
        add(root, CRATES, &mut files)?;
        add(root, READING, &mut files)?;
        add(root, PROOFS, &mut files)?;
        for name in Tree::of(files.clone()).crates {
            for folder in ["specs", "src", "proofs"] {
                walk(root, &format!("crates/{name}/{folder}"), &mut files)?;
            }
        }
        Ok(Tree::of(files))
    }

    /// A file's text, if it is there.
    pub fn text(&self, path: &str) -> Option<&str> {
        self.files.get(path).map(String::as_str)
    }

    /// The definitions' files.
    pub fn specs(&self) -> impl Iterator<Item = Source<'_>> {
        self.sources("specs", ".antt").filter(|source| !source.path.ends_with("/Lib.antt"))
    }

    /// The code.
    pub fn code(&self) -> impl Iterator<Item = Source<'_>> {
        self.sources("src", ".rt")
    }

    /// The proofs.
    pub fn proofs(&self) -> impl Iterator<Item = Source<'_>> {
        self.sources("proofs", ".antt")
    }

    /// The files of one folder of each crate.
    fn sources<'a>(&'a self, folder: &'a str, ending: &'a str) -> impl Iterator<Item = Source<'a>> {
        self.files.iter().filter_map(move |(path, text)| {
            let (owner, inner) = path.strip_prefix("crates/")?.split_once('/')?;
            let fits = inner.split('/').next() == Some(folder) && path.ends_with(ending);
            fits.then_some(Source { owner, path, text })
        })
    }
}

/// Reads one file.
fn add(root: &Path, path: &str, files: &mut BTreeMap<String, String>) -> Result<(), String> {
    let text = fs::read_to_string(root.join(path)).map_err(|error| format!("{path}: {error}"))?;
    files.insert(path.to_string(), text);
    Ok(())
}

/// Reads the sources below a folder, which need not be there.
fn walk(root: &Path, folder: &str, files: &mut BTreeMap<String, String>) -> Result<(), String> {
    if !root.join(folder).is_dir() {
        return Ok(());
    }
    let failed = |error| format!("{folder}: {error}");
    for entry in fs::read_dir(root.join(folder)).map_err(failed)? {
        let entry = entry.map_err(failed)?;
        let path = format!("{folder}/{}", entry.file_name().to_string_lossy());
        if entry.path().is_dir() {
            walk(root, &path, files)?;
        } else if path.ends_with(".antt") || path.ends_with(".rt") {
            add(root, &path, files)?;
        }
    }
    Ok(())
}
