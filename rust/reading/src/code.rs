//! The types and the functions of a file of the code.

use crate::uses::{path_and_names, statements};
use crate::words::{counted, leading_name};

/// What begins a line of the code that does not count.
const PASSED: [&str; 2] = ["//", "#["];

/// A struct or an enum.
#[derive(Clone, Debug, Default)]
pub struct Type {
    pub name: String,
    pub lines: usize,
    /// Its fields or variants.
    pub members: Vec<String>,
    /// What its fields and variants hold.
    pub held: String,
}

#[derive(Clone, Debug)]
pub struct Function {
    pub name: String,
    pub public: bool,
    /// The text of its `ensures` clauses.
    pub ensures: String,
}

/// The types that a file declares.
pub fn types(text: &str) -> Vec<Type> {
    let mut found: Vec<Type> = Vec::new();
    let mut open = false;
    for (_, line) in counted(text, &PASSED) {
        if let (false, Some((name, rest))) = (open, type_head(line)) {
            found.push(Type { name: name.to_string(), lines: 1, held: rest.to_string(), ..Type::default() });
            open = rest.contains('{') && !rest.contains('}');
        } else if let (true, Some(last)) = (open, found.last_mut()) {
            last.lines += 1;
            open = !line.starts_with('}');
            let (name, held) = leading_name(without(line.trim_start(), "pub "));
            if !name.is_empty() {
                last.members.push(name.to_string());
                last.held += held;
            }
        }
    }
    found
}

/// The name of the type that a line begins, and what follows.
fn type_head(line: &str) -> Option<(&str, &str)> {
    let line = without(line, "pub ");
    let line = line.strip_prefix("struct ").or_else(|| line.strip_prefix("enum "))?;
    Some(leading_name(line))
}

/// The functions that a file declares; a contract ends with the brace that begins the body.
pub fn functions(text: &str) -> Vec<Function> {
    let mut found: Vec<Function> = Vec::new();
    let (mut contract, mut ensures) = (false, false);
    for (_, line) in counted(text, &PASSED) {
        let words = line.trim();
        if let Some(function) = function_head(words) {
            found.push(function);
            (contract, ensures) = (!words.ends_with('{'), false);
            continue;
        }
        contract = contract && words != "{";
        let clause = clause(words);
        ensures = contract && clause.map_or(ensures, |(kind, _)| kind == "ensures");
        if let (true, Some(last)) = (ensures, found.last_mut()) {
            last.ensures += clause.map_or(words, |(_, said)| said);
            last.ensures += "\n";
        }
    }
    found
}

/// The kind of the clause that a line begins, and what the line says in it, without the clause's name.
fn clause(line: &str) -> Option<(&str, &str)> {
    let (kind, rest) = leading_name(line);
    let said = match rest.split_once('{') {
        Some((name, said)) if leading_name(name.trim_start_matches('*').trim()).1.is_empty() => said,
        _ => rest,
    };
    ["requires", "ensures"].contains(&kind).then_some((kind, said))
}

/// The function that a line begins, with nothing promised yet.
fn function_head(line: &str) -> Option<Function> {
    let public = line.starts_with("pub ");
    let line = without(without(line, "pub "), "extern \"C\" ");
    let (name, _) = leading_name(line.strip_prefix("fn ")?);
    Some(Function { name: name.to_string(), public, ensures: String::new() })
}

/// What a crate's lib.rt hands on by `pub use`: a module and a name of it.
pub fn handed_on(text: &str) -> Vec<(&str, &str)> {
    let parts = statements(text, "pub use").into_iter().map(|statement| path_and_names(statement, ':'));
    parts.flat_map(|(path, names)| names.into_iter().map(move |(name, _)| (path, name))).collect()
}

/// A text without a beginning that it may have.
fn without<'a>(text: &'a str, beginning: &str) -> &'a str {
    text.strip_prefix(beginning).unwrap_or(text)
}
