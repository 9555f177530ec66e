//! The words and the lines of a text.

/// What ends a word, besides a space.
const ENDS: &str = "(){};,λ«»";

/// What a name may have in it, besides letters and digits.
const IN_NAMES: &str = "-_'";

/// The words of a text in the language of the proofs; a field, as in `x.name` and `(f x).name`, is none.
pub fn words(text: &str) -> impl Iterator<Item = &str> {
    let chunks = text.split(|c: char| c.is_whitespace() || ENDS.contains(c));
    chunks
        .flat_map(|chunk| chunk.split('.').take(if is_module(chunk) { usize::MAX } else { 1 }))
        .filter(|word| !word.is_empty())
}

/// Whether a text begins with the name of a module, and not of a variable: what follows its dot is a name there, and no field.
fn is_module(text: &str) -> bool {
    let name = text.split('.').next().unwrap_or_default();
    name.starts_with(char::is_uppercase) && name.chars().count() > 1
}

/// Whether a name may have this in it.
pub fn is_of_name(c: char) -> bool {
    c.is_alphanumeric() || IN_NAMES.contains(c)
}

/// Whether a word can be a name.
pub fn is_name(word: &str) -> bool {
    !word.is_empty() && word.chars().all(is_of_name)
}

/// The name that a text of the code begins with, and what follows it.
pub fn leading_name(text: &str) -> (&str, &str) {
    let end = text.find(|c: char| !c.is_alphanumeric() && c != '_').unwrap_or(text.len());
    text.split_at(end)
}

/// How far a line is indented.
pub fn indent(line: &str) -> usize {
    line.len() - line.trim_start_matches(' ').len()
}

/// The lines that count, with their numbers from 1: no blank ones, and none that begins with one of the marks.
pub fn counted<'a>(text: &'a str, marks: &'a [&str]) -> impl Iterator<Item = (usize, &'a str)> {
    let blank = |line: &str| line.trim().is_empty();
    let passed = move |line: &str| marks.iter().any(|mark| line.trim_start().starts_with(mark));
    (1..).zip(text.lines()).filter(move |(_, line)| !blank(line) && !passed(line))
}
