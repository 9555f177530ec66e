//! The words that a document has in backticks.

use std::collections::BTreeMap;

/// Single words in backticks with the line of their first place, and the lines where a backtick stands alone.
#[derive(Debug, Default)]
pub struct Doc {
    pub words: BTreeMap<String, usize>,
    pub unpaired: Vec<usize>,
}

/// Reads a document; code blocks, indented by four spaces, count for nothing.
pub fn parse(text: &str) -> Doc {
    let mut doc = Doc::default();
    for (number, line) in (1..).zip(text.lines()).filter(|(_, line)| !line.starts_with("    ")) {
        let pieces: Vec<&str> = line.split('`').collect();
        if pieces.len() % 2 == 0 {
            doc.unpaired.push(number);
        }
        let spans = pieces.iter().skip(1).step_by(2);
        for word in spans.filter(|span| !span.is_empty() && !span.contains(char::is_whitespace)) {
            doc.words.entry(word.to_string()).or_insert(number);
        }
    }
    doc
}
