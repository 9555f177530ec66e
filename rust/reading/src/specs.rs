//! The definitions of a specs/ file.

use crate::words::{counted, indent, is_name};

#[derive(Clone, Copy, Debug, PartialEq, Eq)]
pub enum Sort {
    Value,
    Record,
    Data,
}

#[derive(Clone, Debug)]
pub struct Definition {
    pub name: String,
    pub sort: Sort,
    /// Its lines that count, its signature first.
    pub lines: Vec<String>,
    /// A record's fields or a data type's constructors.
    pub members: Vec<String>,
    /// The line of the module that it stands in, whose parameters are its own too.
    pub module: String,
    indent: usize,
}

impl Definition {
    /// All that its uses are looked for in.
    pub fn text(&self) -> String {
        format!("{}\n{}", self.module, self.lines.join("\n"))
    }

    /// One more of its lines, and the field or constructor that the line declares.
    fn push(&mut self, line: &str) {
        self.members.extend(member(self.sort, line, self.indent + 2).map(String::from));
        self.lines.push(line.to_string());
    }

    /// Whether a line may be one of its own: deeper, an equation of it, or the end of a bracket.
    fn has(&self, line: &str) -> bool {
        let same = indent(line) == self.indent;
        let first = line.split_whitespace().next().unwrap_or_default();
        indent(line) > self.indent || same && (first == self.name || line.trim_start().starts_with(['}', ')']))
    }
}

/// A file's definitions, and the numbers of the lines that belong to none.
#[derive(Debug, Default)]
pub struct Parsed {
    pub definitions: Vec<Definition>,
    pub strays: Vec<usize>,
}

/// Reads a file: a definition runs on until the next one, or until a module begins.
pub fn parse(text: &str) -> Parsed {
    let mut parsed = Parsed::default();
    let mut open = false;
    let mut module = "";
    for (number, line) in declarations(text) {
        if line.starts_with("module ") {
            (open, module) = (false, line);
            continue;
        }
        let last = parsed.definitions.last_mut().filter(|_| open);
        let deeper = last.as_ref().is_some_and(|last| indent(line) > last.indent);
        match (head(line), last) {
            (Some((sort, name)), _) if !deeper => {
                module = if indent(line) == 0 { "" } else { module };
                parsed.definitions.push(begin(sort, name, line, module));
                open = true;
            }
            (_, Some(last)) if last.has(line) => last.push(line),
            _ => parsed.strays.push(number),
        }
    }
    parsed
}

/// The lines that count and are not of a `use`, which may have several.
fn declarations(text: &str) -> impl Iterator<Item = (usize, &str)> {
    let mut in_use = false;
    counted(text, &["--"]).filter(move |(_, line)| {
        let of_use = in_use || line.starts_with("use ");
        in_use = of_use && (in_use || line.contains('{')) && !line.contains('}');
        !of_use
    })
}

/// A definition of which one line is read.
fn begin(sort: Sort, name: &str, line: &str, module: &str) -> Definition {
    Definition {
        name: name.to_string(),
        sort,
        lines: vec![line.to_string()],
        members: Vec::new(),
        module: module.to_string(),
        indent: indent(line),
    }
}

/// The sort and the name of the definition that a line begins.
fn head(line: &str) -> Option<(Sort, &str)> {
    let line = line.trim_start();
    let line = line.strip_prefix("abbrev ").or_else(|| line.strip_prefix("unfoldable ")).unwrap_or(line);
    let mut words = line.strip_prefix("pub ")?.split_whitespace();
    let (sort, name) = match words.next()? {
        "record" => (Sort::Record, words.next()?),
        "data" => (Sort::Data, words.next()?),
        name => (Sort::Value, words.next().filter(|word| *word == ":").map(|_| name)?),
    };
    is_name(name).then_some((sort, name))
}

/// The field or the constructor that a line declares.
fn member(sort: Sort, line: &str, depth: usize) -> Option<&str> {
    let line = (indent(line) == depth).then_some(line.trim_start())?;
    let line = match sort {
        Sort::Value => return None,
        Sort::Record => line.strip_prefix("pub ")?,
        Sort::Data => line,
    };
    let (name, _) = line.split_once(" :")?;
    is_name(name).then_some(name)
}
