//! `reading`: compares docs/READING.md with what has to be believed, and says how much that is.

use std::env;
use std::path::PathBuf;
use std::process::ExitCode;

use reading::tree::Tree;

/// The root is the first argument, or the current folder.
fn main() -> ExitCode {
    let root = PathBuf::from(env::args_os().nth(1).unwrap_or_else(|| ".".into()));
    let tree = match Tree::read(&root) {
        Ok(tree) => tree,
        Err(words) => {
            eprintln!("reading: {words}");
            return ExitCode::FAILURE;
        }
    };
    let mut report = reading::report(&tree, &|path| root.join(path).exists());
    let untold = reading::untold(&tree, &report);
    report.differences.extend(untold);
    for line in report.differences.iter().chain(&report.sizes) {
        println!("{line}");
    }
    if report.differences.is_empty() {
        ExitCode::SUCCESS
    } else {
        ExitCode::FAILURE
    }
}
