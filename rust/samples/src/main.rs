//! Writes the sample files into the directory that is named, or into samples/ and crates/walk/data of the repository.

use std::path::{Path, PathBuf};
use std::{env, fs, io};

fn main() -> io::Result<()> {
    let top = Path::new(env!("CARGO_MANIFEST_DIR")).join("../..");
    let kept = || samples::FOLDERS.map(|folder| top.join(folder)).to_vec();
    for directory in env::args_os().nth(1).map_or_else(kept, |named| vec![PathBuf::from(named)]) {
        for (name, bytes) in samples::files() {
            fs::write(directory.join(name), bytes)?;
        }
    }
    Ok(())
}
