//! The files in samples/ and in crates/walk/data are the ones that this crate makes.

use std::fs;
use std::path::Path;

#[test]
fn the_files_that_are_kept_are_these() {
    for folder in samples::FOLDERS {
        let directory = Path::new(env!("CARGO_MANIFEST_DIR")).join("../..").join(folder);
        let files = samples::files();
        for (name, bytes) in &files {
            assert!(fs::read(directory.join(name)).expect("the file is kept") == *bytes, "{folder}/{name} differs");
        }
        assert_eq!(
            fs::read_dir(directory).expect("the folder is kept").count(),
            files.len(),
            "{folder} has other files"
        );
    }
}
