//! Links libclew_c.a, if the feature `archive` asks for it.

mod archive;

use std::path::{Path, PathBuf};
use std::{env, fs};

const ARCHIVE: &str = "libclew_c.a";

fn main() {
    println!("cargo::rerun-if-changed=build.rs");
    println!("cargo::rerun-if-env-changed=CLEW_LIB_DIR");
    if env::var_os("CARGO_FEATURE_ARCHIVE").is_none() {
        return;
    }
    match folder_to_link(&processor()) {
        Ok(folder) => {
            println!("cargo::rustc-link-search=native={}", folder.display());
            println!("cargo::rustc-link-lib=static=clew_c");
        }
        Err(words) => println!("cargo::error={words}"),
    }
}

/// The processor that this build is for, spelled as tools/archive spells it.
fn processor() -> String {
    env::var("CARGO_CFG_TARGET_ARCH").expect("cargo gives the processor").replace('_', "-")
}

/// The folder of the archive, which has to be for this processor; or what is wrong, in words.
fn folder_to_link(processor: &str) -> Result<PathBuf, String> {
    let name = match processor {
        "arm" => "armv7",
        "wasm32" => "wasm",
        same => same,
    };
    let folder = folder(name);
    let makes = format!("`tools/archive {name}` makes");
    if !has_archive(&folder) {
        let place = folder.display();
        return Err(format!(
            "{ARCHIVE} is not in {place}: {makes} it, in target/archives/{name}; CLEW_LIB_DIR may name another folder"
        ));
    }
    let of = format!("{ARCHIVE} in {}", folder.display());
    let bytes = fs::read(folder.join(ARCHIVE)).map_err(|error| format!("{of}: {error}"))?;
    match archive::processor(&bytes) {
        Some(its) if its == processor => Ok(folder),
        Some(its) => Err(format!(
            "{of} is for {its}, and this build is for {processor}: {makes} the right one, in target/archives/{name}"
        )),
        None => Err(format!("{of} is no archive of objects: {makes} one, in target/archives/{name}")),
    }
}

/// Where the archive is looked for: the folder that CLEW_LIB_DIR names, or the one of the repository's top into which
/// tools/archive puts it.
fn folder(name: &str) -> PathBuf {
    if let Some(folder) = env::var_os("CLEW_LIB_DIR") {
        return PathBuf::from(folder);
    }
    let manifest = env::var_os("CARGO_MANIFEST_DIR").expect("cargo gives the manifest's folder");
    let top = Path::new(&manifest).ancestors().nth(2).expect("this crate stands two folders below the top");
    top.join("target/archives").join(name)
}

/// Whether the archive is there; cargo looks again when that changes.
fn has_archive(folder: &Path) -> bool {
    let archive = folder.join(ARCHIVE);
    println!("cargo::rerun-if-changed={}", archive.display());
    archive.is_file()
}
