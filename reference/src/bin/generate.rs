//! Writes the data of the test programs and the samples, byte for byte the same in every run.
//!
//! ```text
//! generate [ROOT]           into the repository's samples/ and those program folders that exist
//! generate --all-to DIR     everything under DIR
//! ```

use reference::data::{parts, Part, FOLDERS};
use std::path::{Path, PathBuf};

fn write(folder: &Path, parts: &[Part]) {
    for (name, bytes) in parts {
        let path = folder.join(name);
        let parent = path.parent().expect("a folder");
        std::fs::create_dir_all(parent).unwrap_or_else(|e| panic!("{}: {e}", parent.display()));
        std::fs::write(&path, bytes).unwrap_or_else(|e| panic!("{}: {e}", path.display()));
        println!("{:>8} bytes: {}", bytes.len(), path.display());
    }
}

/// The named repository, or the one around the current folder: this folder or its parent.
fn root(named: Option<&String>) -> PathBuf {
    let candidates = named.map_or(vec![".", ".."], |path| vec![path]);
    let found = candidates.into_iter().map(PathBuf::from).find(|path| path.join("crates.txt").exists());
    found.expect("no repository (crates.txt) there: give its path, or --all-to DIR")
}

fn main() {
    let arguments: Vec<String> = std::env::args().skip(1).collect();
    let (root, all) = match arguments.first().map(String::as_str) {
        Some("--all-to") => (PathBuf::from(arguments.get(1).expect("--all-to DIR")), true),
        _ => (root(arguments.first()), false),
    };
    for name in FOLDERS {
        let folder = root.join(name);
        if all || name == "samples" || folder.is_dir() {
            write(&folder, &parts(name));
        } else {
            println!("skipped: {} is not there", folder.display());
        }
    }
}
