//! Writes the conformance vectors, byte for byte the same in every run.
//!
//! ```text
//! vectors [DIR]     into DIR, or the repository's vectors/
//! ```

use reference::vectors::parts;
use std::path::PathBuf;

/// The named folder, or vectors/ of the repository around the current folder: this folder or its parent.
fn folder(named: Option<String>) -> PathBuf {
    let of_repository = || ["vectors", "../vectors"].into_iter().find(|path| PathBuf::from(path).is_dir());
    let found = named.or_else(|| of_repository().map(String::from));
    PathBuf::from(found.expect("no folder vectors/ here or one folder above: give a folder"))
}

fn main() {
    let folder = folder(std::env::args().nth(1));
    let mut total = 0;
    for (name, text) in parts() {
        let path = folder.join(name);
        std::fs::write(&path, &text).unwrap_or_else(|e| panic!("{}: {e}", path.display()));
        println!("{:>8} bytes, {:>4} cases: {}", text.len(), text.matches("\"case\": ").count(), path.display());
        total += text.len();
    }
    println!("{total:>8} bytes");
}
