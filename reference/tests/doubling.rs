//! Document 02, W3 and W9: doubling has no branch, as the MIR of the proved code shows (`tools/branches`).
//! No test starts the prover: if the crate is not built from these sources (`./run build`), each prints that it is skipped.

use std::path::Path;
use std::process::Command;

/// The number of branches that `tools/branches` counts in a function, or None if the crate is not built.
fn decisions(name: &str, function: &str) -> Option<u32> {
    let script = Path::new(env!("CARGO_MANIFEST_DIR")).join("../tools/branches");
    let output = Command::new(script).args([name, function]).output().expect("tools/branches");
    if output.status.code() == Some(3) {
        return None;
    }
    assert!(output.status.success(), "{}", String::from_utf8_lossy(&output.stderr));
    let text = String::from_utf8(output.stdout).unwrap();
    let last = text.lines().last().unwrap();
    let count = last.strip_prefix(&format!("{function}: ")).unwrap().strip_suffix(" decisions").unwrap();
    Some(count.parse().unwrap())
}

#[test]
fn a_doubling_decides_nothing() {
    for function in ["block_key::doubling", "block_key::doubling120"] {
        match decisions("block_key", function) {
            Some(count) => assert_eq!(count, 0),
            None => eprintln!("skipped: {function} has no branch: block_key is not built (./run build)"),
        }
    }
}

/// Shows that the count can be other than 0: the function for a suite's block size branches.
#[test]
fn a_decision_is_counted() {
    match decisions("cipher", "cipher::size_of") {
        Some(count) => assert!(count > 0),
        None => eprintln!("skipped: a branch is counted: cipher is not built (./run build)"),
    }
}
