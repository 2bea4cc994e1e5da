//! The data of the test programs and the samples, the same in every run.

pub mod amending;
pub mod cases;
pub mod comparing;
pub mod contents;
pub mod counted;
pub mod files;
pub mod in_place;
pub mod moving;
pub mod printing;
pub mod reading;
pub mod resealing;
pub mod samples;
pub mod searching;
pub mod sessions;
pub mod vectors;
pub mod writing;

use crate::calls::{Case, REFERENCE};

/// A file of a folder: its name and its bytes.
pub type Part = (&'static str, Vec<u8>);

/// The folders of the repository that `generate` writes.
pub const FOLDERS: [&str; 12] = [
    "samples",
    "crates/test_ciphers",
    "crates/test_comet",
    "crates/test_session",
    "crates/test_shift",
    "crates/test_writer",
    "crates/job",
    "crates/current",
    "crates/write",
    "crates/convert",
    "crates/differ",
    "crates/inspect",
];

/// The input and the output of a test program for these cases.
pub fn parts_of<C: Case>(cases: &[C]) -> [Part; 2] {
    let stdin = cases.iter().flat_map(C::record).collect();
    let stdout: String = cases.iter().map(|case| case.lines(&REFERENCE)).collect();
    [("stdin", stdin), ("stdout", stdout.into_bytes())]
}

/// The inputs of several groups of cases joined, and their outputs joined.
fn joined<const N: usize>(groups: [[Part; 2]; N]) -> Vec<Part> {
    let of = |i: usize| groups.iter().flat_map(|group| group[i].1.clone()).collect();
    vec![("stdin", of(0)), ("stdout", of(1))]
}

/// The files of a folder.
pub fn parts(folder: &str) -> Vec<Part> {
    match folder {
        "samples" => samples::parts().to_vec(),
        "crates/test_ciphers" => vectors::parts().to_vec(),
        "crates/test_comet" => {
            joined([parts_of(&cases::calls()), parts_of(&counted::calls()), parts_of(&in_place::calls())])
        }
        "crates/test_session" => sessions::parts().to_vec(),
        "crates/test_shift" => joined([
            files::parts(),
            parts_of(&searching::calls()),
            parts_of(&amending::calls()),
            parts_of(&comparing::calls()),
            parts_of(&reading::calls()),
            printing::parts(),
            parts_of(&contents::calls()),
        ]),
        "crates/test_writer" => {
            joined([parts_of(&writing::calls()), parts_of(&resealing::calls()), parts_of(&moving::calls())])
        }
        "crates/job" => samples::job_parts().to_vec(),
        "crates/current" => samples::current_parts().to_vec(),
        "crates/write" => writing::write_parts().to_vec(),
        "crates/convert" => moving::convert_parts().to_vec(),
        "crates/differ" => comparing::differ_parts().to_vec(),
        "crates/inspect" => reading::inspect_parts().to_vec(),
        _ => unreachable!("no data for {folder}"),
    }
}
