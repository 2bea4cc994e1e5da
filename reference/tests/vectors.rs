//! The folder vectors/: its files are what the generator writes, and the sections that they cite exist in docs/FORMAT.md.

use reference::vectors::answer::answer;
use reference::vectors::json::{Object, Value};
use reference::vectors::mistakes::{Mistake, MISTAKES};
use reference::vectors::rules::RULES;
use reference::vectors::{parts, Test};
use std::path::Path;

fn root() -> &'static Path {
    Path::new(concat!(env!("CARGO_MANIFEST_DIR"), "/.."))
}

#[test]
fn files_are_as_generated() {
    let parts = parts();
    for (name, text) in &parts {
        let kept = std::fs::read_to_string(root().join("vectors").join(name)).expect(name);
        assert!(kept == *text, "{name} differs: cargo run --release --bin vectors");
    }
    let total: usize = parts.iter().map(|(_, text)| text.len()).sum();
    assert!(total < 3_000_000, "{total} bytes");
}

#[test]
fn rules_stand_in_the_format() {
    let format = std::fs::read_to_string(root().join("docs/FORMAT.md")).expect("docs/FORMAT.md");
    for (name, section, _) in RULES {
        let heading = format!("## {section}");
        assert!(format.lines().any(|line| line == heading), "rule {name}: no section {section}");
    }
}

/// Whether the mistake changes the answer to some case.
fn is_found(tests: &[Test], mistake: Mistake) -> bool {
    let records = tests.iter().filter(|test| ["seal", "open"].contains(&test.case.text_of("call")));
    records.into_iter().any(|test| answer(&test.case, mistake).as_ref() != Some(&test.answer))
}

#[test]
fn every_mistake_is_found_under_every_suite() {
    let tests = reference::vectors::mistake_tests();
    for (mistake, name, _) in MISTAKES {
        for suite in 1..=6 {
            let of_suite = |test: &&Test| test.case.number_of("suite") == suite;
            let tests: Vec<Test> = tests.iter().filter(of_suite).cloned().collect();
            assert!(is_found(&tests, mistake), "{name}, suite {suite}");
        }
    }
}

#[test]
fn every_status_is_tried() {
    let mut seen = std::collections::BTreeSet::new();
    for (_, text) in parts() {
        for answer in text.split("\"answer\": ").skip(1) {
            let object = Object::parse(&answer[..=answer.find('}').expect("an end")]).expect("a flat object");
            match &object.0[0].1 {
                Value::Number(status) => seen.extend([*status]),
                Value::Text(list) => {
                    seen.extend(list.split(' ').map(|status| status.parse::<u64>().expect("a status")))
                }
            }
        }
    }
    assert_eq!(seen.into_iter().collect::<Vec<u64>>(), (0..=10).chain(20..=36).collect::<Vec<u64>>());
}
