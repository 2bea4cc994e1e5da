//! The data of the test programs: it produces every status, and the repository's files are what `generate` writes.

use reference::calls::{Case, Deed, REFERENCE};
use reference::data::{
    amending, cases, comparing, counted, files, in_place, moving, parts, printing, reading, resealing, searching,
    sessions, writing, FOLDERS,
};
use reference::random::Random;
use reference::trials;
use std::collections::BTreeSet;
use std::path::Path;

#[test]
fn cases_provoke_every_number() {
    let numbers = |opens: bool| -> BTreeSet<u32> {
        let calls = cases::calls().into_iter().filter(|call| call.opens == opens);
        calls.map(|call| call.answer(&REFERENCE).number).collect()
    };
    assert_eq!(numbers(false), [10].into_iter().chain(0..=7).collect());
    assert_eq!(numbers(true), (0..=8).collect());
}

#[test]
fn files_provoke_every_number() {
    let answers: Vec<_> = files::calls().iter().map(|call| call.answer(&REFERENCE)).collect();
    let checks: BTreeSet<u32> = answers.iter().map(|answer| answer.check.0).collect();
    let opens: BTreeSet<u32> = answers.iter().map(|answer| answer.open.0).collect();
    assert_eq!(checks, [0, 34].into_iter().chain(20..=31).collect());
    assert_eq!(opens, [0, 2, 6, 8, 34].into_iter().chain(20..=32).collect());
}

#[test]
fn sessions_provoke_every_number() {
    let numbers: BTreeSet<u32> =
        sessions::runs().iter().flat_map(|run| run.answer(&REFERENCE)).map(|step| step.number).collect();
    assert_eq!(numbers, [9, 10].into_iter().chain(0..=7).collect());
}

#[test]
fn writing_provokes_every_number() {
    let numbers = |pass: writing::Pass| -> BTreeSet<u32> {
        let calls = writing::calls().into_iter().filter(|call| call.pass == pass);
        calls.map(|call| call.answer(&REFERENCE).answer.0).collect()
    };
    assert_eq!(numbers(writing::Pass::Seal), [0, 2, 6, 10, 33, 34].into_iter().chain(20..=31).collect());
    assert_eq!(numbers(writing::Pass::Unseal), [0, 2, 6, 8, 34].into_iter().chain(20..=31).collect());
}

#[test]
fn searching_provokes_every_number() {
    let answers: Vec<_> = searching::calls().iter().flat_map(|call| call.answer(&REFERENCE)).collect();
    let numbers: BTreeSet<u32> = answers.iter().map(|((number, _), _)| *number).collect();
    assert_eq!(numbers, [0, 32].into_iter().chain(20..=24).collect());
    assert_eq!(answers.iter().map(|(_, looked)| *looked).max(), Some(10));
}

#[test]
fn resealing_provokes_every_number() {
    let numbers: BTreeSet<u32> = resealing::calls().iter().map(|call| call.answer(&REFERENCE).answer.0).collect();
    assert_eq!(numbers, [0, 2, 6, 8, 34].into_iter().chain(20..=31).collect());
}

#[test]
fn comparing_provokes_every_number() {
    let answers: Vec<_> = comparing::calls().iter().map(|call| call.answer(&REFERENCE).answer).collect();
    let numbers = |file: u32| -> BTreeSet<u32> {
        answers.iter().filter(|answer| answer.file == file).map(|answer| answer.number).collect()
    };
    assert_eq!(numbers(0), [0, 36].into());
    assert_eq!(numbers(1), [34].into_iter().chain(20..=31).collect());
    assert_eq!(numbers(2), numbers(1));
}

#[test]
fn moving_provokes_every_number() {
    let numbers = |to: usize| -> BTreeSet<u32> {
        let calls = moving::calls().into_iter().filter(|call| call.to == to);
        calls.map(|call| call.answer(&REFERENCE).answer.0).collect()
    };
    assert_eq!(numbers(2), [0, 6, 34].into_iter().chain(20..=31).collect());
    assert_eq!(numbers(1), [0, 6, 34, 35].into_iter().chain(20..=31).collect());
    // only the comparison has a move whose result would be too long
    moving::longest(|_| {});
}

#[test]
fn amending_provokes_every_number() {
    let answers: Vec<_> = amending::calls().iter().map(|call| call.answer(&REFERENCE)).collect();
    let numbers = |file: u32| -> BTreeSet<u32> {
        answers.iter().map(|answer| answer.opened).filter(|opened| opened.1 == file).map(|opened| opened.0).collect()
    };
    assert_eq!(numbers(0), [32].into());
    assert_eq!(numbers(1), [0, 2, 6, 8, 34].into_iter().chain(20..=31).collect());
    assert_eq!(numbers(2), numbers(1));
}

#[test]
fn counted_provokes_every_number() {
    let numbers = |opens: bool| -> BTreeSet<u32> {
        let calls = counted::calls().into_iter().filter(|call| call.0.opens == opens);
        calls.map(|call| call.answer(&REFERENCE).1.number).collect()
    };
    assert_eq!(numbers(false), [0, 1, 2, 3, 4, 6, 7, 10].into());
    assert_eq!(numbers(true), [0, 1, 2, 3, 6, 7, 8].into());
}

/// Every status except those of a long input, which only the comparison has.
#[test]
fn in_place_provokes_every_number() {
    let numbers = |deed: Deed| -> BTreeSet<u32> {
        let calls = in_place::calls().into_iter().filter(|call| call.deed == deed);
        calls.map(|call| call.answer(&REFERENCE).number).collect()
    };
    assert_eq!(numbers(Deed::Seal), [0, 1, 2, 3, 5, 7, 10].into());
    assert_eq!(numbers(Deed::Open), [0, 1, 2, 3, 5, 7, 8].into());
    assert_eq!(numbers(Deed::Verify), [0, 1, 2, 3, 4, 7, 8].into());
}

#[test]
fn reading_provokes_every_number() {
    let numbers: BTreeSet<u32> = reading::calls().iter().map(|call| call.answer(&REFERENCE).report.number).collect();
    assert_eq!(numbers, [0, 2, 6, 34].into_iter().chain(20..=31).collect());
}

/// The first lines that the programs print have every possible status, and entries are shown in every way.
#[test]
fn printing_provokes_every_number() {
    use printing::PrintCall::{Current, Differ, Inspect, Job};
    let calls = printing::calls();
    let first = |is: fn(&printing::PrintCall) -> bool, word: usize| -> BTreeSet<String> {
        let lines = calls.iter().filter(|call| is(call)).map(|call| call.printed());
        lines.map(|text| text.lines().next().unwrap().split(' ').nth(word).unwrap_or("").to_string()).collect()
    };
    let numbers = |more: &[&str]| -> BTreeSet<String> {
        (20..=31).chain([34]).map(|number| number.to_string()).chain(more.iter().map(|word| word.to_string())).collect()
    };
    assert_eq!(first(|call| matches!(call, Job { .. }), 0), numbers(&["0", "2", "8", "32"]));
    assert_eq!(first(|call| matches!(call, Current { .. }), 0), numbers(&["0", "2", "8", "32"]));
    assert_eq!(first(|call| matches!(call, Current { .. }), 1), ["0", "1", "2"].map(String::from).into());
    assert_eq!(first(|call| matches!(call, Differ { .. }), 2), numbers(&[""]));
    assert_eq!(first(|call| matches!(call, Differ { .. }), 1), ["", "1", "2"].map(String::from).into());
    let inspected = first(|call| matches!(call, Inspect { .. }), 1);
    assert!(numbers(&["0", "2", "3", "512"]).is_subset(&inspected));
    let text: String = calls.iter().map(|call| call.printed()).collect();
    for line in ["unit 1 newton-metres", "unit 2 inch-pounds", "data empty", "message empty", "station 0"] {
        assert!(text.contains(&format!("\n{line}\n")), "{line}");
    }
    for start in ["data text ", "data hex ", "message text ", "message hex ", "station 4294967295"] {
        assert!(text.contains(&format!("\n{start}")), "{start}");
    }
}

/// The random files of the comparison produce every status of opening a job.
#[test]
fn random_files_provoke_every_number() {
    let mut numbers = BTreeSet::new();
    trials::shift_files(&mut Random::new(1), 20_000, |call| {
        numbers.insert(call.answer(&REFERENCE).open.0);
    });
    assert_eq!(numbers, [0, 2, 6, 8, 34].into_iter().chain(20..=32).collect());
}

/// Each folder that exists contains what `generate` writes.
#[test]
fn the_repository_has_what_is_generated() {
    for name in FOLDERS {
        let folder = Path::new(env!("CARGO_MANIFEST_DIR")).join("..").join(name);
        for (part, bytes) in parts(name).into_iter().filter(|_| folder.is_dir()) {
            let found = std::fs::read(folder.join(part)).unwrap_or_default();
            assert!(found == bytes, "{name}/{part} is not what `generate` writes");
        }
    }
}
